//! Links the archive that `make` wrote.

fn main() {
    let archives = concat!(env!("CARGO_MANIFEST_DIR"), "/../../target");
    println!("cargo:rustc-link-search=native={archives}");
    println!("cargo:rustc-link-lib=static=fadc250");
    println!("cargo:rerun-if-changed={archives}/libfadc250.a");
}
