//! Compiles the rivals in C, peer.c twice, for the processor that every x86-64 is.

use std::env;
use std::process::Command;

/// Aligned, since a short loop is up to twice as slow where it happens to lie across a boundary.
const FLAGS: [&str; 7] =
    ["-O3", "-falign-functions=64", "-falign-loops=32", "-Wall", "-Wextra", "-c", "peer.c"];

fn run(program: &str, arguments: &[&str]) {
    let status = Command::new(program).args(arguments).status();
    assert!(status.is_ok_and(|status| status.success()), "{program} {arguments:?}");
}

fn main() {
    let folder = env::var("OUT_DIR").expect("cargo sets it");
    let compiler = env::var("CC").unwrap_or_else(|_| "gcc".to_string());
    let [plain, sse2, archive] =
        ["plain.o", "sse2.o", "libpeer.a"].map(|name| format!("{folder}/{name}"));
    run(&compiler, &[&FLAGS[..], &["-o", &plain]].concat());
    run(&compiler, &[&FLAGS[..], &["-DSSE2", "-o", &sse2]].concat());
    run("ar", &["crs", &archive, &plain, &sse2]);
    println!("cargo:rustc-link-search=native={folder}");
    println!("cargo:rustc-link-lib=static=peer");
    for file in ["peer.c", "peer.h", "plain.h", "sse2.h", "words.h", "../include/fadc250.h"] {
        println!("cargo:rerun-if-changed={file}");
    }
    println!("cargo:rerun-if-env-changed=CC");
}
