//! The command line of the second opinion.

use second::cases::{
    limit_case, FinderCase, ReaderCase, SamplesCase, ScanCase, SequenceCase, SEED,
};
use second::writer::State;
use second::{calls, lister};
use std::io::{self, Read, Write};
use std::process::ExitCode;

const USAGE: &str = "\
second list  < block            the lister's text
second check < block            the reader's number
second demo                     run A of document 01, from set up to finish
second cases KIND [SEED [COUNT]]  lines of cases
second case KIND SEED NUMBER    one case in full
KIND is finder, sequence, reader, lister, limit, scan or samples.
";

fn main() -> ExitCode {
    let arguments: Vec<String> = std::env::args().skip(1).collect();
    let arguments: Vec<&str> = arguments.iter().map(String::as_str).collect();
    let text = match arguments[..] {
        // One byte more than the lister takes is enough to be refused.
        ["list"] => input(lister::MOST_BYTES as u64 + 1).map(|bytes| lister::list(&bytes)),
        ["check"] => input(u64::MAX).map(|bytes| format!("{}\n", calls::check(&bytes))),
        ["demo"] => Ok(demo()),
        ["cases", kind] => Ok(cases(kind, SEED, 10)),
        ["cases", kind, seed] => Ok(cases(kind, number(seed), 10)),
        ["cases", kind, seed, count] => Ok(cases(kind, number(seed), number(count))),
        ["case", kind, seed, of] => Ok(case(kind, number(seed), number(of), true)),
        _ => {
            let _ = io::stderr().write_all(USAGE.as_bytes());
            return ExitCode::from(2);
        }
    };
    match text.and_then(|text| io::stdout().write_all(text.as_bytes())) {
        Ok(()) => ExitCode::SUCCESS,
        Err(_) => ExitCode::FAILURE,
    }
}

fn input(most: u64) -> io::Result<Vec<u8>> {
    let mut bytes = Vec::new();
    io::stdin().lock().take(most).read_to_end(&mut bytes)?;
    Ok(bytes)
}

fn number(text: &str) -> u64 {
    text.parse().unwrap_or(SEED)
}

fn cases(kind: &str, seed: u64, count: u64) -> String {
    (0..count).map(|of| case(kind, seed, of, false)).collect()
}

fn case(kind: &str, seed: u64, of: u64, full: bool) -> String {
    fn show<T: std::fmt::Display + std::fmt::Debug>(case: T, full: bool) -> String {
        if full {
            format!("{case}\n{case:?}\n")
        } else {
            format!("{case}\n")
        }
    }
    match kind {
        "finder" => show(FinderCase::new(seed, of), full),
        "sequence" => show(SequenceCase::new(seed, of), full),
        "reader" | "lister" => show(ReaderCase::new(seed, of), full),
        // A case of 16 MB is not shown in full.
        "limit" => show(limit_case(of), false),
        "scan" => show(ScanCase::new(seed, of), full),
        "samples" => show(SamplesCase::new(seed, of), full),
        _ => String::new(),
    }
}

/// Run A: its words in hex, then the lister's lines.
fn demo() -> String {
    let mut settings = [100u64; 26];
    settings[..10].copy_from_slice(&[7, 16, 20, 2, 5, 3, 5, 1, 2, 2]);
    let window = [10, 11, 12, 11, 10, 40, 120, 200, 180, 90, 60, 30, 12, 11, 10, 11];
    let (mut state, mut store, mut words) = ([0; State::NUMBERS], [0u16; 256], [0u32; 16]);
    let answers = [
        calls::set_up(&settings, &mut state),
        calls::open_block(&mut state, &mut words, 1, 1),
        calls::open_event(&mut state, 9, 256),
        calls::post(&mut state, &mut store, 3, &window),
        calls::close(&mut state, &store, &mut words),
    ];
    let length = calls::finish(&mut state, &mut words);
    let block = words.get(..length as usize).unwrap_or(&[]);
    if answers != [0; 5] || block.is_empty() {
        return format!("refused: {answers:?}, {length}\n");
    }
    let hex: Vec<String> = block.iter().map(|word| format!("{word:08X}")).collect();
    let bytes: Vec<u8> = block.iter().flat_map(|word| word.to_be_bytes()).collect();
    format!("{}\n{}", hex.join(" "), lister::list(&bytes))
}
