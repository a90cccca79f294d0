//! The calls that read a block, and the lister.

use crate::table::Call;
use crate::{first_difference, Run};
use comparison::Library;
use second::cases::{
    every_cut, every_flip, limit_case, ReaderCase, SamplesCase, ScanCase, Second, Side,
};
use second::lister;
use second::reader::{words_of_bytes, LIMIT};
use std::fmt::Display;
use std::io::Write;
use std::process::{Command, Stdio};

const RECORD: usize = 6;
const WINDOW: u64 = 7;
const PULSE_RAW: u64 = 8;
const END: u64 = 16;
/// What stands in lent arrays before a call.
const OLD: u8 = 0xA5;

/// The input is checked, read record by record, its raw items too, and listed. All cuts and bit flips
/// of some of the shorter ones are checked and read, and of a few listed.
pub fn reader(run: &mut Run, seed: u64, number: u64) -> Result<(), String> {
    let case = ReaderCase::new(seed, number);
    input(run, &case, &case.bytes)?;
    raw_items(run, &case, &case.bytes)?;
    text(run, &case, &case.bytes)?;
    if !number.is_multiple_of(32) || case.bytes.len() > 400 {
        return Ok(());
    }
    for cut in every_cut(&case.bytes) {
        input(run, &format_args!("{case}, cut to {} bytes", cut.len()), cut)?;
    }
    flips(run, &case, number.is_multiple_of(512))
}

fn flips(run: &mut Run, case: &ReaderCase, listed: bool) -> Result<(), String> {
    for (bit, flipped) in every_flip(&case.bytes).enumerate() {
        let what = format_args!("{case}, bit {bit} flipped");
        input(run, &what, &flipped)?;
        if listed {
            text(run, &what, &flipped)?;
        }
    }
    Ok(())
}

/// The reading is taken up shortly before the block's end, to which there are four million records.
pub fn limit(run: &mut Run, _: u64, number: u64) -> Result<(), String> {
    let case = limit_case(number);
    let checked = check(run, &case, &case.bytes)?;
    let words = words_of_bytes(&case.bytes).unwrap_or_default();
    let events = words.first().map_or(0, |header| header & 0xFF);
    let near_end = [LIMIT as u32 - 4, 5, events - 1, 5, 0, 0];
    read(run, &case, &words, near_end, checked)
}

fn check(run: &mut Run, what: &dyn Display, bytes: &[u8]) -> Result<u64, String> {
    let (a, b) = (Library.check(bytes), Second.check(bytes));
    run.same(what, Call::Check, a >> 32, &(a >> 32, a as u32), &(b >> 32, b as u32))?;
    Ok(a)
}

fn input(run: &mut Run, what: &dyn Display, bytes: &[u8]) -> Result<(), String> {
    let checked = check(run, what, bytes)?;
    match words_of_bytes(bytes) {
        Some(words) => read(run, what, &words, [0; 6], checked),
        None => Ok(()),
    }
}

/// Record by record to the end or the refusal, which must be what the check of the same block said.
fn read(
    run: &mut Run,
    what: &dyn Display,
    words: &[u32],
    start: [u32; 6],
    checked: u64,
) -> Result<(), String> {
    let (mut ours, mut theirs) =
        ((start, [OLD.into(); RECORD + 1]), (start, [OLD.into(); RECORD + 1]));
    // Each record but the last takes a word at least.
    for count in 0..words.len() + 2 {
        let a = Library.next(&mut ours.0, words, &mut ours.1);
        let b = Second.next(&mut theirs.0, words, &mut theirs.1);
        let what = format_args!("{what}, record {count}");
        run.same(
            &what,
            Call::Next,
            a >> 32,
            &(a >> 32, a as u32, ours),
            &(b >> 32, b as u32, theirs),
        )?;
        read_kind(run, a, &ours.1);
        if a >> 32 != 0 || ours.1[0] == END {
            let told = || format!("{what}: it answers {a:#x}, the check {checked:#x}\n");
            return if a == checked { Ok(()) } else { Err(told()) };
        }
    }
    Err(format!("{what}: the reading does not end\n"))
}

/// Notes the kind of a record that was read.
fn read_kind(run: &mut Run, answer: u64, record: &[u64]) {
    if answer >> 32 == 0 {
        run.kinds[record[0] as usize] = true;
    }
}

/// The samples of each raw item of the first block.
fn raw_items(run: &mut Run, what: &dyn Display, bytes: &[u8]) -> Result<(), String> {
    let words = words_of_bytes(bytes).unwrap_or_default();
    let (mut scan, mut record) = ([0; 6], [0; RECORD]);
    while Library.next(&mut scan, &words, &mut record) >> 32 == 0 && record[0] != END {
        let [kind, .., place, pairs] = record;
        if matches!(kind, WINDOW | PULSE_RAW) {
            raw_item(run, what, &words, (place as u32, pairs as u32))?;
        }
    }
    Ok(())
}

/// Into room that is one or two short, just enough, and more.
fn raw_item(
    run: &mut Run,
    what: &dyn Display,
    words: &[u32],
    part: (u32, u32),
) -> Result<(), String> {
    let most = 2 * part.1 as usize; // or one fewer
    for room in [most.saturating_sub(2), most.saturating_sub(1), most, most + 1] {
        samples(run, what, words, part, &vec![OLD.into(); room])?;
    }
    Ok(())
}

fn samples(
    run: &mut Run,
    what: &dyn Display,
    words: &[u32],
    (place, pairs): (u32, u32),
    old: &[u16],
) -> Result<(), String> {
    let (mut ours, mut theirs) = (old.to_vec(), old.to_vec());
    let a = Library.samples(words, place, pairs, &mut ours);
    let b = Second.samples(words, place, pairs, &mut theirs);
    run.same(what, Call::Samples, 0, &(a, ours), &(b, theirs))
}

/// One call with any scan and any room for the record.
pub fn scan(run: &mut Run, seed: u64, number: u64) -> Result<(), String> {
    let case = ScanCase::new(seed, number);
    let (mut ours, mut theirs) =
        ((case.scan.clone(), case.record.clone()), (case.scan.clone(), case.record.clone()));
    let a = Library.next(&mut ours.0, &case.words, &mut ours.1);
    let b = Second.next(&mut theirs.0, &case.words, &mut theirs.1);
    let (ours, theirs) = ((a >> 32, a as u32, ours), (b >> 32, b as u32, theirs));
    run.same(&case, Call::Next, a >> 32, &ours, &theirs)?;
    read_kind(run, a, &ours.2 .1);
    Ok(())
}

/// Any part of any words, or what is no part of them.
pub fn part(run: &mut Run, seed: u64, number: u64) -> Result<(), String> {
    let case = SamplesCase::new(seed, number);
    samples(run, &case, &case.words, (case.place, case.pairs), &case.samples)
}

/// The text into just enough room, and then into room that is one short, none, or more.
fn text(run: &mut Run, what: &dyn Display, bytes: &[u8]) -> Result<(), String> {
    let mut theirs = lister::text(bytes).into_bytes();
    let mut ours = vec![OLD; theirs.len()];
    let a = Library.list(bytes, &mut ours);
    if ours != theirs {
        return Err(texts_differ(what, &ours, &theirs));
    }
    let (answer, length) = (refusal(&ours), ours.len());
    run.same(what, Call::List, answer, &a, &(length as u64))?;
    let other = [length.saturating_sub(1), 0, length + 3][bytes.len() / 4 % 3];
    (ours, theirs) = (vec![OLD; other], vec![OLD; other]);
    let (a, b) = (Library.list(bytes, &mut ours), Second.list(bytes, &mut theirs));
    let what = format_args!("{what}, room {other} for {length}");
    run.same(&what, Call::List, answer, &(a, ours), &(b, theirs))
}

fn texts_differ(what: &dyn Display, ours: &[u8], theirs: &[u8]) -> String {
    let lines = |text: &[u8]| -> Vec<String> {
        String::from_utf8_lossy(text).lines().map(str::to_string).collect()
    };
    format!("{what}\n{}", first_difference("line", &lines(ours), &lines(theirs)))
}

/// The refusal in a text's last line, 0 for none.
fn refusal(text: &[u8]) -> u64 {
    let text = String::from_utf8_lossy(text);
    let fields = text.lines().last().and_then(|line| line.strip_prefix("refused\t"));
    fields.and_then(|fields| fields.split('\t').next()?.parse().ok()).unwrap_or(0)
}

/// The lister is a program: its text through a pipe.
pub fn lister(run: &mut Run, seed: u64, number: u64) -> Result<(), String> {
    let case = ReaderCase::new(seed, number);
    let ours =
        listed(&run.lister, &case.bytes).map_err(|error| format!("{}: {error}", run.lister))?;
    let theirs = lister::list(&case.bytes);
    if ours != theirs.as_bytes() {
        return Err(texts_differ(&format_args!("{case}, by the lister"), &ours, theirs.as_bytes()));
    }
    run.same(&case, Call::Lister, refusal(&ours), &(), &())
}

fn listed(program: &str, bytes: &[u8]) -> std::io::Result<Vec<u8>> {
    let mut child = Command::new("tools/here")
        .arg(program)
        .stdin(Stdio::piped())
        .stdout(Stdio::piped())
        .stderr(Stdio::null())
        .spawn()?;
    let mut input = child.stdin.take().ok_or_else(|| std::io::Error::other("no pipe"))?;
    let bytes = bytes.to_vec();
    // It reads no more than it needs, so the rest may not be taken.
    let writer = std::thread::spawn(move || input.write_all(&bytes));
    let text = child.wait_with_output()?.stdout;
    let _ = writer.join();
    Ok(text)
}
