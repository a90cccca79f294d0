//! Blocks about the place 4,194,303, 16 MB each.

use super::reader::{bytes_of, ReaderCase};
use crate::reader::LIMIT;
use crate::words::{self, put, tag};

const SLOT: u32 = 5;
const ITEM: u32 = put(1, 31, 31) | put(words::INTEGRAL, 30, 27);

/// How a block ends, and how many of these words stand before the place.  The
/// order of the refusals shows only where a word would be refused with another
/// number there.
fn ends() -> [(&'static str, usize, Vec<u32>); LIMIT_CASES as usize] {
    let trailer = words::trailer(SLOT, LIMIT as u32);
    let (filler, other) = (words::filler(SLOT), words::filler(SLOT + 1));
    let (raw, pair) = (words::pulse_raw(1, 0, 1), put(1, 28, 16) | put(2, 12, 0));
    let [time, time_high] = words::trigger_time(256);
    let (scalers, none, two) = (words::scalers(18), words::scalers(0), words::scalers(2));
    [
        ("limit, the longest block", 1, vec![trailer]),
        ("limit, cut before the trailer", 1, vec![]),
        ("limit, no word", 0, vec![]),
        ("limit, an item", 0, vec![ITEM]),
        ("limit, a trailer", 0, vec![words::trailer(SLOT, 0)]),
        ("limit, a trailer of another slot", 0, vec![words::trailer(SLOT + 1, 0)]),
        ("limit, a continuation", 0, vec![0]),
        ("limit, a type that is none", 0, vec![put(1, 31, 31) | put(13, 30, 27)]),
        ("limit, a block header", 0, vec![words::block_header(SLOT, 1, 1)]),
        ("limit, an event of another slot", 0, vec![words::event_header(SLOT + 1, 1)]),
        ("limit, a bit that must be zero", 0, vec![words::time(1, 0, 1, 1) | 1 << 15]),
        ("limit, a first pair", 1, vec![raw, pair]),
        ("limit, a first pair missing", 1, vec![raw, ITEM]),
        ("limit, a second pair", 2, vec![raw, pair, pair]),
        ("limit, a pair of a window", 2, vec![words::window(1, 4), pair, pair]),
        ("limit, a second time word", 2, vec![words::event_header(SLOT, 1), time, time_high]),
        ("limit, scalers", 0, vec![scalers]),
        ("limit, scalers with a bit that must be zero", 0, vec![scalers | 1 << 6]),
        ("limit, a first scaler", 1, vec![two, 0]),
        ("limit, a first scaler missing", 1, vec![two]),
        ("limit, a second scaler like a trailer", 2, vec![two, ITEM, trailer]),
        ("limit, an item behind scalers", 1, vec![none, ITEM]),
        ("limit, the longest block with scalers", 4, vec![two, trailer, pair, trailer]),
        ("limit, cut among scalers", 3, vec![two, trailer]),
        ("limit, a filler", 1, vec![trailer, filler]),
        ("limit, four fillers", 1, vec![trailer, filler, filler, filler, filler]),
        ("limit, a filler of another slot", 1, vec![trailer, other]),
        ("limit, a second filler of another slot", 1, vec![trailer, filler, other]),
        ("limit, a continuation behind the block", 1, vec![trailer, 0]),
    ]
}

pub const LIMIT_CASES: u64 = 29;

pub fn limit_cases() -> impl Iterator<Item = ReaderCase> {
    (0..LIMIT_CASES).map(limit_case)
}

/// One of them; there is no seed to it.
pub fn limit_case(number: u64) -> ReaderCase {
    let (kind, before, end) = ends()[(number % LIMIT_CASES) as usize].clone();
    let event = |word: &u32| tag(*word) == Some(words::EVENT_HEADER);
    let events = 1 + u32::from(end.first().is_some_and(event) && before > 0);
    let mut block = vec![words::block_header(SLOT, 1, events), words::event_header(SLOT, 9)];
    block.resize(LIMIT - before, ITEM);
    block.extend(end);
    ReaderCase { seed: 0, number, kind, bytes: bytes_of(&block) }
}
