//! Cases for the reader and the lister: good blocks and damaged ones.

use super::{Rng, Second, SequenceCase, Step};
use crate::words::{self, put, tag, take};
use std::fmt;

#[derive(Clone, Debug, PartialEq, Eq)]
pub struct ReaderCase {
    pub seed: u64,
    pub number: u64,
    /// What was done to the input.
    pub kind: &'static str,
    pub bytes: Vec<u8>,
}

impl ReaderCase {
    pub fn new(seed: u64, number: u64) -> ReaderCase {
        let rng = &mut Rng::of_case(3, seed, number);
        let (kind, words) = input(rng);
        let mut bytes = bytes_of(&words);
        let kind = match rng.below(24) {
            0 => {
                bytes.resize(bytes.len() + rng.between(1, 3) as usize, 0x5A);
                "bytes too many"
            }
            1 => {
                let place = rng.place(bytes.len());
                bytes.truncate(place);
                "cut at a byte"
            }
            _ => kind,
        };
        ReaderCase { seed, number, kind, bytes }
    }
}

impl fmt::Display for ReaderCase {
    fn fmt(&self, f: &mut fmt::Formatter) -> fmt::Result {
        let ReaderCase { seed, number, kind, bytes } = self;
        write!(f, "reader seed {seed} case {number}: {kind}, {} bytes", bytes.len())
    }
}

pub(super) fn bytes_of(words: &[u32]) -> Vec<u8> {
    words.iter().map(|word| word.to_be_bytes()).collect::<Vec<_>>().concat()
}

/// The input cut before each of its bytes in turn, and whole.
pub fn every_cut(bytes: &[u8]) -> impl Iterator<Item = &[u8]> {
    (0..=bytes.len()).map(|end| &bytes[..end])
}

/// The input with each of its bits flipped in turn.
pub fn every_flip(bytes: &[u8]) -> impl Iterator<Item = Vec<u8>> + '_ {
    (0..bytes.len() * 8).map(|bit| {
        let mut flipped = bytes.to_vec();
        flipped[bit / 8] ^= 0x80 >> (bit % 8);
        flipped
    })
}

pub(super) fn input(rng: &mut Rng) -> (&'static str, Vec<u32>) {
    let mut words = match rng.below(3) {
        0 => written(rng),
        _ => any_block(rng),
    };
    match rng.below(18) {
        0 | 1 => ("one good block", words),
        2 => ("good blocks", several(rng, words)),
        3 => ("nothing or noise", noise(rng)),
        4 if rng.once_in(8) => ("long input", long(rng, &words)),
        4 if rng.once_in(8) => ("long block", long_block(rng)),
        4 => ("filler of another slot", other_filler(rng, words)),
        5 => {
            words = several(rng, words);
            damage(rng, &mut words);
            ("one of several damaged", words)
        }
        6 | 7 => {
            damage(rng, &mut words);
            recount(&mut words);
            ("damaged and recounted", words)
        }
        8 => {
            for _ in 0..rng.between(2, 4) {
                damage(rng, &mut words);
            }
            ("damaged often", words)
        }
        _ => (damage(rng, &mut words), words),
    }
}

/// What this program's writer makes of a sequence of calls.
fn written(rng: &mut Rng) -> Vec<u32> {
    let case = SequenceCase::new(rng.next(), 0);
    let mut bench = case.bench;
    let mut words = Vec::new();
    for step in &case.steps {
        let answer = bench.apply(&Second, step);
        if matches!(step, Step::Finish { .. }) && answer >> 32 == 0 {
            words.extend_from_slice(&bench.words[..answer as usize]);
        }
    }
    if words.is_empty() {
        words = any_block(rng); // no block was finished
    }
    words
}

/// A block of the layout, with fields and orders that the writer never makes.
fn any_block(rng: &mut Rng) -> Vec<u32> {
    let slot = rng.below(32) as u32;
    if rng.once_in(20) {
        return vec![words::empty(slot) | rng.below(1 << 22) as u32];
    }
    let events = if rng.once_in(30) { 255 } else { rng.between(1, 4) as u32 };
    let mut block = vec![words::block_header(slot, rng.below(1_024) as u32, events)];
    if rng.once_in(2) {
        block.push(rng.below(1 << 29) as u32);
    }
    for _ in 0..events {
        block.push(words::event_header(slot, rng.below(1 << 22) as u32));
        let times = rng.place(3);
        block.extend(&words::trigger_time(rng.below(1 << 48))[..times]);
        let items = if events == 255 { rng.below(2) } else { rng.below(6) };
        for _ in 0..items {
            any_item(rng, &mut block);
        }
        if rng.once_in(3) {
            any_scalers(rng, slot, &mut block);
        }
    }
    end(rng, slot, block)
}

/// The block with its trailer, and fillers or none.
fn end(rng: &mut Rng, slot: u32, mut block: Vec<u32>) -> Vec<u32> {
    block.push(words::trailer(slot, block.len() as u32 + 1));
    for _ in 0..rng.below(4) {
        block.push(words::filler(slot) | rng.below(1 << 22) as u32);
    }
    block
}

fn any_item(rng: &mut Rng, block: &mut Vec<u32>) {
    let fields = rng.below(1 << 27) as u32;
    let channel = take(fields, 26, 23);
    match rng.pick(&[
        words::WINDOW,
        words::PULSE_RAW,
        words::INTEGRAL,
        words::TIME,
        words::PEDESTAL,
    ]) {
        words::WINDOW => {
            let width = match rng.below(8) {
                0 => rng.pick(&[1, 2, 499, 500]),
                _ => rng.between(1, 20),
            };
            block.push(words::window(channel, width as u32));
            any_pairs(rng, width as usize, block);
        }
        words::PULSE_RAW => {
            block.push(words::pulse_raw(channel, take(fields, 22, 21), take(fields, 9, 0)));
            let width = match rng.below(8) {
                0 => rng.pick(&[1, 2, 498, 499, 500]),
                _ => rng.between(1, 20),
            };
            any_pairs(rng, width as usize, block);
        }
        words::TIME => {
            block.push(put(1, 31, 31) | put(words::TIME, 30, 27) | (fields & !put(15, 18, 15)))
        }
        one_word => block.push(put(1, 31, 31) | put(one_word, 30, 27) | fields),
    }
}

/// Scalers, as many as they say; their words are often like others of a block.
fn any_scalers(rng: &mut Rng, slot: u32, block: &mut Vec<u32>) {
    let count = match rng.below(6) {
        0 => rng.pick(&[0, 1, 63]),
        1 => rng.below(64),
        _ => 18,
    };
    block.push(words::scalers(count as u32));
    let alike = rng.once_in(2);
    block.extend((0..count).map(|_| if alike { plausible(rng, slot) } else { rng.next() as u32 }));
}

fn any_pairs(rng: &mut Rng, samples: usize, block: &mut Vec<u32>) {
    let samples: Vec<u16> = (0..samples).map(|_| rng.below(8_192) as u16).collect();
    block.extend(words::pairs(&samples));
}

fn several(rng: &mut Rng, mut words: Vec<u32>) -> Vec<u32> {
    for _ in 0..rng.between(1, 3) {
        words.extend(any_block(rng));
    }
    words
}

fn noise(rng: &mut Rng) -> Vec<u32> {
    let slot = rng.below(32) as u32;
    let length = rng.below(30);
    match rng.below(3) {
        0 => Vec::new(),
        1 => (0..length).map(|_| rng.next() as u32).collect(),
        _ => (0..length).map(|_| plausible(rng, slot)).collect(),
    }
}

/// About the lister's 65,536 bytes: just that many, a word more or less, or
/// many more.
fn long(rng: &mut Rng, block: &[u32]) -> Vec<u32> {
    let length = rng.pick(&[16_383, 16_384, 16_385, 40_000]);
    block.iter().copied().cycle().take(length).collect()
}

/// One block of about 65,536 bytes or more.
fn long_block(rng: &mut Rng) -> Vec<u32> {
    let slot = rng.below(32) as u32;
    let least = rng.pick(&[16_000, 16_384, 30_000]);
    let mut block = vec![words::block_header(slot, 1, 1), words::event_header(slot, 9)];
    while block.len() < least {
        any_item(rng, &mut block);
    }
    any_scalers(rng, slot, &mut block);
    end(rng, slot, block)
}

/// Up to three good fillers behind the trailer, then one of another slot.
fn other_filler(rng: &mut Rng, mut words: Vec<u32>) -> Vec<u32> {
    let filler = |word: &u32| tag(*word) == Some(words::FILLER);
    while words.last().is_some_and(filler) {
        words.pop();
    }
    let slot = words.last().map_or(0, |&word| take(word, 26, 22));
    let good = rng.place(4);
    words.extend((0..good).map(|_| words::filler(slot)));
    words.push(words::filler(slot ^ 1 << rng.below(5)));
    words
}

/// A word of any type that may well be right where it comes to stand.
fn plausible(rng: &mut Rng, slot: u32) -> u32 {
    let number = rng.below(8) as u32;
    match rng.below(14) {
        0 => words::block_header(slot, number, number),
        1 => words::trailer(slot, number),
        2 => words::event_header(slot, number),
        3 => words::trigger_time(u64::from(number))[0],
        4 => words::window(number, rng.pick(&[0, 1, 2, 3, 4, 500, 501, 4_095])),
        5 => words::pulse_raw(number, number & 3, number),
        6 => put(1, 31, 31) | put(rng.between(5, 13) as u32, 30, 27),
        7 => words::empty(slot),
        8 => words::filler(slot),
        9 => put(rng.below(1 << 13) as u32, 28, 16) | put(1, 13, 13) | u32::from(rng.once_in(4)),
        10 => put(rng.below(1 << 13) as u32, 28, 16) | rng.below(1 << 13) as u32,
        11 => words::scalers(rng.pick(&[0, 1, 2, 18, 63])),
        12 => words::scalers(number) | 1 << rng.between(6, 26),
        _ => number,
    }
}

/// The damages, by their numbers below.
const DAMAGES: [&str; 12] = [
    "bit flipped",
    "bit flipped",
    "word lost",
    "word doubled",
    "words swapped",
    "cut at a word",
    "word at random",
    "word replaced",
    "word many times",
    "scalers spoilt",
    "scalers spoilt",
    "word put in",
];

/// One damage, and its name.
fn damage(rng: &mut Rng, words: &mut Vec<u32>) -> &'static str {
    if words.is_empty() {
        return "empty";
    }
    let slot = take(words[0], 26, 22);
    let place = rng.place(words.len());
    let other = rng.place(words.len());
    let kind = rng.place(DAMAGES.len());
    match kind {
        0 | 1 => words[place] ^= 1 << rng.below(32),
        2 => drop(words.remove(place)),
        3 => words.insert(place, words[place]),
        4 => words.swap(place, other),
        5 => words.truncate(place),
        6 => words[place] = rng.next() as u32,
        7 => words[place] = plausible(rng, slot),
        8 => {
            let times = rng.pick(&[1, 2, 3, 249, 250]);
            let more = vec![words[place]; times];
            words.splice(place..place, more);
        }
        9 | 10 => spoil_scalers(rng, words, place),
        _ => words.insert(place, plausible(rng, slot)),
    }
    DAMAGES[kind]
}

/// One of the type 12 words with a bit that must be zero or with another count, a
/// word put in among its scalers or behind them, or the input cut there.  If there
/// is none, one is put in at the place.
fn spoil_scalers(rng: &mut Rng, words: &mut Vec<u32>, place: usize) {
    let scalers = |&place: &usize| tag(words[place]) == Some(words::SCALERS);
    let heads: Vec<usize> = (0..words.len()).filter(scalers).collect();
    if heads.is_empty() {
        return words.insert(place, words::scalers(rng.below(5) as u32));
    }
    let head = rng.pick(&heads);
    let count = take(words[head], 5, 0) as usize;
    let behind = words.len().min(head + 1 + count);
    let among = rng.between(head as u64 + 1, behind as u64) as usize;
    let slot = take(words[0], 26, 22);
    match rng.below(6) {
        0 => words[head] |= 1 << rng.between(6, 26),
        1 => words[head] = words::scalers(rng.pick(&[count + 1, count + 63, count ^ 1]) as u32),
        2 => words.truncate(among),
        3 => words.insert(among, plausible(rng, slot)),
        _ => words.insert(behind, plausible(rng, slot)),
    }
}

/// Makes the last trailer's count right again.
fn recount(words: &mut [u32]) {
    if let Some(place) = words.iter().rposition(|&word| tag(word) == Some(words::TRAILER)) {
        words[place] = words::trailer(take(words[place], 26, 22), place as u32 + 1);
    }
}
