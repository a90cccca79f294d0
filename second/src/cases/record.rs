//! Cases for single calls of the record reader: scans that no reading made, and
//! parts of the words that are no raw items.

use super::reader::input;
use super::{Rng, Second, Side};
use crate::reader::LIMIT;
use crate::words::{tag, take};
use std::fmt;

#[derive(Clone, Debug, PartialEq, Eq)]
pub struct ScanCase {
    pub seed: u64,
    pub number: u64,
    pub words: Vec<u32>,
    pub scan: Vec<u32>,
    /// What is lent for the record, filled with old values.
    pub record: Vec<u64>,
}

impl ScanCase {
    pub fn new(seed: u64, number: u64) -> ScanCase {
        let rng = &mut Rng::of_case(4, seed, number);
        let (_, words) = input(rng);
        let mut scan = reached(&words, rng.below(8));
        if rng.once_in(2) {
            within_item(rng, &words, &mut scan);
        }
        for _ in 0..rng.below(3) {
            let place = rng.place(6);
            scan[place] = altered(rng, place, words.len());
        }
        // The header does not say what a window with no pairs to come is.
        if scan[3] == 6 {
            scan[4] = scan[4].max(1);
        }
        if rng.once_in(12) {
            scan.resize(rng.pick(&[0, 1, 5, 7, 12]), 0);
        }
        let lent = rng.pick(&[0, 4, 5, 6, 6, 6, 7, 8]);
        let record = (0..lent).map(|_| rng.next()).collect();
        ScanCase { seed, number, words, scan, record }
    }
}

/// As a reading gets it.
fn reached(words: &[u32], records: u64) -> Vec<u32> {
    let mut scan = vec![0; 6];
    for _ in 0..records {
        Second.next(&mut scan, words, &mut [0; 6]);
    }
    scan
}

/// Before any word, as if what goes before it were just what is wanted.
fn within_item(rng: &mut Rng, words: &[u32], scan: &mut [u32]) {
    let place = rng.place(words.len() + 1);
    let word = words.get(place).copied().unwrap_or(0);
    let slot = take(words.first().copied().unwrap_or(0), 26, 22);
    let stage = match tag(word) {
        None => rng.pick(&[1, 4, 6, 7, 9]),
        Some(_) => rng.below(10) as u32,
    };
    let first = match stage {
        4 => rng.pick(&[take(word, 2, 0), 0]),
        6 | 7 => rng.pick(&[1, 1, 2, 3, 249, 250]),
        8 => rng.below(4) as u32,
        9 => rng.pick(&[0, 0, 1, 2, 18, 63, 64]),
        _ => 0,
    };
    let second = if matches!(stage, 6 | 7) { rng.below(2) as u32 } else { 0 };
    scan.copy_from_slice(&[place as u32, slot, rng.pick(&[0, 1, 255]), stage, first, second]);
}

/// A number of a scan, often one that its place cannot have.
fn altered(rng: &mut Rng, place: usize, words: usize) -> u32 {
    const LAST: u32 = LIMIT as u32;
    let near = rng.place(words + 2) as u32;
    match place {
        0 => rng.pick(&[near, near, LAST - 1, LAST, LAST + 1, u32::MAX]),
        1 => rng.pick(&[0, 1, 31, 32, u32::MAX]),
        2 => rng.pick(&[0, 1, 2, 255, 256, u32::MAX]),
        3 => rng.pick(&[0, 1, 2, 3, 4, 5, 6, 7, 8, 9, 9, 10, u32::MAX]),
        4 => rng.pick(&[0, 1, 2, 3, 4, 7, 8, 63, 64, 250, 251, u32::MAX]),
        _ => rng.pick(&[0, 1, 1, 2, u32::MAX]),
    }
}

impl fmt::Display for ScanCase {
    fn fmt(&self, f: &mut fmt::Formatter) -> fmt::Result {
        let ScanCase { seed, number, words, scan, record } = self;
        write!(f, "scan seed {seed} case {number}: ")?;
        write!(f, "{} words, scan {scan:?}, record {}", words.len(), record.len())
    }
}

#[derive(Clone, Debug, PartialEq, Eq)]
pub struct SamplesCase {
    pub seed: u64,
    pub number: u64,
    pub words: Vec<u32>,
    pub place: u32,
    pub pairs: u32,
    /// What is lent for the samples, filled with old values.
    pub samples: Vec<u16>,
}

impl SamplesCase {
    pub fn new(seed: u64, number: u64) -> SamplesCase {
        let rng = &mut Rng::of_case(5, seed, number);
        let length = rng.below(40);
        let words: Vec<u32> = (0..length).map(|_| rng.next() as u32).collect();
        let place = rng.below(length + 2);
        let pairs = match rng.below(4) {
            0 => length.saturating_sub(place), // just to the end
            1 => length.saturating_sub(place) + 1,
            _ => rng.below(length + 2),
        };
        let place = rng.pick(&[place, place, place, place, 1 << 31, u64::from(u32::MAX)]) as u32;
        let pairs = rng.pick(&[pairs, pairs, pairs, pairs, 1 << 31, u64::from(u32::MAX)]) as u32;
        let held = Second.samples(&words, place, pairs, &mut []) as usize;
        let lent = rng.pick(&[0, held.saturating_sub(1), held, held, held + 1, held + 9]);
        let samples = (0..lent).map(|_| rng.next() as u16).collect();
        SamplesCase { seed, number, words, place, pairs, samples }
    }
}

impl fmt::Display for SamplesCase {
    fn fmt(&self, f: &mut fmt::Formatter) -> fmt::Result {
        let SamplesCase { seed, number, words, place, pairs, samples } = self;
        write!(f, "samples seed {seed} case {number}: {} words, ", words.len())?;
        write!(f, "place {place}, pairs {pairs}, room {}", samples.len())
    }
}
