//! "Each item answers one of a set of named records carrying its fields": a
//! block read item by item.

use crate::reader::{Refused, Scan, Word};
use crate::words::take;

#[derive(Clone, Copy, Debug, PartialEq, Eq)]
#[rustfmt::skip]
pub enum Item {
    /// An item of one word; a time word, a pair or a scaler that stands alone.
    Single(Word),
    /// Two time words: the 48-bit time.
    Clock { time: u64 },
    /// Type 4 or 6: "a raw item carries place and pair count".
    Raw { head: Word, place: usize, pairs: usize },
    /// Type 12: where its words stand, and how many they are.
    Scalers { place: usize, count: usize },
    /// Fillers that follow each other.
    Fillers { slot: u32, count: usize },
}

impl Scan {
    /// The next item and the scan behind it; `None` where the block has ended.
    pub fn item(&self, words: &[u32]) -> Result<Option<(Item, Scan)>, Refused> {
        let Some((word, behind)) = self.step(words)? else { return Ok(None) };
        let found = match word {
            Word::TimeLow { bits } => behind.time(words, bits),
            Word::Window { .. } | Word::PulseRaw { .. } => behind.raw(words, word)?,
            Word::Scalers { .. } => behind.scalers(words)?,
            Word::Filler { slot } => behind.fillers(words, slot),
            _ => (Item::Single(word), behind),
        };
        Ok(Some(found))
    }

    /// Behind a first time word: with its second word, if that is accepted.
    fn time(self, words: &[u32], low: u32) -> (Item, Scan) {
        match self.step(words) {
            Ok(Some((Word::TimeHigh { bits: high }, behind))) => {
                (Item::Clock { time: clock(low, high) }, behind)
            }
            _ => (Item::Single(Word::TimeLow { bits: low }), self),
        }
    }

    /// Behind a type 4 or 6: with all its pairs, or refused with one of them.
    fn raw(self, words: &[u32], head: Word) -> Result<(Item, Scan), Refused> {
        let end = self.item_end(words)?;
        Ok((Item::Raw { head, place: self.place, pairs: end.place - self.place }, end))
    }

    /// Behind a type 12: with all its words, or refused with one of them.
    fn scalers(self, words: &[u32]) -> Result<(Item, Scan), Refused> {
        let end = self.item_end(words)?;
        Ok((Item::Scalers { place: self.place, count: end.place - self.place }, end))
    }

    /// Behind an item's first word: the scan behind its last.
    fn item_end(self, words: &[u32]) -> Result<Scan, Refused> {
        let mut scan = self;
        while scan.in_item(words) {
            (_, scan) = scan.read(words)?;
        }
        Ok(scan)
    }

    /// Behind a filler: with those that follow it.
    fn fillers(self, words: &[u32], slot: u32) -> (Item, Scan) {
        let (mut scan, mut count) = (self, 1);
        while let Ok(Some((_, behind))) = scan.step(words) {
            (scan, count) = (behind, count + 1);
        }
        (Item::Fillers { slot, count }, scan)
    }
}

impl Item {
    /// How many numbers a record is.
    pub const NUMBERS: usize = 6;

    /// The record's numbers: its kind, then its fields.
    pub fn encode(&self) -> [u64; Self::NUMBERS] {
        match *self {
            Item::Single(word) => word_record(word),
            Item::Clock { time } => [5, time, 0, 0, 0, 0],
            Item::Raw { head, place, pairs } => {
                let [kind, channel, pulse, third, ..] = word_record(head);
                [kind, channel, pulse, third, place as u64, pairs as u64]
            }
            Item::Scalers { place, count } => [17, 0, count as u64, 0, place as u64, 0],
            Item::Fillers { slot, count } => [14, slot.into(), count as u64, 0, 0, 0],
        }
    }
}

/// Where the block has ended there is no item.
pub const END: [u64; Item::NUMBERS] = [16, 0, 0, 0, 0, 0];

fn word_record(word: Word) -> [u64; Item::NUMBERS] {
    let numbers: [u32; Item::NUMBERS] = match word {
        Word::Header { slot, number, events } => [1, slot, number, events, 0, 0],
        Word::Parameters { pl, nsb, nsa } => [2, pl, nsb, nsa, 0, 0],
        Word::Event { slot, number } => [3, slot, number, 0, 0, 0],
        Word::TimeLow { bits } => [4, bits, 0, 0, 0, 0],
        Word::TimeHigh { bits } => [6, bits, 0, 0, 0, 0],
        Word::Window { channel, width } => [7, channel, 0, width, 0, 0],
        Word::PulseRaw { channel, pulse, tc } => [8, channel, pulse, tc, 0, 0],
        // Of an accepted pair the first sample is valid.
        Word::Pair { first, second } => {
            [9, first, second.unwrap_or(0), 0, second.is_none().into(), 0]
        }
        Word::Integral { channel, pulse, quality, sum } => [10, channel, pulse, quality, sum, 0],
        Word::Time { channel, pulse, quality, coarse, fine } => {
            [11, channel, pulse, quality, coarse, fine]
        }
        Word::Pedestal { channel, pulse, vmin, vpeak } => [12, channel, pulse, 0, vmin, vpeak],
        Word::Trailer { slot, words } => [13, slot, words, 0, 0, 0],
        Word::Filler { slot } => [14, slot, 1, 0, 0, 0],
        Word::Empty { slot } => [15, slot, 0, 0, 0, 0],
        Word::Scalers { count } => [17, 0, count, 0, 0, 0],
        Word::Scaler { value } => [18, value, 0, 0, 0, 0],
    };
    numbers.map(u64::from)
}

/// The 48-bit time of both time words.
pub fn clock(low: u32, high: u32) -> u64 {
    u64::from(high) << 24 | u64::from(take(low, 23, 0))
}

/// "a second call gives that part of the caller's words (empty if it does not
/// lie in them)"
pub fn raw_part(words: &[u32], place: usize, pairs: usize) -> &[u32] {
    place.checked_add(pairs).and_then(|end| words.get(place..end)).unwrap_or(&[])
}

/// The samples of words of pairs, with all 13 bits; one that is flagged not
/// valid is left out.
pub fn samples(pairs: &[u32]) -> Vec<u16> {
    let both = |&word: &u32| {
        let valid = |flag, sample| (take(word, flag, flag) == 0).then_some(sample as u16);
        [valid(29, take(word, 28, 16)), valid(13, take(word, 12, 0))]
    };
    pairs.iter().flat_map(both).flatten().collect()
}
