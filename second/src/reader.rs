//! "Reading": one block, judged word by word.

use crate::refusal::Refusal;
use crate::words::{self, tag, take};

/// "14 if no trailer was read and its place is 4,194,303"
pub const LIMIT: usize = 4_194_303;
const MOST_PULSE_PAIRS: u32 = 250;
const MOST_FILLERS: u32 = 3;

/// A refusal and the place of the word, "from 0 at its block's first word".
#[derive(Clone, Copy, Debug, PartialEq, Eq)]
pub struct Refused {
    pub refusal: Refusal,
    pub place: usize,
}

impl Refused {
    /// "refusal x 2^32 plus the place"
    pub fn number(self) -> u64 {
        (u64::from(self.refusal.number()) << 32) + self.place as u64
    }
}

/// A refusal that is about no word.
impl From<Refusal> for Refused {
    fn from(refusal: Refusal) -> Refused {
        Refused { refusal, place: 0 }
    }
}

/// One accepted word with its fields.
#[derive(Clone, Copy, Debug, PartialEq, Eq)]
#[rustfmt::skip]
pub enum Word {
    Header { slot: u32, number: u32, events: u32 },
    Parameters { pl: u32, nsb: u32, nsa: u32 },
    Event { slot: u32, number: u32 },
    /// Time bits 26-0.
    TimeLow { bits: u32 },
    /// Time bits 47-24.
    TimeHigh { bits: u32 },
    Window { channel: u32, width: u32 },
    PulseRaw { channel: u32, pulse: u32, tc: u32 },
    /// The second sample is `None` when it is flagged not valid.
    Pair { first: u32, second: Option<u32> },
    Integral { channel: u32, pulse: u32, quality: u32, sum: u32 },
    Time { channel: u32, pulse: u32, quality: u32, coarse: u32, fine: u32 },
    Pedestal { channel: u32, pulse: u32, vmin: u32, vpeak: u32 },
    /// Type 12, with how many scaler words follow.
    Scalers { count: u32 },
    /// One of them, whatever its bits.
    Scaler { value: u32 },
    Trailer { slot: u32, words: u32 },
    Filler { slot: u32 },
    Empty { slot: u32 },
}

/// What was read last, and so what may follow.
#[derive(Clone, Copy, Debug, PartialEq, Eq)]
#[rustfmt::skip]
enum After {
    Nothing,
    Header,
    Parameters,
    Event,
    /// One time word, with its bits 26-24.
    TimeLow { shared: u32 },
    /// Second time word, or an item that is whole.
    Whole,
    /// Type 4 with this many pairs still to come, at least 1; whether the last of
    /// them holds one sample.
    Window { pairs: u32, odd: bool },
    /// Type 6: how many pairs may still come, and whether one was read.
    PulseRaw { pairs: u32, any: bool },
    /// The trailer or a filler, and how many fillers may still come.  None come
    /// behind a module empty.
    Tail { fillers: u32 },
    /// Type 12 or one of its words, and how many of them are still to come.
    Scalers { words: u32 },
}

/// Where the reading of a block stands: before the word at `place`.
#[derive(Clone, Copy, Debug, PartialEq, Eq)]
pub struct Scan {
    pub place: usize,
    /// The block header's; 0 before it.
    slot: u32,
    /// Events that are still to come.
    left: u32,
    after: After,
}

impl Scan {
    /// How many numbers the C side passes.
    pub const NUMBERS: usize = 6;

    /// Before a block's first word.
    pub const START: Scan = Scan { place: 0, slot: 0, left: 0, after: After::Nothing };

    /// The scan that six numbers stand for; `None` for another count of numbers,
    /// a stage that there is not, or a second number over 1.
    pub fn decode(numbers: &[u32]) -> Option<Scan> {
        let &[place, slot, left, stage, first, second] = numbers else { return None };
        let second = match second {
            0 => false,
            1 => true,
            _ => return None,
        };
        let after = match stage {
            0 => After::Nothing,
            1 => After::Header,
            2 => After::Parameters,
            3 => After::Event,
            4 => After::TimeLow { shared: first },
            5 => After::Whole,
            6 if first == 0 => After::Whole, // no pair is to come
            6 => After::Window { pairs: first, odd: second },
            7 => After::PulseRaw { pairs: first, any: second },
            8 => After::Tail { fillers: first },
            9 => After::Scalers { words: first },
            _ => return None,
        };
        Some(Scan { place: place as usize, slot, left, after })
    }

    pub fn encode(&self) -> [u32; Self::NUMBERS] {
        let (stage, first, second) = match self.after {
            After::Nothing => (0, 0, false),
            After::Header => (1, 0, false),
            After::Parameters => (2, 0, false),
            After::Event => (3, 0, false),
            After::TimeLow { shared } => (4, shared, false),
            After::Whole => (5, 0, false),
            After::Window { pairs, odd } => (6, pairs, odd),
            After::PulseRaw { pairs, any } => (7, pairs, any),
            After::Tail { fillers } => (8, fillers, false),
            After::Scalers { words } => (9, words, false),
        };
        [self.place as u32, self.slot, self.left, stage, first, second.into()]
    }

    /// The next word and the scan behind it; `None` where the block has ended.
    pub fn step(&self, words: &[u32]) -> Result<Option<(Word, Scan)>, Refused> {
        if self.ends_before(self.word(words)) {
            return Ok(None);
        }
        self.read(words).map(Some)
    }

    /// The same where the block cannot end.
    pub(crate) fn read(&self, words: &[u32]) -> Result<(Word, Scan), Refused> {
        match self.judge(self.word(words)) {
            Ok(word) => Ok((word, self.behind(word))),
            Err(refusal) => Err(Refused { refusal, place: self.place }),
        }
    }

    fn word(&self, words: &[u32]) -> Option<u32> {
        words.get(self.place).copied()
    }

    /// Whether the item before goes on: type 6 with any continuation word behind
    /// its first pair, allowed or not.
    pub(crate) fn in_item(&self, words: &[u32]) -> bool {
        match self.after {
            After::Window { .. } => true,
            After::PulseRaw { any, .. } => {
                !any || self.word(words).is_some_and(|word| tag(word).is_none())
            }
            _ => self.in_scalers(),
        }
    }

    /// Whether the next word is a scaler.
    fn in_scalers(&self) -> bool {
        matches!(self.after, After::Scalers { words } if words > 0)
    }

    /// "It ends after the third [filler], at the input's end, or before a word
    /// that is no filler."
    fn ends_before(&self, word: Option<u32>) -> bool {
        match self.after {
            After::Tail { fillers } => fillers == 0 || word.and_then(tag) != Some(words::FILLER),
            _ => false,
        }
    }

    /// "At each word, in this order": 14 for the limit, 11, 12, 15, 13, 14.
    fn judge(&self, word: Option<u32>) -> Result<Word, Refusal> {
        let trailer_read = matches!(self.after, After::Tail { .. });
        if !trailer_read && self.place == LIMIT {
            return Err(Refusal::Count);
        }
        let word = word.ok_or(Refusal::NoWord)?;
        // "They carry no tag: the reader takes the stated count."
        if self.in_scalers() {
            return Ok(Word::Scaler { value: word });
        }
        if !self.allows(tag(word)) {
            return Err(Refusal::Type);
        }
        if self.slot_differs(word) {
            return Err(Refusal::Slot);
        }
        let read = self.take_apart(word).ok_or(Refusal::Field)?;
        if self.counts_agree(read) {
            Ok(read)
        } else {
            Err(Refusal::Count)
        }
    }

    /// 12: "type not allowed here, pair missing or too many".
    fn allows(&self, tag: Option<u32>) -> bool {
        let Some(tag) = tag else { return self.allows_continuation() };
        // "event headers and the trailer count as allowed wherever an event may
        // end or begin"
        let event_or_trailer = matches!(tag, words::EVENT_HEADER | words::TRAILER);
        let item = matches!(
            tag,
            words::WINDOW
                | words::PULSE_RAW
                | words::INTEGRAL
                | words::TIME
                | words::PEDESTAL
                | words::SCALERS
        );
        match self.after {
            After::Nothing => matches!(tag, words::BLOCK_HEADER | words::EMPTY),
            After::Header | After::Parameters => event_or_trailer,
            After::Event => tag == words::TRIGGER_TIME || item || event_or_trailer,
            After::TimeLow { .. } | After::Whole => item || event_or_trailer,
            After::Window { .. } => false,
            After::PulseRaw { any, .. } => any && (item || event_or_trailer),
            After::Tail { .. } => tag == words::FILLER,
            // "12 for anything after the scalers but the next event header or the
            // trailer"
            After::Scalers { .. } => event_or_trailer,
        }
    }

    fn allows_continuation(&self) -> bool {
        match self.after {
            After::Header | After::TimeLow { .. } | After::Window { .. } => true,
            After::PulseRaw { pairs, .. } => pairs > 0,
            _ => false,
        }
    }

    /// 15: the slot is not the header's.  Of the words that may follow a header,
    /// the trailer, the event header and the filler carry one.
    fn slot_differs(&self, word: u32) -> bool {
        let carries =
            matches!(tag(word), Some(words::TRAILER | words::EVENT_HEADER | words::FILLER));
        carries && self.slot != take(word, 26, 22)
    }

    /// The fields of an allowed word, or `None` for 13.
    fn take_apart(&self, word: u32) -> Option<Word> {
        let slot = take(word, 26, 22);
        let channel = take(word, 26, 23);
        let pulse = take(word, 22, 21);
        let quality = take(word, 20, 19);
        match tag(word) {
            None => self.continuation(word),
            Some(words::BLOCK_HEADER) => header(word),
            Some(words::TRAILER) => Some(Word::Trailer { slot, words: take(word, 21, 0) }),
            Some(words::EVENT_HEADER) => Some(Word::Event { slot, number: take(word, 21, 0) }),
            Some(words::TRIGGER_TIME) => Some(Word::TimeLow { bits: take(word, 26, 0) }),
            Some(words::WINDOW) => {
                let width = take(word, 11, 0);
                let good = take(word, 22, 12) == 0 && (1..=500).contains(&width);
                good.then_some(Word::Window { channel, width })
            }
            Some(words::PULSE_RAW) => {
                let good = take(word, 20, 10) == 0;
                good.then_some(Word::PulseRaw { channel, pulse, tc: take(word, 9, 0) })
            }
            Some(words::INTEGRAL) => {
                Some(Word::Integral { channel, pulse, quality, sum: take(word, 18, 0) })
            }
            Some(words::TIME) => {
                let (coarse, fine) = (take(word, 14, 6), take(word, 5, 0));
                let good = take(word, 18, 15) == 0;
                good.then_some(Word::Time { channel, pulse, quality, coarse, fine })
            }
            Some(words::PEDESTAL) => {
                let (vmin, vpeak) = (take(word, 20, 12), take(word, 11, 0));
                Some(Word::Pedestal { channel, pulse, vmin, vpeak })
            }
            // "bits 26-6 zero", the count "0 to 63"
            Some(words::SCALERS) => {
                let good = take(word, 26, 6) == 0;
                good.then_some(Word::Scalers { count: take(word, 5, 0) })
            }
            // "Only undefined bits of 14 and 15 are ignored."
            Some(words::EMPTY) => Some(Word::Empty { slot }),
            Some(words::FILLER) => Some(Word::Filler { slot }),
            Some(_) => None, // never asked: such a type was refused 12
        }
    }

    fn continuation(&self, word: u32) -> Option<Word> {
        match self.after {
            After::Header => {
                let (pl, nsb, nsa) = (take(word, 28, 18), take(word, 17, 9), take(word, 8, 0));
                (take(word, 30, 29) == 0).then_some(Word::Parameters { pl, nsb, nsa })
            }
            // 13: "time bits 26-24 unequal"
            After::TimeLow { shared } => {
                let good = take(word, 30, 24) == 0 && take(word, 2, 0) == shared;
                good.then_some(Word::TimeHigh { bits: take(word, 23, 0) })
            }
            // 13: "a sample flag anywhere but bit 13 at the odd end, that flag
            // absent at type 4's odd end"
            After::Window { pairs, odd } => {
                let odd_end = odd && pairs == 1;
                pair(word, odd_end, odd_end)
            }
            After::PulseRaw { .. } => pair(word, true, false),
            _ => None, // never asked: a continuation was refused 12
        }
    }

    /// 14: "an event header beyond the stated events, a trailer before them, a
    /// wrong trailer count".
    fn counts_agree(&self, word: Word) -> bool {
        match word {
            Word::Event { .. } => self.left > 0,
            Word::Trailer { words, .. } => self.left == 0 && words as usize == self.place + 1,
            _ => true,
        }
    }

    /// The scan behind an accepted word.
    fn behind(&self, word: Word) -> Scan {
        let (slot, left) = match word {
            Word::Header { slot, events, .. } => (slot, events),
            Word::Event { .. } => (self.slot, self.left - 1),
            _ => (self.slot, self.left),
        };
        Scan { place: self.place + 1, slot, left, after: self.after_word(word) }
    }

    fn after_word(&self, word: Word) -> After {
        match (word, self.after) {
            (Word::Header { .. }, _) => After::Header,
            (Word::Parameters { .. }, _) => After::Parameters,
            (Word::Event { .. }, _) => After::Event,
            (Word::TimeLow { bits }, _) => After::TimeLow { shared: take(bits, 26, 24) },
            // "Type 4 has ceil(width/2) pairs"
            (Word::Window { width, .. }, _) => {
                After::Window { pairs: width.div_ceil(2), odd: width % 2 == 1 }
            }
            (Word::Pair { .. }, After::Window { pairs, odd }) if pairs > 1 => {
                After::Window { pairs: pairs - 1, odd }
            }
            (Word::PulseRaw { .. }, _) => After::PulseRaw { pairs: MOST_PULSE_PAIRS, any: false },
            // "In type 6 a flagged pair is the last: a pair after it is refused
            // 12 there."
            (Word::Pair { second, .. }, After::PulseRaw { pairs, .. }) => {
                After::PulseRaw { pairs: second.map_or(0, |_| pairs - 1), any: true }
            }
            (Word::Scalers { count }, _) => After::Scalers { words: count },
            (Word::Scaler { .. }, After::Scalers { words }) => After::Scalers { words: words - 1 },
            (Word::Trailer { .. }, _) => After::Tail { fillers: MOST_FILLERS },
            (Word::Filler { .. }, After::Tail { fillers }) => After::Tail { fillers: fillers - 1 },
            // "Type 14 in place of a header answers 'module empty', one word read."
            (Word::Empty { .. }, _) => After::Tail { fillers: 0 },
            _ => After::Whole,
        }
    }
}

/// A block header: module 1, and at least one event.
fn header(word: u32) -> Option<Word> {
    let (slot, number, events) = (take(word, 26, 22), take(word, 17, 8), take(word, 7, 0));
    let good = take(word, 21, 18) == 1 && events > 0;
    good.then_some(Word::Header { slot, number, events })
}

/// A pair whose bit 13 may, or must, be set; `None` for 13.
fn pair(word: u32, may: bool, must: bool) -> Option<Word> {
    let zeros = take(word, 30, 30) == 0 && take(word, 15, 14) == 0;
    let first_flag = take(word, 29, 29) == 1;
    let second_flag = take(word, 13, 13) == 1;
    let second = take(word, 12, 0);
    let flags = !first_flag && (may || !second_flag) && (second_flag || !must);
    // 13: "a flagged sample not 0"
    let blank = !second_flag || second == 0;
    (zeros && flags && blank).then_some(Word::Pair {
        first: take(word, 28, 16),
        second: (!second_flag).then_some(second),
    })
}

/// Reads one block from the front of `words`: an iterator over its accepted
/// words, closed by a refusal if there is one.
pub struct Block<'a> {
    words: &'a [u32],
    /// None once the block has ended or a word was refused.
    scan: Option<Scan>,
}

impl<'a> Block<'a> {
    pub fn new(words: &'a [u32]) -> Block<'a> {
        Block { words, scan: Some(Scan::START) }
    }
}

impl Iterator for Block<'_> {
    type Item = Result<Word, Refused>;

    fn next(&mut self) -> Option<Self::Item> {
        let (word, behind) = match self.scan.take()?.step(self.words) {
            Ok(step) => step?,
            Err(refused) => return Some(Err(refused)),
        };
        self.scan = Some(behind);
        Some(Ok(word))
    }
}

/// How many words the first block of `words` takes, or its refusal.
pub fn read(words: &[u32]) -> Result<usize, Refused> {
    let mut count = 0;
    for judged in Block::new(words) {
        judged?;
        count += 1;
    }
    Ok(count)
}

/// The words of big-endian bytes; `None` for a length that is no multiple of 4.
pub fn words_of_bytes(bytes: &[u8]) -> Option<Vec<u32>> {
    let groups = bytes.chunks(4).map(|group| group.try_into().ok().map(u32::from_be_bytes));
    groups.collect()
}

/// "It passes a block as bytes, big-endian, and gets one 64-bit number: refusal
/// x 2^32 plus the place, or the words read; for 16 the place is 0."
pub fn check(bytes: &[u8]) -> u64 {
    let result = match words_of_bytes(bytes) {
        Some(words) => read(&words),
        None => Err(Refusal::Bytes.into()),
    };
    result.map_or_else(Refused::number, |count| count as u64)
}
