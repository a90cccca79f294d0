//! The lister: the text of a byte input.

use crate::items::clock;
use crate::reader::{words_of_bytes, Block, Refused, Word};
use crate::refusal::Refusal;

/// 16: "lister also over 65,536 bytes"
pub const MOST_BYTES: usize = 65_536;

/// "Refusal 16 prints its line alone."
const BAD_BYTES: Refused = Refused { refusal: Refusal::Bytes, place: 0 };

/// What the lister prints.
pub fn list(bytes: &[u8]) -> String {
    if bytes.len() > MOST_BYTES {
        return refused_line(BAD_BYTES);
    }
    text(bytes)
}

/// The text of an input of any length: one line an item, fields parted by one
/// tab.  "Blocks follow each other to the end of input; no input prints nothing."
pub fn text(bytes: &[u8]) -> String {
    let Some(words) = words_of_bytes(bytes) else {
        return refused_line(BAD_BYTES);
    };
    let mut text = String::new();
    let mut rest = words.as_slice();
    while !rest.is_empty() {
        let mut block = Block::new(rest);
        let mut accepted = Vec::new();
        let mut refused = None;
        for judged in &mut block {
            match judged {
                Ok(word) => accepted.push(word),
                Err(refusal) => refused = Some(refusal),
            }
        }
        text += &block_lines(&accepted);
        if let Some(refused) = refused {
            text += &refused_line(refused);
            break;
        }
        rest = &rest[accepted.len()..];
    }
    text
}

fn refused_line(refused: Refused) -> String {
    line("refused", &[refused.refusal.number().into(), refused.place as u64])
}

/// The lines of a block's accepted words, "as if the input ended there": a time
/// whose second word was refused is a `clock27`.
fn block_lines(accepted: &[Word]) -> String {
    let mut text = String::new();
    for (place, &word) in accepted.iter().enumerate() {
        text += &word_line(word, &accepted[place + 1..]);
    }
    // "fill: how many, no line for none"
    let fillers = accepted.iter().filter(|word| matches!(word, Word::Filler { .. })).count();
    if fillers > 0 {
        text += &line("fill", &[fillers as u64]);
    }
    text
}

/// The line of a word and of those behind it that are said with it.
fn word_line(word: Word, behind: &[Word]) -> String {
    let small = |name, fields: &[u32]| {
        line(name, &fields.iter().map(|&field| field.into()).collect::<Vec<u64>>())
    };
    match word {
        Word::Header { slot, number, events } => small("block", &[slot, number, events]),
        Word::Parameters { pl, nsb, nsa } => small("setup", &[pl, nsb, nsa]),
        Word::Event { number, .. } => small("event", &[number]),
        Word::TimeLow { bits } => match behind.first() {
            Some(&Word::TimeHigh { bits: high }) => line("clock", &[clock(bits, high)]),
            _ => small("clock27", &[bits]),
        },
        Word::Window { channel, width } => small("window", &[channel, width]),
        Word::PulseRaw { channel, pulse, tc } => small("pulse", &[channel, pulse, tc]),
        Word::Pair { first, second: Some(second) } => small("pair", &[first, second]),
        Word::Pair { first, second: None } => format!("pair\t{first}\t-\n"),
        Word::Integral { channel, pulse, quality, sum } => {
            small("integral", &[channel, pulse, quality, sum])
        }
        Word::Time { channel, pulse, quality, coarse, fine } => {
            small("time", &[channel, pulse, quality, coarse, fine])
        }
        Word::Pedestal { channel, pulse, vmin, vpeak } => {
            small("ped", &[channel, pulse, vmin, vpeak])
        }
        // "The lister prints `scalers` and the words in order."
        Word::Scalers { .. } => small("scalers", &scalers(behind)),
        Word::Trailer { words, .. } => small("end", &[words]),
        Word::Empty { slot } => small("empty", &[slot]),
        // Said with the first time word, with the type 12, and by the count of
        // fillers.
        Word::TimeHigh { .. } | Word::Scaler { .. } | Word::Filler { .. } => String::new(),
    }
}

/// The scaler words that come first.
fn scalers(words: &[Word]) -> Vec<u32> {
    let value = |word: &Word| match *word {
        Word::Scaler { value } => Some(value),
        _ => None,
    };
    words.iter().map_while(value).collect()
}

fn line(name: &str, fields: &[u64]) -> String {
    let mut text = name.to_string();
    for field in fields {
        text += &format!("\t{field}");
    }
    text + "\n"
}
