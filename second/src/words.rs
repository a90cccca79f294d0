//! "The words": types, fields and how they are packed.

use crate::finder::Pulse;

pub const BLOCK_HEADER: u32 = 0;
pub const TRAILER: u32 = 1;
pub const EVENT_HEADER: u32 = 2;
pub const TRIGGER_TIME: u32 = 3;
pub const WINDOW: u32 = 4;
pub const PULSE_RAW: u32 = 6;
pub const INTEGRAL: u32 = 7;
pub const TIME: u32 = 8;
pub const PEDESTAL: u32 = 10;
pub const SCALERS: u32 = 12;
pub const EMPTY: u32 = 14;
pub const FILLER: u32 = 15;

pub const LARGEST_SUM: u32 = 524_287;
pub const LARGEST_VMIN: u32 = 511;

/// `value` in bits `high` to `low` of a word that is zero elsewhere.
pub const fn put(value: u32, high: u32, low: u32) -> u32 {
    (value & mask(high, low)) << low
}

/// The value in bits `high` to `low`.
pub const fn take(word: u32, high: u32, low: u32) -> u32 {
    (word >> low) & mask(high, low)
}

const fn mask(high: u32, low: u32) -> u32 {
    u32::MAX >> (31 - (high - low))
}

/// "A defining word has bit 31 set and its type in bits 30-27. A continuation
/// word has bit 31 clear": the type, or none for a continuation.
pub fn tag(word: u32) -> Option<u32> {
    (take(word, 31, 31) == 1).then(|| take(word, 30, 27))
}

const fn defining(tag: u32) -> u32 {
    put(1, 31, 31) | put(tag, 30, 27)
}

pub fn block_header(slot: u32, number: u32, events: u32) -> u32 {
    let module = put(1, 21, 18);
    defining(BLOCK_HEADER) | put(slot, 26, 22) | module | put(number, 17, 8) | put(events, 7, 0)
}

pub fn parameters(pl: u32, nsb: u32, nsa: u32) -> u32 {
    put(pl, 28, 18) | put(nsb, 17, 9) | put(nsa, 8, 0)
}

pub fn trailer(slot: u32, words: u32) -> u32 {
    defining(TRAILER) | put(slot, 26, 22) | put(words, 21, 0)
}

pub fn event_header(slot: u32, number: u32) -> u32 {
    defining(EVENT_HEADER) | put(slot, 26, 22) | put(number, 21, 0)
}

/// Both words of a 48-bit time: bits 26-0, then bits 47-24.  Bits 26-24 stand
/// in both.
pub fn trigger_time(time: u64) -> [u32; 2] {
    let low = (time & 0x7FF_FFFF) as u32;
    let high = ((time >> 24) & 0xFF_FFFF) as u32;
    [defining(TRIGGER_TIME) | put(low, 26, 0), put(high, 23, 0)]
}

pub fn window(channel: u32, width: u32) -> u32 {
    defining(WINDOW) | put(channel, 26, 23) | put(width, 11, 0)
}

pub fn pulse_raw(channel: u32, pulse: u32, tc: u32) -> u32 {
    defining(PULSE_RAW) | put(channel, 26, 23) | put(pulse, 22, 21) | put(tc, 9, 0)
}

/// "Written: min(sum, 524,287), with quality 1 if the sum was greater, else 0."
pub fn integral(channel: u32, number: u32, pulse: &Pulse) -> u32 {
    let quality = u32::from(pulse.sum > LARGEST_SUM);
    let sum = pulse.sum.min(LARGEST_SUM);
    of_pulse(INTEGRAL, channel, number) | put(quality, 20, 19) | put(sum, 18, 0)
}

/// "All other quality fields are 0."
pub fn time(channel: u32, number: u32, coarse: u32, fine: u32) -> u32 {
    of_pulse(TIME, channel, number) | put(coarse, 14, 6) | put(fine, 5, 0)
}

/// "VMIN is written as min(VMIN, 511)."
pub fn pedestal(channel: u32, number: u32, pulse: &Pulse) -> u32 {
    let vmin = pulse.vmin.min(LARGEST_VMIN);
    of_pulse(PEDESTAL, channel, number) | put(vmin, 20, 12) | put(pulse.vpeak, 11, 0)
}

fn of_pulse(tag: u32, channel: u32, number: u32) -> u32 {
    defining(tag) | put(channel, 26, 23) | put(number, 22, 21)
}

/// Ticket 1: "type 12 (bits 26-6 zero, 5-0 = 18)", and with another count.
pub fn scalers(count: u32) -> u32 {
    defining(SCALERS) | put(count, 5, 0)
}

pub fn empty(slot: u32) -> u32 {
    defining(EMPTY) | put(slot, 26, 22)
}

pub fn filler(slot: u32) -> u32 {
    defining(FILLER) | put(slot, 26, 22)
}

/// The pairs of a raw item, with all 13 bits of each sample.  "An odd count
/// sets bit 13 in the last pair with sample 0."
pub fn pairs(samples: &[u16]) -> impl Iterator<Item = u32> + '_ {
    samples.chunks(2).map(|pair| match *pair {
        [first, second] => put(first.into(), 28, 16) | put(second.into(), 12, 0),
        [first] => put(first.into(), 28, 16) | put(1, 13, 13),
        _ => 0, // chunks(2) gives one or two samples
    })
}
