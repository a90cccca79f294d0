//! The fifteen calls of the C side, over slices of numbers, as the header lists
//! them.  Each answers the paper's number, 0 for accepted, or the number that the
//! header says.  A refused call changes nothing that was lent, but for what set
//! up, find and next were to fill: that is zeros then.

use crate::finder::{self, Pulse};
use crate::items::{self, Item};
use crate::lister;
use crate::reader::{self, Refused, Scan};
use crate::refusal::Refusal;
use crate::settings::Settings;
use crate::writer::{self, State};

/// The count, then nine numbers for each of three pulses.
pub const FOUND: usize = 28;

fn answer(result: Result<(), Refusal>) -> u32 {
    result.map_or_else(Refusal::number, |()| 0)
}

/// Runs `call` on the state that the numbers stand for, and stores the state
/// back unless the call was refused.
fn with_state<T>(
    numbers: &mut [u64],
    call: impl FnOnce(&mut State) -> Result<T, Refusal>,
) -> Result<T, Refusal> {
    // 10: "not FADC250_STATE numbers, one that its field cannot hold"
    let mut state = State::decode(numbers).ok_or(Refusal::State)?;
    let value = call(&mut state)?;
    numbers.copy_from_slice(&state.encode());
    Ok(value)
}

/// Fills `lent` with the numbers, or with zeros if there are none but a refusal;
/// `None`, not as many lent as the header says, stays and is 64 after the others.
fn fill<T: Copy + Default, const N: usize, E: Copy + From<Refusal>>(
    lent: Option<&mut [T]>,
    numbers: Result<[T; N], E>,
) -> Result<(), E> {
    let Some(lent) = lent else {
        return numbers.and(Err(Refusal::Array.into()));
    };
    lent.copy_from_slice(&numbers.unwrap_or([T::default(); N]));
    numbers.map(|_| ())
}

/// 1, then 64.
pub fn set_up(settings: &[u64], state: &mut [u64]) -> u32 {
    let settings = Settings::decode(settings).ok_or(Refusal::Setting);
    let new = settings.and_then(writer::set_up).map(|state| state.encode());
    let right = state.len() == State::NUMBERS;
    answer(fill(right.then_some(state), new))
}

pub fn open_block(state: &mut [u64], words: &mut [u32], number: u32, events: u32) -> u32 {
    answer(with_state(state, |state| state.open_block(words, number, events)))
}

pub fn open_event(state: &mut [u64], number: u32, time: u64) -> u32 {
    answer(with_state(state, |state| state.open_event(number, time)))
}

pub fn post(state: &mut [u64], store: &mut [u16], channel: u32, window: &[u16]) -> u32 {
    answer(with_state(state, |state| state.post(store, channel, window)))
}

pub fn close(state: &mut [u64], store: &[u16], words: &mut [u32]) -> u32 {
    answer(with_state(state, |state| state.close(store, words)))
}

pub fn close_with_scalers(state: &mut [u64], store: &[u16], words: &mut [u32]) -> u32 {
    answer(with_state(state, |state| state.close_with_scalers(store, words)))
}

/// Refusal x 2^32, or the block's length in words.
pub fn finish(state: &mut [u64], words: &mut [u32]) -> u64 {
    match with_state(state, |state| state.finish(words)) {
        Ok(length) => length,
        Err(refusal) => u64::from(refusal.number()) << 32,
    }
}

pub fn count(state: &mut [u64], frames: &[u16]) -> u32 {
    answer(with_state(state, |state| state.count(frames)))
}

pub fn latch(state: &mut [u64]) -> u32 {
    answer(with_state(state, State::latch))
}

pub fn reset(state: &mut [u64]) -> u32 {
    answer(with_state(state, State::reset))
}

/// Fills the first 28 of `out`: 1, 4, 5, 3, then 64 for fewer.
pub fn find(settings: &[u64], channel: u32, window: &[u16], out: &mut [u32]) -> u32 {
    let settings = Settings::decode(settings).ok_or(Refusal::Setting);
    let pulses = settings.and_then(|settings| finder::find(&settings, channel, window));
    answer(fill(out.get_mut(..FOUND), pulses.map(|pulses| found_numbers(&pulses))))
}

fn found_numbers(pulses: &[Pulse]) -> [u32; FOUND] {
    let mut numbers = [0; FOUND];
    numbers[0] = pulses.len() as u32;
    for (place, pulse) in numbers[1..].chunks_exact_mut(9).zip(pulses) {
        place.copy_from_slice(&pulse_numbers(pulse));
    }
    numbers
}

fn pulse_numbers(p: &Pulse) -> [u32; 9] {
    [p.tc, p.first, p.last, p.sum, p.coarse, p.fine, p.vmin, p.vpeak, p.rule]
}

/// Refusal x 2^32 + place, or the words read.
pub fn check(bytes: &[u8]) -> u64 {
    reader::check(bytes)
}

/// Refusal x 2^32 + place, or the words read so far.  Fills the first six of
/// `record`; fewer are 64 after the others.
pub fn next(scan: &mut [u32], words: &[u32], record: &mut [u64]) -> u64 {
    let from = Scan::decode(scan).ok_or(Refused::from(Refusal::Array));
    let read = from.and_then(|from| from.item(words));
    let numbers = read.map(|found| found.map_or(items::END, |(item, _)| item.encode()));
    match fill(record.get_mut(..Item::NUMBERS), numbers).and(read) {
        Ok(Some((_, behind))) => {
            scan.copy_from_slice(&behind.encode());
            behind.place as u64
        }
        Ok(None) => scan[0].into(), // at the block's end the scan stays
        Err(refused) => refused.number(),
    }
}

/// How many samples the pairs hold; they are written only if all of them fit.
pub fn samples(words: &[u32], place: u32, pairs: u32, samples: &mut [u16]) -> u64 {
    let part = items::raw_part(words, place as usize, pairs as usize);
    put_whole(&items::samples(part), samples)
}

/// How many characters the text has; it is written only if all of it fits.
pub fn list(bytes: &[u8], text: &mut [u8]) -> u64 {
    put_whole(lister::text(bytes).as_bytes(), text)
}

fn put_whole<T: Copy>(new: &[T], lent: &mut [T]) -> u64 {
    if let Some(front) = lent.get_mut(..new.len()) {
        front.copy_from_slice(new);
    }
    new.len() as u64
}
