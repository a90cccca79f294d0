//! The windows, frames and blocks that are timed. `cost.c` makes the same.

use second::cases::{Second, Side};
use second::words;
use second::writer::State;

/// The place in a state of the words written.
const WORDS: usize = 7;
/// The numbers of the state that the calls of writing move: those before the counts. The triggers may go on.
pub const MOVING: usize = 8;

/// PL 20, NSB 3, NSA 10, limit 3, slot 5, parameters, two time words, even blocks, all thresholds 100.
pub fn settings(mode: u64, nw: usize) -> Vec<u64> {
    let mut settings = vec![100; 26];
    settings[..10].copy_from_slice(&[mode, nw as u64, 20, 3, 10, 3, 5, 1, 2, 2]);
    settings
}

/// A quiet line, or one with a pulse in every twenty samples.
pub fn window(nw: usize, busy: bool) -> Vec<u16> {
    const PULSE: [u16; 8] = [40, 120, 300, 500, 420, 260, 130, 60];
    (0..nw)
        .map(|k| 10 + (k % 3) as u16 + PULSE.get((k + 14) % 20).filter(|_| busy).unwrap_or(&0))
        .collect()
}

/// A quiet line, or one with a flat pulse in the middle of every hundred samples.
pub fn sparse_window(nw: usize, busy: bool) -> Vec<u16> {
    let pulse = |k: usize| if busy && (51..60).contains(&(k % 100)) { 300 } else { 0 };
    (0..nw).map(|k| 10 + (k % 3) as u16 + pulse(k)).collect()
}

/// So many frames in which no channel is over, or in which each is in about half of them, by the upper bits of numbers
/// without a pattern.
pub fn frames(count: usize, busy: bool) -> Vec<u16> {
    let (mut frames, mut bits) = (Vec::new(), 1u32);
    for number in 0..count {
        bits = bits.wrapping_mul(1_664_525).wrapping_add(1_013_904_223);
        let pulse = |channel: u32| if busy && bits >> (16 + channel) & 1 == 1 { 300 } else { 0 };
        frames.extend((0..16).map(|channel| 10 + (number % 3) as u16 + pulse(channel)));
    }
    frames
}

/// How many samples the search looks at, by its definition: 1 to TC, then those behind TC + NSA to the next TC, up to
/// the limit's pulse or the window's end.
pub fn searched(settings: &[u64], window: &[u16]) -> usize {
    let (nw, nsa, limit) = (window.len(), settings[4] as usize, settings[5] as usize);
    let mut out = [0; 28];
    Second.find(settings, 3, window, &mut out);
    let crossings = out[1..].chunks(9).map(|pulse| pulse[0] as usize).take(out[0] as usize);
    let (mut looked_at, mut from) = (0, 0);
    for crossing in crossings.chain(((out[0] as usize) < limit).then_some(nw)) {
        looked_at += crossing.saturating_sub(from);
        from = crossing + nsa;
    }
    looked_at
}

/// What is lent to the calls of writing.
#[derive(Clone, PartialEq)]
pub struct Lent {
    pub state: Vec<u64>,
    pub store: Vec<u16>,
    pub words: Vec<u32>,
}

/// A state that was just set up.
pub fn idle(mode: u64, nw: usize) -> Vec<u64> {
    let mut state = vec![0; State::NUMBERS];
    assert_eq!(Second.set_up(&settings(mode, nw), &mut state), 0);
    state
}

/// In a block, before its first event; room for a few of the longest.
pub fn in_block(mode: u64, nw: usize) -> Lent {
    let mut lent = Lent { state: idle(mode, nw), store: vec![0; 16 * nw], words: vec![0; 40_000] };
    assert_eq!(Second.open_block(&mut lent.state, &mut lent.words, 1, 255), 0);
    lent
}

/// In an event, no channel posted.
pub fn in_event(mode: u64, nw: usize) -> Lent {
    let mut lent = in_block(mode, nw);
    assert_eq!(Second.open_event(&mut lent.state, 9, 256), 0);
    lent
}

/// Everything up to the close: 16 channels posted.
pub fn posted(mode: u64, nw: usize, busy: bool) -> Lent {
    let mut lent = in_event(mode, nw);
    for channel in 0..16 {
        assert_eq!(Second.post(&mut lent.state, &mut lent.store, channel, &window(nw, busy)), 0);
    }
    lent
}

/// The words that a close in this mode writes, all windows busy.
pub fn event(mode: u64, nw: usize) -> Vec<u32> {
    let Lent { mut state, store, mut words } = posted(mode, nw, true);
    let before = state[WORDS] as usize;
    assert_eq!(Second.close(&mut state, &store, &mut words), 0);
    words[before..state[WORDS] as usize].to_vec()
}

/// An event's header and time words.
pub fn empty_event() -> Vec<u32> {
    event(3, 16)[..3].to_vec()
}

/// An event of so many integrals.
pub fn integrals(count: usize) -> Vec<u32> {
    let mut words = empty_event();
    words.resize(words.len() + count, 0xB980_02BC);
    words
}

/// A block of these events in turn, as many as fit: at most 255, and at most so many words.
pub fn block(events: &[Vec<u32>], most: usize) -> Vec<u8> {
    let (mut all, mut count) = (vec![0], 0);
    for event in events.iter().cycle().take(255) {
        if all.len() + event.len() + 1 > most {
            break;
        }
        all.extend(event);
        count += 1;
    }
    all[0] = words::block_header(5, 1, count);
    all.push(words::trailer(5, all.len() as u32 + 1));
    all.iter().flat_map(|word| word.to_be_bytes()).collect()
}
