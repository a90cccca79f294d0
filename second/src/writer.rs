//! "One event, one store": the state, the calls that write a block, and those of
//! ticket 1 that count.
//!
//! Each call looks for its refusals in the paper's order, "10, 7, 8, 4, 5, 6,
//! 2, 3, 9", a call that counts for 10, 3, 19, and changes something only when
//! none is left.

use crate::finder::{any_over, holds_bad_sample, pulses, Pulse};
use crate::refusal::Refusal;
use crate::scalers::Scalers;
use crate::settings::{Settings, CHANNELS};
use crate::words;

pub const LARGEST_BLOCK: u32 = 1_023;
pub const LARGEST_EVENTS: u32 = 255;
pub const LARGEST_EVENT: u32 = 4_194_303;
pub const LARGEST_TIME: u64 = (1 << 48) - 1;

/// "at most 2 + 12,051 x events closed"; by ticket 1 "an event is then at most
/// 12,070 words in the state's bound".
const HEADER_AT_MOST: u64 = 2;
const EVENT_AT_MOST: u64 = 12_070;

#[derive(Clone, Copy, Debug, PartialEq, Eq)]
pub enum Phase {
    Idle,
    Block,
    Event,
}

#[derive(Clone, Debug, PartialEq, Eq)]
pub struct State {
    pub phase: Phase,
    /// Block number.
    pub block: u32,
    /// Events to come, as told when the block was opened.
    pub events: u32,
    /// Event number and time of the open event.
    pub event: u32,
    pub time: u64,
    /// Bit c: channel c was posted in this event.
    pub marks: u16,
    /// Events closed in this block.
    pub closed: u32,
    /// Words written in this block.
    pub words: u64,
    /// Ticket 1: "the state holds all this beside 01's fields, in every phase and
    /// kept through idle".
    pub scalers: Scalers,
    pub settings: Settings,
}

/// "Set up can give only 1, and returns no state."
pub fn set_up(settings: Settings) -> Result<State, Refusal> {
    if settings.in_range() {
        Ok(State::idle(settings, Scalers::default()))
    } else {
        Err(Refusal::Setting)
    }
}

impl State {
    /// How many numbers the C side passes.
    pub const NUMBERS: usize = 8 + Scalers::NUMBERS + Settings::NUMBERS;

    fn idle(settings: Settings, scalers: Scalers) -> State {
        State {
            phase: Phase::Idle,
            block: 0,
            events: 0,
            event: 0,
            time: 0,
            marks: 0,
            closed: 0,
            words: 0,
            scalers,
            settings,
        }
    }

    /// The state's ranges; breaking one is refusal 10.
    pub fn in_range(&self) -> bool {
        self.settings.in_range()
            && self.scalers.in_range()
            && match self.phase {
                // "Idle: all else is zero", of 01's fields.
                Phase::Idle => *self == State::idle(self.settings.clone(), self.scalers.clone()),
                // "events closed at most the events to come"
                Phase::Block => {
                    self.block_in_range() && self.closed <= self.events && self.no_event()
                }
                // "fewer while an event is open"
                Phase::Event => {
                    self.block_in_range()
                        && self.closed < self.events
                        && event_numbers(self.event, self.time)
                }
            }
    }

    /// "block number and events to come within 8's ranges; [...] words at least
    /// the header words plus, for each event closed, its header and time words",
    /// and at most 2 + 12,070 x events closed
    fn block_in_range(&self) -> bool {
        let closed = u64::from(self.closed);
        let least = self.header_words() + closed * (1 + u64::from(self.settings.times));
        let most = HEADER_AT_MOST + EVENT_AT_MOST * closed;
        block_numbers(self.block, self.events) && (least..=most).contains(&self.words)
    }

    /// "they and the marks are zero otherwise"
    fn no_event(&self) -> bool {
        self.event == 0 && self.time == 0 && self.marks == 0
    }

    fn header_words(&self) -> u64 {
        1 + u64::from(self.settings.parameters)
    }

    /// Opening a block: 10, 7, 8, 9.  "Opening a block writes its header and
    /// any parameters word."
    pub fn open_block(
        &mut self,
        words: &mut [u32],
        number: u32,
        events: u32,
    ) -> Result<(), Refusal> {
        self.ranges()?;
        self.turn(self.phase == Phase::Idle)?;
        if !block_numbers(number, events) {
            return Err(Refusal::Number);
        }
        let s = &self.settings;
        let mut new = vec![words::block_header(s.slot, number, events)];
        if s.parameters {
            new.push(words::parameters(s.pl, s.nsb as u32, s.nsa as u32));
        }
        self.words = self.append(words, &new)?;
        self.phase = Phase::Block;
        self.block = number;
        self.events = events;
        Ok(())
    }

    /// Opening an event: 10, 7, 8.  "Opening an event writes nothing and clears
    /// no row."
    pub fn open_event(&mut self, number: u32, time: u64) -> Result<(), Refusal> {
        self.ranges()?;
        // 7 also for "opening an event beyond the block's count"
        self.turn(self.phase == Phase::Block && self.closed < self.events)?;
        if !event_numbers(number, time) {
            return Err(Refusal::Number);
        }
        self.phase = Phase::Event;
        self.event = number;
        self.time = time;
        self.marks = 0;
        self.scalers.trigger();
        Ok(())
    }

    /// Posting a channel: 10, 7, 4, 5, 6, 2, 3.  "A post copies the window into
    /// the middle of the lent store, into that row, and nowhere else."
    pub fn post(&mut self, store: &mut [u16], channel: u32, window: &[u16]) -> Result<(), Refusal> {
        self.ranges()?;
        self.turn(self.phase == Phase::Event)?;
        let nw = self.settings.nw as usize;
        let channel = usize::try_from(channel).unwrap_or(CHANNELS);
        if channel >= CHANNELS {
            return Err(Refusal::Channel);
        }
        if window.len() != nw {
            return Err(Refusal::WindowLength);
        }
        if self.posted(channel) {
            return Err(Refusal::AlreadyPosted);
        }
        self.store_length(store)?;
        if holds_bad_sample(window) {
            return Err(Refusal::Sample);
        }
        // "row c from place c x NW"
        store[channel * nw..][..nw].copy_from_slice(window);
        self.marks |= 1 << channel;
        Ok(())
    }

    /// Closing the event: 10, 7, 2, 3, 9.  "Closing writes event header, time
    /// words, then words for posted channels only, after the words already
    /// there; the rest of the buffer stays."
    pub fn close(&mut self, store: &[u16], words: &mut [u32]) -> Result<(), Refusal> {
        self.close_ending_with(store, words, &[])
    }

    /// Ticket 1: "On request a closed event ends with type 12 [...] and the latched
    /// words."  The refusals are those of closing; 9 counts these words too.
    pub fn close_with_scalers(&mut self, store: &[u16], words: &mut [u32]) -> Result<(), Refusal> {
        let end = self.scalers.words();
        self.close_ending_with(store, words, &end)
    }

    fn close_ending_with(
        &mut self,
        store: &[u16],
        words: &mut [u32],
        end: &[u32],
    ) -> Result<(), Refusal> {
        self.ranges()?;
        self.turn(self.phase == Phase::Event)?;
        self.store_length(store)?;
        // Rows that were not posted in this event are never looked at.
        let rows = store.chunks_exact(self.settings.nw as usize);
        let posted: Vec<(usize, &[u16])> =
            rows.take(CHANNELS).enumerate().filter(|&(channel, _)| self.posted(channel)).collect();
        if posted.iter().any(|(_, row)| holds_bad_sample(row)) {
            return Err(Refusal::Sample);
        }
        let mut new = self.event_words(&posted);
        new.extend(end);
        self.words = self.append(words, &new)?;
        self.phase = Phase::Block;
        self.event = 0;
        self.time = 0;
        self.marks = 0;
        self.closed += 1;
        Ok(())
    }

    /// Finishing the block: 10, 7, 9.  "Finishing writes the trailer and the
    /// fewest fillers to the multiple, returns to idle and answers the block's
    /// length in words."
    pub fn finish(&mut self, words: &mut [u32]) -> Result<u64, Refusal> {
        self.ranges()?;
        // 7 also for finishing before the block's count of events
        self.turn(self.phase == Phase::Block && self.closed == self.events)?;
        let s = &self.settings;
        // "words from header to trailer, both counted": fillers are not.
        let counted = self.words + 1;
        let mut new = vec![words::trailer(s.slot, counted as u32)];
        let length = counted.next_multiple_of(s.multiple.into());
        new.extend((counted..length).map(|_| words::filler(s.slot)));
        self.append(words, &new)?;
        *self = State::idle(self.settings.clone(), self.scalers.clone());
        Ok(length)
    }

    /// Counting frames: 10, 3, 19.
    pub fn count(&mut self, frames: &[u16]) -> Result<(), Refusal> {
        self.ranges()?;
        // all samples, those of a frame that is not whole too
        if holds_bad_sample(frames) {
            return Err(Refusal::Sample);
        }
        if !frames.len().is_multiple_of(CHANNELS) {
            return Err(Refusal::Frames);
        }
        self.scalers.count(&self.settings.thresholds, frames);
        Ok(())
    }

    /// Latching the counts: 10.
    pub fn latch(&mut self) -> Result<(), Refusal> {
        self.ranges()?;
        self.scalers.latch();
        Ok(())
    }

    /// Resetting the running counts: 10.
    pub fn reset(&mut self) -> Result<(), Refusal> {
        self.ranges()?;
        self.scalers.reset();
        Ok(())
    }

    fn posted(&self, channel: usize) -> bool {
        self.marks >> channel & 1 == 1
    }

    fn ranges(&self) -> Result<(), Refusal> {
        if self.in_range() {
            Ok(())
        } else {
            Err(Refusal::State)
        }
    }

    fn turn(&self, ours: bool) -> Result<(), Refusal> {
        if ours {
            Ok(())
        } else {
            Err(Refusal::OutOfTurn)
        }
    }

    fn store_length(&self, store: &[u16]) -> Result<(), Refusal> {
        if store.len() >= CHANNELS * self.settings.nw as usize {
            Ok(())
        } else {
            Err(Refusal::ShortStore)
        }
    }

    /// Writes `new` "after the words already counted" and answers the new
    /// count; writes nothing if not all of it fits.
    fn append(&self, words: &mut [u32], new: &[u32]) -> Result<u64, Refusal> {
        let start = usize::try_from(self.words).map_err(|_| Refusal::ShortWords)?;
        let end = start.checked_add(new.len()).ok_or(Refusal::ShortWords)?;
        words.get_mut(start..end).ok_or(Refusal::ShortWords)?.copy_from_slice(new);
        Ok(end as u64)
    }

    fn event_words(&self, posted: &[(usize, &[u16])]) -> Vec<u32> {
        let s = &self.settings;
        let mut new = vec![words::event_header(s.slot, self.event)];
        new.extend(words::trigger_time(self.time).iter().take(s.times as usize));
        // "channels rising"
        for &(channel, row) in posted {
            channel_words(s, channel, row, &mut new);
        }
        new
    }

    /// The state that 72 numbers stand for; `None` for another count of
    /// numbers, or for a number that its field cannot hold.
    pub fn decode(numbers: &[u64]) -> Option<State> {
        let (plain, rest) = numbers.split_at_checked(8)?;
        let (scalers, settings) = rest.split_at_checked(Scalers::NUMBERS)?;
        let narrow = |place: usize| u32::try_from(plain[place]).ok();
        Some(State {
            phase: match plain[0] {
                0 => Phase::Idle,
                1 => Phase::Block,
                2 => Phase::Event,
                _ => return None,
            },
            block: narrow(1)?,
            events: narrow(2)?,
            event: narrow(3)?,
            time: plain[4],
            marks: u16::try_from(plain[5]).ok()?,
            closed: narrow(6)?,
            words: plain[7],
            scalers: Scalers::decode(scalers)?,
            settings: Settings::decode(settings)?,
        })
    }

    pub fn encode(&self) -> [u64; Self::NUMBERS] {
        let mut numbers = [0; Self::NUMBERS];
        let (plain, rest) = numbers.split_at_mut(8);
        let (scalers, settings) = rest.split_at_mut(Scalers::NUMBERS);
        plain.copy_from_slice(&[
            match self.phase {
                Phase::Idle => 0,
                Phase::Block => 1,
                Phase::Event => 2,
            },
            self.block.into(),
            self.events.into(),
            self.event.into(),
            self.time,
            self.marks.into(),
            self.closed.into(),
            self.words,
        ]);
        scalers.copy_from_slice(&self.scalers.encode());
        settings.copy_from_slice(&self.settings.encode());
        numbers
    }
}

/// 8: "block number over 1,023, events not 1-255"
fn block_numbers(number: u32, events: u32) -> bool {
    number <= LARGEST_BLOCK && (1..=LARGEST_EVENTS).contains(&events)
}

/// 8: "event number over 4,194,303, time over 2^48 - 1"
fn event_numbers(number: u32, time: u64) -> bool {
    number <= LARGEST_EVENT && time <= LARGEST_TIME
}

/// "Per channel: mode 1, if any sample is over, type 4. Mode 2, type 6. Mode 3,
/// 7 then 8 with TC and fine 0. Mode 4, 8 then 10. Mode 7, 7, 8, 10. Mode 8,
/// the window as in mode 1, then 8, 10. Pulses in order."
fn channel_words(settings: &Settings, channel: usize, row: &[u16], new: &mut Vec<u32>) {
    let threshold = settings.thresholds[channel];
    let mode = settings.mode;
    let channel = channel as u32;
    if matches!(mode, 1 | 8) && any_over(threshold, row) {
        new.push(words::window(channel, row.len() as u32));
        new.extend(words::pairs(row));
    }
    if mode == 1 {
        return;
    }
    for (number, pulse) in (0..).zip(&pulses(settings, threshold, row)) {
        pulse_words(mode, channel, number, pulse, row, new);
    }
}

fn pulse_words(
    mode: u32,
    channel: u32,
    number: u32,
    pulse: &Pulse,
    row: &[u16],
    new: &mut Vec<u32>,
) {
    if mode == 2 {
        // "its appendix, the actual interval, decides": the set as it was cut.
        let set = &row[pulse.first as usize - 1..pulse.last as usize];
        new.push(words::pulse_raw(channel, number, pulse.tc));
        new.extend(words::pairs(set));
    }
    if matches!(mode, 3 | 7) {
        new.push(words::integral(channel, number, pulse));
    }
    if mode == 3 {
        new.push(words::time(channel, number, pulse.tc, 0));
    }
    if matches!(mode, 4 | 7 | 8) {
        new.push(words::time(channel, number, pulse.coarse, pulse.fine));
        new.push(words::pedestal(channel, number, pulse));
    }
}
