//! Cases for the writer and the counts: calls in any order, with what the host
//! does between.

use super::frames::{any_frames, frames, good_frames};
use super::{bad_sample, good_settings, spoil_settings, window, Rng, Second, Side};
use crate::settings::{Settings, CHANNELS};
use crate::writer::{Phase, State};
use std::fmt;

/// All that is lent to the calls.
#[derive(Clone, Debug, PartialEq, Eq)]
pub struct Bench {
    pub state: Vec<u64>,
    pub store: Vec<u16>,
    pub words: Vec<u32>,
}

/// One call, or one deed of the host.  `store` and `words` are how much of the
/// bench's store and words is lent, at most all of it.
#[derive(Clone, Debug, PartialEq, Eq)]
#[rustfmt::skip]
pub enum Step {
    SetUp { settings: Vec<u64> },
    OpenBlock { words: usize, number: u32, events: u32 },
    OpenEvent { number: u32, time: u64 },
    Post { store: usize, channel: u32, window: Vec<u16> },
    Close { store: usize, words: usize, scalers: bool },
    Finish { words: usize },
    Count { frames: Vec<u16> },
    Latch,
    Reset,
    /// One of the state's numbers is altered.
    Forge { place: usize, value: u64 },
    /// The state is passed with this many numbers from now on.
    StateLength { length: usize },
    /// A sample of the store is overwritten.
    Overwrite { place: usize, value: u16 },
    /// Another store is lent from now on, of this many samples.
    OtherStore { samples: Vec<u16> },
}

impl Bench {
    /// Does one step with `side`; what the host does answers 0.
    pub fn apply(&mut self, side: &dyn Side, step: &Step) -> u64 {
        let Bench { state, store, words } = self;
        let (most_store, most_words) = (store.len(), words.len());
        match step {
            Step::SetUp { settings } => side.set_up(settings, state).into(),
            Step::OpenBlock { words: lent, number, events } => {
                let words = &mut words[..most_words.min(*lent)];
                side.open_block(state, words, *number, *events).into()
            }
            Step::OpenEvent { number, time } => side.open_event(state, *number, *time).into(),
            Step::Post { store: lent, channel, window } => {
                let store = &mut store[..most_store.min(*lent)];
                side.post(state, store, *channel, window).into()
            }
            Step::Close { store: lent, words: lent_words, scalers } => {
                let store = &store[..most_store.min(*lent)];
                let words = &mut words[..most_words.min(*lent_words)];
                match scalers {
                    false => side.close(state, store, words).into(),
                    true => side.close_with_scalers(state, store, words).into(),
                }
            }
            Step::Finish { words: lent } => side.finish(state, &mut words[..most_words.min(*lent)]),
            Step::Count { frames } => side.count(state, frames).into(),
            Step::Latch => side.latch(state).into(),
            Step::Reset => side.reset(state).into(),
            Step::Forge { place, value } => set(state, *place, *value),
            Step::StateLength { length } => {
                state.resize(*length, 0);
                0
            }
            Step::Overwrite { place, value } => set(store, *place, *value),
            Step::OtherStore { samples } => {
                store.clone_from(samples);
                0
            }
        }
    }
}

/// The same call with room for so many words.
fn with_room(step: &Step, room: usize) -> Step {
    let mut step = step.clone();
    if let Step::OpenBlock { words, .. } | Step::Close { words, .. } | Step::Finish { words } =
        &mut step
    {
        *words = room;
    }
    step
}

fn set<T>(values: &mut [T], place: usize, value: T) -> u64 {
    if let Some(old) = values.get_mut(place) {
        *old = value;
    }
    0
}

/// Places of a state: what is counted, and the settings behind it.
const COUNTS: usize = 8;
const TIMER: usize = 24;
const TRIGGERS: usize = 25;
const PART: usize = 26;
const OVER: usize = 27;
const SETTINGS: usize = 46;

#[derive(Clone, Debug, PartialEq, Eq)]
pub struct SequenceCase {
    pub seed: u64,
    pub number: u64,
    /// As it stands before the first step.
    pub bench: Bench,
    pub steps: Vec<Step>,
}

/// What a sequence is to bring about.
#[derive(Clone, Copy, Debug, PartialEq, Eq)]
enum Plan {
    /// Some small blocks, disturbed often.
    Usual,
    /// Blocks of very many events.
    Many,
    /// Events of the most words that there can be.
    Full,
}

impl SequenceCase {
    pub fn new(seed: u64, number: u64) -> SequenceCase {
        let mut rng = Rng::of_case(2, seed, number);
        let plan = match rng.below(120) {
            0 => Plan::Many,
            1 => Plan::Full,
            _ => Plan::Usual,
        };
        let settings = settings_for(&mut rng, plan);
        let nw = settings.nw as usize;
        let length = 16 * nw + rng.pick(&[0, 0, 0, 1, nw]);
        let store = store(&mut rng, length);
        // Room for three full events, or for very many small ones.
        let full = 3 + 16 * (1 + nw.div_ceil(2)) * 3 + 19;
        let room = if plan == Plan::Many { 40_000 } else { 3 * full + 64 };
        let bench = Bench {
            state: (0..State::NUMBERS).map(|_| rng.next()).collect(),
            store,
            words: (0..room).map(|_| rng.next() as u32).collect(),
        };
        let tight = rng.once_in(2);
        let rates = rng.pick(&[2, 5, 12, 100]);
        let (now, steps) = (bench.clone(), Vec::new());
        let mut maker = Maker { rng, now, steps, whole: 0, plan, tight, rates };
        maker.push(Step::SetUp { settings: settings.encode().to_vec() });
        maker.make();
        SequenceCase { seed, number, bench, steps: maker.steps }
    }
}

fn settings_for(rng: &mut Rng, plan: Plan) -> Settings {
    let mut settings = good_settings(rng);
    match plan {
        Plan::Usual => {}
        Plan::Many => settings.nw = rng.between(1, 12),
        // Mode 2 with three sets that all start at 1 gives the most words.
        Plan::Full => {
            settings.mode = rng.pick(&[1, 2, 2, 8]);
            (settings.nw, settings.nsb, settings.nsa, settings.limit) = (500, 511, 1, 3);
            settings.thresholds = settings.thresholds.map(|threshold| threshold.min(4_094));
        }
    }
    settings
}

/// A window of 500 samples whose last three crossings come as late as they can.
fn late_window(rng: &mut Rng, threshold: u32) -> Vec<u16> {
    let mut samples: Vec<u16> = (0..500).map(|_| super::low(rng, threshold)).collect();
    for number in [496, 498, 500] {
        samples[number - 1] = rng.between(u64::from(threshold) + 1, 4_095) as u16;
    }
    samples
}

impl fmt::Display for SequenceCase {
    fn fmt(&self, f: &mut fmt::Formatter) -> fmt::Result {
        let (seed, number, steps) = (self.seed, self.number, self.steps.len());
        let Bench { store, words, .. } = &self.bench;
        write!(f, "sequence seed {seed} case {number}: ")?;
        write!(f, "{steps} steps, store {}, words {}", store.len(), words.len())
    }
}

/// A store as the host may lend it: old rows, and sometimes samples that are no
/// samples, which matter only in rows that are posted and overwritten.
fn store(rng: &mut Rng, length: usize) -> Vec<u16> {
    let rarity = rng.pick(&[3, 50, u64::MAX]);
    let mut sample =
        |_| if rng.once_in(rarity) { bad_sample(rng) } else { rng.below(8_192) as u16 };
    (0..length).map(&mut sample).collect()
}

/// Makes steps while doing them with this program, so as to know what would
/// come next in a block that succeeds.
struct Maker {
    rng: Rng,
    now: Bench,
    steps: Vec<Step>,
    /// Blocks finished.
    whole: u32,
    plan: Plan,
    /// Whether a call gets first too little room for its words, then just enough.
    tight: bool,
    /// A call that counts comes once in so many times.
    rates: u64,
}

impl Maker {
    /// Does the step, and answers its refusal, 0 for none.
    fn push(&mut self, step: Step) -> u64 {
        let answer = self.now.apply(&Second, &step);
        let finish = matches!(step, Step::Finish { .. });
        let refusal = if finish { answer >> 32 } else { answer };
        self.whole += u32::from(finish && refusal == 0);
        self.steps.push(step);
        refusal
    }

    fn make(&mut self) {
        let (most, rarity) = match self.plan {
            Plan::Usual => (100, self.rng.pick(&[3, 8, 30])),
            Plan::Many => (3_000, 500),
            Plan::Full => (100, 30),
        };
        let blocks = self.rng.between(1, 3) as u32;
        while self.steps.len() < most && self.whole < blocks {
            if self.rng.once_in(rarity) {
                self.disturb();
            } else if self.rng.once_in(self.rates) {
                let step = self.counting();
                self.push(step);
            } else {
                let step = self.natural();
                let refusal = self.push(step);
                // A store that is too short or holds what is no sample would stop
                // the block for good: mostly another one is lent.
                if matches!(refusal, 2 | 3) && !self.rng.once_in(4) {
                    self.lend_good_store();
                }
            }
        }
    }

    fn lend_good_store(&mut self) {
        let nw = self.state().map_or(16, |state| state.settings.nw as usize);
        let samples = (0..16 * nw).map(|_| self.rng.below(8_192) as u16).collect();
        self.push(Step::OtherStore { samples });
    }

    fn state(&self) -> Option<State> {
        State::decode(&self.now.state).filter(State::in_range)
    }

    /// The call that brings the block on.
    fn natural(&mut self) -> Step {
        let Some(state) = self.state() else {
            let mut settings = good_settings(&mut self.rng);
            // a NW for which the store mostly is long enough
            settings.nw = settings.nw.min(self.now.store.len() as u64 / 16).max(1);
            return Step::SetUp { settings: settings.encode().to_vec() };
        };
        let step = match state.phase {
            Phase::Idle => self.open_block(),
            Phase::Block if state.closed < state.events => self.open_event(),
            Phase::Block => Step::Finish { words: usize::MAX },
            Phase::Event if self.wants_post(state.marks) => self.post(&state),
            Phase::Event => self.close(),
        };
        self.lend_words(step)
    }

    fn close(&mut self) -> Step {
        Step::Close { store: usize::MAX, words: usize::MAX, scalers: self.rng.once_in(2) }
    }

    /// A call that counts, in whatever phase.
    fn counting(&mut self) -> Step {
        let thresholds = self.thresholds();
        match self.rng.below(8) {
            0 | 1 => Step::Latch,
            2 => Step::Reset,
            _ => Step::Count { frames: good_frames(&mut self.rng, &thresholds) },
        }
    }

    fn thresholds(&self) -> [u32; CHANNELS] {
        self.state().map_or([100; CHANNELS], |state| state.settings.thresholds)
    }

    fn wants_post(&mut self, marks: u16) -> bool {
        let more = match self.plan {
            Plan::Usual => 6,
            Plan::Many => 3,
            Plan::Full => 1_000,
        };
        marks != u16::MAX && !self.rng.once_in(more - u64::from(marks == 0))
    }

    fn open_block(&mut self) -> Step {
        let number = self.rng.pick(&[0, 1, 2, 500, 1_023]);
        let events = match self.plan {
            Plan::Many => self.rng.pick(&[40, 255]),
            _ => self.rng.between(1, 4) as u32,
        };
        Step::OpenBlock { words: usize::MAX, number, events }
    }

    fn open_event(&mut self) -> Step {
        let number = self.rng.pick(&[0, 1, 9, 65_536, 4_194_303]);
        let time = match self.rng.below(3) {
            0 => self.rng.pick(&[0, 256, (1 << 24) - 1, 1 << 24, 1 << 27, (1 << 48) - 1]),
            _ => self.rng.below(1 << 48),
        };
        Step::OpenEvent { number, time }
    }

    fn post(&mut self, state: &State) -> Step {
        let free: Vec<u32> = (0..16).filter(|c| state.marks >> c & 1 == 0).collect();
        let channel = self.rng.pick(&free);
        let threshold = state.settings.thresholds[channel as usize];
        let nw = state.settings.nw as usize;
        let late = self.plan == Plan::Full && nw == 500 && threshold < 4_095;
        let mut window = if late {
            late_window(&mut self.rng, threshold)
        } else {
            window(&mut self.rng, nw, threshold)
        };
        if self.rng.once_in(300) {
            window[self.rng.place(nw)] = bad_sample(&mut self.rng);
        }
        Step::Post { store: usize::MAX, channel, window }
    }

    /// Where room is tight: two words too few, one too few, and then just
    /// enough, or one or two more.
    fn lend_words(&mut self, step: Step) -> Step {
        let Some(needed) = self.needed(&step).filter(|_| self.tight) else { return step };
        for less in [2, 1] {
            self.push(with_room(&step, needed.saturating_sub(less)));
        }
        with_room(&step, needed + self.rng.place(3))
    }

    /// The room that a call needs; none for one that writes no words.
    fn needed(&self, step: &Step) -> Option<usize> {
        let mut tried = self.now.clone();
        let answer = tried.apply(&Second, step);
        match step {
            Step::OpenBlock { .. } | Step::Close { .. } => {
                State::decode(&tried.state).map(|state| state.words as usize)
            }
            Step::Finish { .. } => Some(answer as u32 as usize),
            _ => None,
        }
    }

    fn disturb(&mut self) {
        match self.rng.below(8) {
            0 | 1 => {
                let step = self.any_call();
                self.push(step);
            }
            2 | 3 => self.forge(),
            4 => self.overwrite(),
            5 => self.other_length(),
            6 => self.near_wrap(),
            _ => {
                let nw = self.state().map_or(16, |state| state.settings.nw as usize);
                let length = 16 * nw + self.rng.pick(&[0, 0, 0, 3]) - self.rng.pick(&[0, 0, 0, 1]);
                let samples = store(&mut self.rng, length);
                self.push(Step::OtherStore { samples });
            }
        }
    }

    /// A call with a state of another length, which is then put right again.
    fn other_length(&mut self) {
        let length = self.rng.pick(&[0, 8, 34, 71, 73]);
        let step = match self.rng.below(4) {
            0 => self.any_set_up(),
            1 => self.counting(),
            _ => self.natural(),
        };
        let old = self.now.state.clone();
        self.push(Step::StateLength { length });
        self.push(step);
        self.push(Step::StateLength { length: State::NUMBERS });
        self.put_back(&old);
    }

    /// Mostly refused: a set up that is accepted throws the block away.
    fn any_set_up(&mut self) -> Step {
        let mut settings = good_settings(&mut self.rng).encode().to_vec();
        if !self.rng.once_in(4) {
            spoil_settings(&mut self.rng, &mut settings);
        }
        Step::SetUp { settings }
    }

    /// Any call at any time, its numbers often at or over an edge.
    fn any_call(&mut self) -> Step {
        let full = usize::MAX;
        let rng = &mut self.rng;
        let words = rng.pick(&[0, 1, 2, full, full]);
        let store = rng.pick(&[0, self.now.store.len().saturating_sub(1), full, full]);
        match rng.below(10) {
            0 => self.any_set_up(),
            1 => {
                let number = rng.pick(&[0, 1_023, 1_024, u32::MAX]);
                Step::OpenBlock { words, number, events: rng.pick(&[0, 1, 255, 256, u32::MAX]) }
            }
            2 => {
                let time = rng.pick(&[0, 7, (1 << 48) - 1, 1 << 48, u64::MAX]);
                Step::OpenEvent { number: rng.pick(&[0, 4_194_303, 4_194_304, u32::MAX]), time }
            }
            3 => self.any_post(store),
            4 | 5 => Step::Close { store, words, scalers: rng.once_in(2) },
            6 => Step::Finish { words },
            7 => self.counting(),
            _ => {
                let thresholds = self.thresholds();
                Step::Count { frames: any_frames(&mut self.rng, &thresholds) }
            }
        }
    }

    fn any_post(&mut self, store: usize) -> Step {
        let nw = self.state().map_or(16, |state| state.settings.nw as usize);
        let rng = &mut self.rng;
        let length = rng.pick(&[nw, nw, nw, nw + 1, nw - 1, 0]);
        let mut window = window(rng, length, 100);
        if rng.once_in(4) && !window.is_empty() {
            let place = rng.place(length);
            window[place] = bad_sample(rng);
        }
        let channel = match rng.below(4) {
            0 => rng.pick(&[16, 17, 32, 1 << 31, u32::MAX]),
            _ => rng.below(16) as u32,
        };
        Step::Post { store, channel, window }
    }

    /// One or two numbers of the state altered before the next call, and mostly
    /// put back when that was refused.
    fn forge(&mut self) {
        let step = if self.rng.once_in(3) { self.counting() } else { self.natural() };
        let old = self.now.state.clone();
        for _ in 0..self.rng.between(1, 2) {
            let place = match self.rng.below(4) {
                0 => self.rng.place(self.now.state.len()),
                1 => {
                    let any = COUNTS + self.rng.place(SETTINGS - COUNTS);
                    self.rng.pick(&[any, any, PART, OVER])
                }
                _ => self.rng.place(COUNTS),
            };
            let value = self.now.state.get(place).copied().unwrap_or(0);
            let value = self.forged(place, value);
            self.push(Step::Forge { place, value });
        }
        let refusal = self.push(step);
        if refusal != 0 && !self.rng.once_in(8) {
            self.put_back(&old);
        }
    }

    /// The state's numbers that are no longer as they were.
    fn put_back(&mut self, old: &[u64]) {
        for (place, &value) in old.iter().enumerate() {
            if self.now.state.get(place) != Some(&value) {
                self.push(Step::Forge { place, value });
            }
        }
    }

    fn forged(&mut self, place: usize, old: u64) -> u64 {
        const EDGES: [&[u64]; 8] = [
            &[0, 1, 2, 3],
            &[0, 1_023, 1_024],
            &[0, 1, 255, 256],
            &[0, 4_194_303, 4_194_304],
            &[0, (1 << 48) - 1, 1 << 48],
            &[0, 1, 0xFFFF, 0x1_0000],
            &[0, 1, 254, 255, 256],
            &[0, 1, 2, 3],
        ];
        let closed = self.now.state.get(6).copied().unwrap_or(0);
        match self.rng.below(4) {
            // the bounds of the words written
            0 | 1 if place == 7 => {
                let state = self.state();
                let times = state.as_ref().map_or(0, |state| u64::from(state.settings.times));
                let header = state.map_or(1, |state| 1 + u64::from(state.settings.parameters));
                let least = header.saturating_add(closed.saturating_mul(1 + times));
                let most = closed.saturating_mul(12_070).saturating_add(2);
                self.rng.pick(&[least - 1, least, most, most.saturating_add(1)])
            }
            0 | 1 if place < COUNTS => self.rng.pick(EDGES[place]),
            0 | 1 if place < SETTINGS => self.forged_count(place),
            2 => self.rng.pick(&[old.wrapping_add(1), old.wrapping_sub(1), old ^ 1]),
            _ => {
                self.rng.pick(&[old.wrapping_add(1 << 32), 1 << 32, u64::MAX, old.wrapping_add(2)])
            }
        }
    }

    fn forged_count(&mut self, place: usize) -> u64 {
        const WIDE: u64 = 1 << 32;
        self.rng.pick(match place {
            PART => &[0, 510, 511, 512, WIDE],
            OVER => &[0, 1, 0xFFFF, 0x1_0000, 0x1_FFFF],
            _ => &[0, 1, WIDE - 2, WIDE - 1, WIDE],
        })
    }

    /// Counts that are about to wrap; then frames, and what comes next.
    fn near_wrap(&mut self) {
        let channel = COUNTS + self.rng.place(CHANNELS);
        for place in [channel, TIMER, TRIGGERS] {
            let value = u64::from(u32::MAX) - self.rng.below(2);
            self.push(Step::Forge { place, value });
        }
        let value = 511 - self.rng.below(3);
        self.push(Step::Forge { place: PART, value });
        let thresholds = self.thresholds();
        let count = self.rng.between(1, 6) as usize;
        let frames = frames(&mut self.rng, &thresholds, count);
        self.push(Step::Count { frames });
        let step = self.natural();
        self.push(step);
    }

    /// Samples of the store overwritten between calls; a bad one mostly is put
    /// right after the next call.
    fn overwrite(&mut self) {
        let place = self.rng.place(self.now.store.len());
        let bad = self.rng.once_in(2);
        let value = if bad { bad_sample(&mut self.rng) } else { self.rng.below(8_192) as u16 };
        self.push(Step::Overwrite { place, value });
        if bad {
            let step = match self.rng.below(2) {
                0 => self.close(),
                _ => self.natural(),
            };
            self.push(step);
            if !self.rng.once_in(8) {
                self.push(Step::Overwrite { place, value: 33 });
            }
        }
    }
}
