//! Seeded cases for a comparison program.  A case is made from its seed and its
//! number alone, so the line that it prints is enough to make it again.

mod finder;
mod frames;
mod limit;
mod reader;
mod record;
mod sequence;

pub use finder::FinderCase;
pub use limit::{limit_case, limit_cases, LIMIT_CASES};
pub use reader::{every_cut, every_flip, ReaderCase};
pub use record::{SamplesCase, ScanCase};
pub use sequence::{Bench, SequenceCase, Step};

use crate::calls;
use crate::settings::{Settings, CHANNELS};

/// The seed when none is given.
pub const SEED: u64 = 250;

/// The fifteen calls, as either program answers them.
pub trait Side {
    fn set_up(&self, settings: &[u64], state: &mut [u64]) -> u32;
    fn open_block(&self, state: &mut [u64], words: &mut [u32], number: u32, events: u32) -> u32;
    fn open_event(&self, state: &mut [u64], number: u32, time: u64) -> u32;
    fn post(&self, state: &mut [u64], store: &mut [u16], channel: u32, window: &[u16]) -> u32;
    fn close(&self, state: &mut [u64], store: &[u16], words: &mut [u32]) -> u32;
    fn close_with_scalers(&self, state: &mut [u64], store: &[u16], words: &mut [u32]) -> u32;
    fn finish(&self, state: &mut [u64], words: &mut [u32]) -> u64;
    fn count(&self, state: &mut [u64], frames: &[u16]) -> u32;
    fn latch(&self, state: &mut [u64]) -> u32;
    fn reset(&self, state: &mut [u64]) -> u32;
    fn find(&self, settings: &[u64], channel: u32, window: &[u16], out: &mut [u32]) -> u32;
    fn check(&self, bytes: &[u8]) -> u64;
    fn next(&self, scan: &mut [u32], words: &[u32], record: &mut [u64]) -> u64;
    fn samples(&self, words: &[u32], place: u32, pairs: u32, samples: &mut [u16]) -> u64;
    fn list(&self, bytes: &[u8], text: &mut [u8]) -> u64;
}

/// This program's side.
pub struct Second;

impl Side for Second {
    fn set_up(&self, settings: &[u64], state: &mut [u64]) -> u32 {
        calls::set_up(settings, state)
    }
    fn open_block(&self, state: &mut [u64], words: &mut [u32], number: u32, events: u32) -> u32 {
        calls::open_block(state, words, number, events)
    }
    fn open_event(&self, state: &mut [u64], number: u32, time: u64) -> u32 {
        calls::open_event(state, number, time)
    }
    fn post(&self, state: &mut [u64], store: &mut [u16], channel: u32, window: &[u16]) -> u32 {
        calls::post(state, store, channel, window)
    }
    fn close(&self, state: &mut [u64], store: &[u16], words: &mut [u32]) -> u32 {
        calls::close(state, store, words)
    }
    fn close_with_scalers(&self, state: &mut [u64], store: &[u16], words: &mut [u32]) -> u32 {
        calls::close_with_scalers(state, store, words)
    }
    fn finish(&self, state: &mut [u64], words: &mut [u32]) -> u64 {
        calls::finish(state, words)
    }
    fn count(&self, state: &mut [u64], frames: &[u16]) -> u32 {
        calls::count(state, frames)
    }
    fn latch(&self, state: &mut [u64]) -> u32 {
        calls::latch(state)
    }
    fn reset(&self, state: &mut [u64]) -> u32 {
        calls::reset(state)
    }
    fn find(&self, settings: &[u64], channel: u32, window: &[u16], out: &mut [u32]) -> u32 {
        calls::find(settings, channel, window, out)
    }
    fn check(&self, bytes: &[u8]) -> u64 {
        calls::check(bytes)
    }
    fn next(&self, scan: &mut [u32], words: &[u32], record: &mut [u64]) -> u64 {
        calls::next(scan, words, record)
    }
    fn samples(&self, words: &[u32], place: u32, pairs: u32, samples: &mut [u16]) -> u64 {
        calls::samples(words, place, pairs, samples)
    }
    fn list(&self, bytes: &[u8], text: &mut [u8]) -> u64 {
        calls::list(bytes, text)
    }
}

/// Splitmix64.
#[derive(Clone, Debug)]
pub struct Rng(u64);

impl Rng {
    /// The generator of one case: `kind` keeps the kinds of case apart.
    pub fn of_case(kind: u64, seed: u64, number: u64) -> Rng {
        let mut start = Rng(seed);
        let mixed = start.next() ^ kind.wrapping_mul(0xD6E8_FEB8_6659_FD93);
        Rng(Rng(mixed.wrapping_add(number)).next())
    }

    #[allow(clippy::should_implement_trait)]
    pub fn next(&mut self) -> u64 {
        self.0 = self.0.wrapping_add(0x9E37_79B9_7F4A_7C15);
        let mut z = self.0;
        z = (z ^ (z >> 30)).wrapping_mul(0xBF58_476D_1CE4_E5B9);
        z = (z ^ (z >> 27)).wrapping_mul(0x94D0_49BB_1331_11EB);
        z ^ (z >> 31)
    }

    /// 0 to n - 1; 0 for n = 0.
    pub fn below(&mut self, n: u64) -> u64 {
        self.next().checked_rem(n).unwrap_or(0)
    }

    pub fn between(&mut self, low: u64, high: u64) -> u64 {
        low + self.below(high - low + 1)
    }

    /// True once in n times.
    pub fn once_in(&mut self, n: u64) -> bool {
        self.below(n) == 0
    }

    pub fn pick<T: Copy>(&mut self, from: &[T]) -> T {
        from[self.below(from.len() as u64) as usize]
    }

    /// A place in something of this length; 0 for an empty one.
    pub fn place(&mut self, length: usize) -> usize {
        self.below(length as u64) as usize
    }
}

/// Windows of these lengths often have a sum about 524,287, the cap.
const CAP: std::ops::RangeInclusive<usize> = 129..=130;

/// Settings in range, edges often among them.
fn good_settings(rng: &mut Rng) -> Settings {
    let nw = match rng.below(8) {
        0 => rng.between(1, 10),
        1 => rng.pick(&[15, 16, 17, 127, 128, 129, 130, 499, 500]),
        2 => rng.between(1, 500),
        _ => rng.between(1, 48),
    };
    let (mut nsb, mut nsa) = (span(rng), span(rng).max(1));
    let usual = threshold(rng);
    let mut thresholds = [usual; CHANNELS];
    for threshold_of_channel in &mut thresholds {
        if rng.once_in(3) {
            *threshold_of_channel = threshold(rng);
        }
    }
    if CAP.contains(&(nw as usize)) {
        (nsb, nsa) = (511, 511);
    }
    Settings {
        mode: rng.pick(&[1, 2, 3, 4, 7, 8]),
        nw,
        pl: rng.pick(&[0, 1, 20, 2_047]),
        nsb,
        nsa,
        limit: rng.pick(&[1, 2, 3, 3]),
        slot: rng.below(32) as u32,
        parameters: rng.once_in(2),
        times: rng.below(3) as u32,
        multiple: rng.pick(&[1, 2, 4]),
        thresholds,
    }
}

/// A value for NSB or NSA.
fn span(rng: &mut Rng) -> u64 {
    match rng.below(6) {
        0 => 0,
        1 => rng.below(512),
        2 => rng.pick(&[1, 510, 511]),
        _ => rng.below(9),
    }
}

fn threshold(rng: &mut Rng) -> u32 {
    match rng.below(4) {
        0 => rng.pick(&[0, 1, 510, 511, 512, 4_094, 4_095]),
        1 => rng.below(4_096) as u32,
        _ => rng.between(20, 700) as u32,
    }
}

/// Numbers of settings with one thing wrong: a field out of range by one, a
/// field beyond its type, or the count of numbers.
fn spoil_settings(rng: &mut Rng, numbers: &mut Vec<u64>) {
    const WIDE: u64 = 1 << 32;
    const ONE_OFF: [&[u64]; 11] = [
        &[0, 5, 6, 9, WIDE + 1],
        &[0, 501, WIDE + 16, u64::MAX],
        &[2_048, WIDE],
        &[512, WIDE, u64::MAX],
        &[0, 512, WIDE + 1, u64::MAX],
        &[0, 4, WIDE + 1, u64::MAX],
        &[32, WIDE],
        &[2, WIDE],
        &[3, WIDE],
        &[0, 3, 5, 8, WIDE + 2],
        &[4_096, WIDE, u64::MAX],
    ];
    if rng.once_in(12) {
        let length = rng.pick(&[0, 10, 25, 27, 72]);
        numbers.resize(length, 100);
        return;
    }
    let place = rng.place(numbers.len());
    if let Some(number) = numbers.get_mut(place) {
        *number = rng.pick(ONE_OFF[place.min(10)]);
    }
}

/// A sample that is over 8,191.
fn bad_sample(rng: &mut Rng) -> u16 {
    rng.pick(&[8_192, 8_193, 0x4000, 0x8000, 0xE123, u16::MAX])
}

/// The threshold, or a neighbour of it.
fn near(rng: &mut Rng, threshold: u32) -> u16 {
    (threshold as u16 + rng.below(3) as u16).saturating_sub(1).min(4_095)
}

fn low(rng: &mut Rng, threshold: u32) -> u16 {
    rng.below(u64::from(threshold) + 1) as u16
}

fn high(rng: &mut Rng, threshold: u32) -> u16 {
    rng.between(u64::from(threshold), 4_095) as u16
}

/// One of many shapes around the threshold.
fn shape(rng: &mut Rng, nw: usize, threshold: u32) -> Vec<u16> {
    let low = |rng: &mut Rng| low(rng, threshold);
    let high = |rng: &mut Rng| high(rng, threshold);
    let start = rng.place(nw + 1);
    let late = nw.saturating_sub(rng.place(9));
    let level = high(rng);
    let step = rng.between(1, 40) as u16;
    let period = rng.between(1, 12) as usize;
    let width = rng.between(1, period as u64) as usize;
    match rng.below(14) {
        0 => (0..nw).map(|_| rng.below(8_192) as u16).collect(),
        1 => (0..nw).map(|_| near(rng, threshold)).collect(),
        2 => vec![rng.pick(&[0, level, threshold as u16, 4_095, 4_096, 8_191]); nw],
        3 => (0..nw).map(|k| (k as u16).saturating_mul(step).min(4_095)).collect(),
        4 => (0..nw).map(|k| level.saturating_sub((k as u16).saturating_mul(step))).collect(),
        5 => vec![0; nw],
        6 => (0..nw).map(|_| rng.pick(&[4_095, 8_191, 4_096, 4_094, 0])).collect(),
        7 => (0..nw).map(|k| if k % period < width { high(rng) } else { low(rng) }).collect(),
        8 => (0..nw).map(|k| if k % period < width { level } else { low(rng) }).collect(),
        9 => (0..nw).map(|k| if k < 4 { low(rng) } else { rng.below(4_096) as u16 }).collect(),
        10 => (0..nw).map(|k| if k + 1 < late { low(rng) } else { high(rng) }).collect(),
        // rise, then flat to the end
        11 => (0..nw).map(|k| if k < start { low(rng) } else { level }).collect(),
        // VMIN about 511
        12 => {
            (0..nw).map(|k| if k < 4 { rng.between(509, 514) as u16 } else { high(rng) }).collect()
        }
        _ => train(rng, nw, threshold),
    }
}

/// A window of good samples: a shape, touched up.
fn window(rng: &mut Rng, nw: usize, threshold: u32) -> Vec<u16> {
    let mut samples = shape(rng, nw, threshold);
    // 128 x 4,095 + 127 = 524,287
    if CAP.contains(&nw) && rng.once_in(2) {
        samples = vec![4_095; nw];
        samples[rng.place(nw)] = rng.between(125, 129) as u16;
        samples.iter_mut().skip(129).for_each(|sample| *sample = 0);
        return samples;
    }
    // A quiet start, without which no time is interpolated.
    if rng.once_in(2) {
        samples.iter_mut().take(4).for_each(|sample| *sample = low(rng, threshold));
    }
    if rng.once_in(3) {
        let rarity = rng.pick(&[1, 2, 10]);
        samples.iter_mut().filter(|_| rng.once_in(rarity)).for_each(|s| *s |= 0x1000);
    }
    if rng.once_in(4) && nw > 0 {
        samples[rng.place(nw)] = near(rng, threshold);
    }
    samples
}

/// A quiet line with pulses of rise, flat top and fall.
fn train(rng: &mut Rng, nw: usize, threshold: u32) -> Vec<u16> {
    let base = rng.below(u64::from(threshold) + 1) as u32;
    let mut samples = vec![base as u16; nw];
    for _ in 0..rng.between(1, 5) {
        let start = rng.place(nw);
        let top = rng.between(u64::from(threshold), 4_095) as u32;
        let (rise, flat, fall) = (rng.between(1, 5), rng.below(4), rng.between(1, 6));
        let up = (1..=rise).map(|i| base + (top - base.min(top)) * i as u32 / rise as u32);
        let down = (1..=fall).map(|i| top - (top - base.min(top)) * i as u32 / fall as u32);
        let values = up.chain((0..flat).map(|_| top)).chain(down);
        for (sample, value) in samples.iter_mut().skip(start).zip(values) {
            *sample = (value + rng.below(3) as u32).min(4_095) as u16;
        }
    }
    samples
}
