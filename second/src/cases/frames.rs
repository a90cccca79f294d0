//! Frames for the counts: quiet ones and busy ones, and what is no frame.

use super::{bad_sample, high, low, near, Rng};
use crate::settings::CHANNELS;

/// Good frames, whole ones: mostly a few, sometimes as many as the timer's group,
/// or none.
pub(super) fn good_frames(rng: &mut Rng, thresholds: &[u32; CHANNELS]) -> Vec<u16> {
    let count = match rng.below(16) {
        0 => rng.pick(&[510, 511, 512, 513, 1_023, 1_024, 1_025]),
        1 => rng.pick(&[0, 1]),
        _ => rng.between(1, 12),
    };
    frames(rng, thresholds, count as usize)
}

/// Frames of which one or several things may be wrong, to try the order.
pub(super) fn any_frames(rng: &mut Rng, thresholds: &[u32; CHANNELS]) -> Vec<u16> {
    let mut samples = good_frames(rng, thresholds);
    if rng.once_in(2) {
        let part = rng.pick(&[1, 2, 8, 15]);
        samples.resize(samples.len() + part, 4_095);
    }
    if rng.once_in(2) && !samples.is_empty() {
        let last = samples.len() - 1;
        let any = rng.place(samples.len());
        let place = rng.pick(&[0, any, any, last]);
        samples[place] = bad_sample(rng);
    }
    samples
}

/// So many frames of one of several shapes, sometimes with overflow flags.
pub(super) fn frames(rng: &mut Rng, thresholds: &[u32; CHANNELS], count: usize) -> Vec<u16> {
    let shape = rng.below(6);
    let flag = rng.pick(&[0, 0, 0x1000]);
    let samples = (0..count).flat_map(|number| thresholds.map(|threshold| (number, threshold)));
    samples.map(|(number, threshold)| sample(rng, shape, number, threshold) | flag).collect()
}

/// A sample of the frame of this number.
fn sample(rng: &mut Rng, shape: u64, number: usize, threshold: u32) -> u16 {
    // 4,095 has none above it
    let above = (threshold as u16 + 1).min(4_095);
    match shape {
        0 => low(rng, threshold),
        1 => above.max(high(rng, threshold)),
        2 => near(rng, threshold),
        // in turns, every frame an edge or its end
        3 if number.is_multiple_of(2) => above,
        3 => threshold as u16,
        4 if rng.once_in(4) => high(rng, threshold),
        4 => low(rng, threshold),
        _ => rng.below(8_192) as u16,
    }
}
