//! Cases for the finder by itself.

use super::{bad_sample, good_settings, spoil_settings, window, Rng};
use crate::calls::FOUND;
use std::fmt;

#[derive(Clone, Debug, PartialEq, Eq)]
pub struct FinderCase {
    pub seed: u64,
    pub number: u64,
    /// 26 numbers, unless their count is what is wrong.
    pub settings: Vec<u64>,
    pub channel: u32,
    pub window: Vec<u16>,
    /// What is lent for the answer, filled with a pattern.
    pub out: Vec<u32>,
}

impl FinderCase {
    pub fn new(seed: u64, number: u64) -> FinderCase {
        let rng = &mut Rng::of_case(1, seed, number);
        let good = good_settings(rng);
        let mut channel = rng.below(16) as u32;
        let mut samples = window(rng, good.nw as usize, good.thresholds[channel as usize]);
        let mut settings = good.encode().to_vec();
        let mut lent = rng.pick(&[FOUND, FOUND, FOUND + 1, 40]);
        // Often nothing is wrong; else several things may be, to try the order.
        if rng.once_in(4) {
            if rng.once_in(3) {
                spoil_settings(rng, &mut settings);
            }
            if rng.once_in(4) {
                channel = rng.pick(&[16, 17, 255, 1 << 16, 1 << 31, u32::MAX]);
            }
            if rng.once_in(4) && !samples.is_empty() {
                let place = rng.place(samples.len());
                samples[place] = bad_sample(rng);
            }
            if rng.once_in(4) {
                let nw = samples.len();
                let length = rng.pick(&[0, nw - 1, nw + 1, 2 * nw, 16 * nw]);
                samples.resize(length, 120);
            }
            if rng.once_in(4) {
                lent = rng.pick(&[0, 1, FOUND - 1]);
            }
        }
        let pattern = rng.next() as u32;
        FinderCase { seed, number, settings, channel, window: samples, out: vec![pattern; lent] }
    }
}

impl fmt::Display for FinderCase {
    fn fmt(&self, f: &mut fmt::Formatter) -> fmt::Result {
        let (seed, number, channel) = (self.seed, self.number, self.channel);
        let (length, lent) = (self.window.len(), self.out.len());
        write!(f, "finder seed {seed} case {number}: ")?;
        write!(f, "settings {:?} channel {channel} window {length} out {lent}", self.settings)
    }
}
