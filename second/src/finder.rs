//! "Finding pulses": threshold crossings, data sets, sums and times.

use crate::refusal::Refusal;
use crate::settings::Settings;

/// "A sample is 0 to 8,191: bit 12 is the overflow flag."
pub const LARGEST_SAMPLE: u16 = 8_191;

/// "Its amplitude V is its low 12 bits."
pub fn amplitude(sample: u16) -> u32 {
    u32::from(sample) & 0xFFF
}

#[derive(Clone, Copy, Debug, PartialEq, Eq)]
pub struct Pulse {
    pub tc: u32,
    /// The data set, first and last sample number, both counted.
    pub first: u32,
    pub last: u32,
    /// Sum of V over the set, before the cap at 524,287.
    pub sum: u32,
    pub coarse: u32,
    pub fine: u32,
    /// As measured: only the written word is cut to 511.
    pub vmin: u32,
    pub vpeak: u32,
    /// The rule that gave the time: 1, 2, 3, or 4 when interpolated.
    pub rule: u32,
}

/// The finder by itself: "refusals 1, 4, 5, 3 in that order, and then no
/// pulses. It answers sets, sums and high-resolution times alike in every
/// mode."
pub fn find(settings: &Settings, channel: u32, window: &[u16]) -> Result<Vec<Pulse>, Refusal> {
    if !settings.in_range() {
        return Err(Refusal::Setting);
    }
    let threshold = usize::try_from(channel).ok().and_then(|c| settings.thresholds.get(c));
    let &threshold = threshold.ok_or(Refusal::Channel)?;
    if window.len() as u64 != settings.nw {
        return Err(Refusal::WindowLength);
    }
    if holds_bad_sample(window) {
        return Err(Refusal::Sample);
    }
    Ok(pulses(settings, threshold, window))
}

pub fn holds_bad_sample(samples: &[u16]) -> bool {
    samples.iter().any(|&sample| sample > LARGEST_SAMPLE)
}

/// "'Over' means V greater than the threshold."
pub fn over(threshold: u32, sample: u16) -> bool {
    amplitude(sample) > threshold
}

pub fn any_over(threshold: u32, samples: &[u16]) -> bool {
    samples.iter().any(|&sample| over(threshold, sample))
}

/// The pulses of a window under settings that are in range.
pub(crate) fn pulses(settings: &Settings, threshold: u32, samples: &[u16]) -> Vec<Pulse> {
    let window = Window { samples, threshold };
    let crossings = crossings(&window, settings.nsa as usize, settings.limit as usize);
    crossings.into_iter().map(|tc| pulse(&window, settings, tc)).collect()
}

/// A window whose samples are numbered from 1, as the paper does.
struct Window<'a> {
    samples: &'a [u16],
    threshold: u32,
}

impl Window<'_> {
    fn nw(&self) -> usize {
        self.samples.len()
    }

    /// V(k).  No rule asks for a number outside 1..=NW; such a one would be 0.
    fn v(&self, k: usize) -> u32 {
        k.checked_sub(1).and_then(|place| self.samples.get(place)).map_or(0, |&s| amplitude(s))
    }

    fn over(&self, k: usize) -> bool {
        self.v(k) > self.threshold
    }
}

fn crossings(window: &Window, nsa: usize, limit: usize) -> Vec<usize> {
    let nw = window.nw();
    let mut found = Vec::new();
    // "First pulse: TC is the least number that is over."
    let mut next = (1..=nw).find(|&k| window.over(k));
    while let Some(tc) = next {
        found.push(tc);
        if found.len() >= limit {
            break;
        }
        // "with s = TC + NSA, the next TC is the least k, s < k <= NW, that is
        // over and whose neighbour k-1 is not over": s itself never starts one.
        let s = tc + nsa;
        next = (s + 1..=nw).find(|&k| window.over(k) && !window.over(k - 1));
    }
    found
}

fn pulse(window: &Window, settings: &Settings, tc: usize) -> Pulse {
    // "Data set: max(TC - NSB, 1) to min(TC + NSA - 1, NW)."
    let first = tc.saturating_sub(settings.nsb as usize).max(1);
    let last = (tc + settings.nsa as usize - 1).min(window.nw());
    let time = high_resolution(window, tc);
    Pulse {
        tc: tc as u32,
        first: first as u32,
        last: last as u32,
        sum: (first..=last).map(|k| window.v(k)).sum(),
        coarse: time.coarse as u32,
        fine: time.fine,
        vmin: time.vmin,
        vpeak: time.vpeak,
        rule: time.rule,
    }
}

struct Time {
    coarse: usize,
    fine: u32,
    vmin: u32,
    vpeak: u32,
    rule: u32,
}

/// "High-resolution time, checked in this order."
fn high_resolution(window: &Window, tc: usize) -> Time {
    let nw = window.nw();
    let only_tc = |rule, vmin| Time { coarse: tc, fine: 0, vmin, vpeak: 0, rule };

    // 1. "NW < 4, or one of the first four samples is over."
    if nw < 4 || (1..=4).any(|k| window.over(k)) {
        return only_tc(1, 0);
    }
    // 2. "VMIN = floor(sum of the first four V / 4). If NW - TC < 5: time TC."
    let vmin = (1..=4).map(|k| window.v(k)).sum::<u32>() / 4;
    if nw - tc < 5 {
        return only_tc(2, vmin);
    }
    // 3. "Let k be the least number, TC < k <= NW, with V(k) < V(k-1). None: as
    // in 2. Else P = k-1, VPEAK = V(P)."  The search is not held to the data
    // set, and VPEAK is not the greatest sample of it.
    let Some(k) = (tc + 1..=nw).find(|&k| window.v(k) < window.v(k - 1)) else {
        return only_tc(3, vmin);
    };
    let p = k - 1;
    let vpeak = window.v(p);
    // 4. "VMID = floor((VPEAK + VMIN) / 2)", with the VMIN that was measured.
    let vmid = (vpeak + vmin) / 2;
    // "N1 is the greatest number below P with V(N1) <= VMID": looked for from
    // the peak down, so a second pulse does not get the first one's edge.
    // There always is one: one of the first four samples is at most VMIN.
    let Some(n1) = (1..p).rev().find(|&n| window.v(n) <= vmid) else {
        return only_tc(3, vmin);
    };
    // V(N1+1) > VMID >= V(N1), so nothing is divided by zero.
    let fine = 64 * (vmid - window.v(n1)) / (window.v(n1 + 1) - window.v(n1));
    Time { coarse: n1, fine, vmin, vpeak, rule: 4 }
}
