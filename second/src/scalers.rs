//! "Scaler words", ticket 1 of document 02: the counts, and their 38 numbers in a
//! state.

use crate::finder::over;
use crate::settings::CHANNELS;
use crate::words;

/// How many counts there are: of channels 0 to 15, the timer, the triggers.
pub const SCALERS: usize = 18;
const TIMER: usize = 16;
const TRIGGERS: usize = 17;

/// "A timer counts whole groups of 512 frames."
const GROUP: u32 = 512;

/// "which are zero before any latch": set up makes all of it zero.
#[derive(Clone, Debug, Default, PartialEq, Eq)]
pub struct Scalers {
    /// The running counts: channels 0 to 15, timer, triggers.
    pub running: [u32; SCALERS],
    /// Frames of the group that is not whole yet.
    pub part: u32,
    /// Bit c: channel c was over in the frame before.
    pub over: u16,
    /// The counts as they were when they were last latched.
    pub latched: [u32; SCALERS],
}

impl Scalers {
    /// How many numbers the C side passes.
    pub const NUMBERS: usize = 2 * SCALERS + 2;

    /// "its part group is under 512"
    pub fn in_range(&self) -> bool {
        self.part < GROUP
    }

    /// "Feed frames of sixteen samples": whole ones, each with channel 0 first.
    pub fn count(&mut self, thresholds: &[u32; CHANNELS], frames: &[u16]) {
        for frame in frames.chunks_exact(CHANNELS) {
            self.count_channels(thresholds, frame);
            self.count_frame();
        }
    }

    /// "each channel counts the frames where it is over and was not in the frame
    /// before, the first frame counting as if all had been under"
    fn count_channels(&mut self, thresholds: &[u32; CHANNELS], frame: &[u16]) {
        let before = self.over;
        self.over = 0;
        for (channel, (&threshold, &sample)) in thresholds.iter().zip(frame).enumerate() {
            if over(threshold, sample) {
                self.over |= 1 << channel;
                if before >> channel & 1 == 0 {
                    self.add_one(channel);
                }
            }
        }
    }

    fn count_frame(&mut self) {
        self.part += 1;
        if self.part == GROUP {
            self.part = 0;
            self.add_one(TIMER);
        }
    }

    /// "a trigger counter counts opened events"
    pub fn trigger(&mut self) {
        self.add_one(TRIGGERS);
    }

    /// "All wrap at 2^32, as asked."
    fn add_one(&mut self, count: usize) {
        self.running[count] = self.running[count].wrapping_add(1);
    }

    /// "Latch copies eighteen counts at once."
    pub fn latch(&mut self) {
        self.latched = self.running;
    }

    /// "reset zeroes the running counts and the timer's part group, not the latched
    /// ones": nor which channels were over.
    pub fn reset(&mut self) {
        self.running = [0; SCALERS];
        self.part = 0;
    }

    /// "a closed event ends with type 12 (bits 26-6 zero, 5-0 = 18) and the latched
    /// words: channels 0 to 15, timer, triggers. They carry no tag."
    pub fn words(&self) -> Vec<u32> {
        let mut new = vec![words::scalers(SCALERS as u32)];
        new.extend(self.latched);
        new
    }

    /// The counts that 38 numbers stand for; `None` for another count of numbers,
    /// or for a number that its field cannot hold.
    pub fn decode(numbers: &[u64]) -> Option<Scalers> {
        let numbers: &[u64; Self::NUMBERS] = numbers.try_into().ok()?;
        let counts = |from: usize| {
            let mut counts = [0; SCALERS];
            for (count, &number) in counts.iter_mut().zip(&numbers[from..]) {
                *count = u32::try_from(number).ok()?;
            }
            Some(counts)
        };
        Some(Scalers {
            running: counts(0)?,
            part: u32::try_from(numbers[SCALERS]).ok()?,
            over: u16::try_from(numbers[SCALERS + 1]).ok()?,
            latched: counts(SCALERS + 2)?,
        })
    }

    pub fn encode(&self) -> [u64; Self::NUMBERS] {
        let mut numbers = [0; Self::NUMBERS];
        let (running, rest) = numbers.split_at_mut(SCALERS);
        let (others, latched) = rest.split_at_mut(2);
        running.copy_from_slice(&self.running.map(u64::from));
        others.copy_from_slice(&[self.part.into(), self.over.into()]);
        latched.copy_from_slice(&self.latched.map(u64::from));
        numbers
    }
}
