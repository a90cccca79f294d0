//! "Settings": the ranges, and the 26 numbers by which the C side passes them.

pub const CHANNELS: usize = 16;

#[derive(Clone, Debug, PartialEq, Eq)]
pub struct Settings {
    pub mode: u32,
    /// NW, samples per window.
    pub nw: u64,
    pub pl: u32,
    pub nsb: u64,
    pub nsa: u64,
    /// Pulse limit.
    pub limit: u64,
    pub slot: u32,
    /// Whether the parameters word is written.
    pub parameters: bool,
    /// Trigger-time words, 0, 1 or 2.
    pub times: u32,
    /// Filler multiple, 1, 2 or 4.
    pub multiple: u32,
    pub thresholds: [u32; CHANNELS],
}

impl Settings {
    /// How many numbers the C side passes.
    pub const NUMBERS: usize = 26;

    /// "Mode 1, 2, 3, 4, 7 or 8. NW 1 to 500. PL 0 to 2,047. NSB 0 to 511.
    /// NSA 1 to 511. Pulse limit 1 to 3. Sixteen thresholds, each 0 to 4,095.
    /// Slot 0 to 31. Parameter word yes or no. Trigger-time words 0, 1 or 2.
    /// Filler multiple 1, 2 or 4."
    pub fn in_range(&self) -> bool {
        matches!(self.mode, 1 | 2 | 3 | 4 | 7 | 8)
            && (1..=500).contains(&self.nw)
            && self.pl <= 2_047
            && self.nsb <= 511
            && (1..=511).contains(&self.nsa)
            && (1..=3).contains(&self.limit)
            && self.slot <= 31
            && self.times <= 2
            && matches!(self.multiple, 1 | 2 | 4)
            && self.thresholds.iter().all(|&t| t <= 4_095)
    }

    /// The settings that 26 numbers stand for; `None` for another count of
    /// numbers, or for a number that its field cannot hold.  Ranges are not
    /// looked at here.
    pub fn decode(numbers: &[u64]) -> Option<Settings> {
        let numbers: &[u64; Self::NUMBERS] = numbers.try_into().ok()?;
        let narrow = |place: usize| u32::try_from(numbers[place]).ok();
        let mut thresholds = [0; CHANNELS];
        for (channel, threshold) in thresholds.iter_mut().enumerate() {
            *threshold = narrow(10 + channel)?;
        }
        Some(Settings {
            mode: narrow(0)?,
            nw: numbers[1],
            pl: narrow(2)?,
            nsb: numbers[3],
            nsa: numbers[4],
            limit: numbers[5],
            slot: narrow(6)?,
            parameters: match numbers[7] {
                0 => false,
                1 => true,
                _ => return None,
            },
            times: narrow(8)?,
            multiple: narrow(9)?,
            thresholds,
        })
    }

    pub fn encode(&self) -> [u64; Self::NUMBERS] {
        let mut numbers = [0; Self::NUMBERS];
        let (plain, thresholds) = numbers.split_at_mut(10);
        plain.copy_from_slice(&[
            self.mode.into(),
            self.nw,
            self.pl.into(),
            self.nsb,
            self.nsa,
            self.limit,
            self.slot.into(),
            self.parameters.into(),
            self.times.into(),
            self.multiple.into(),
        ]);
        for (number, &threshold) in thresholds.iter_mut().zip(&self.thresholds) {
            *number = threshold.into();
        }
        numbers
    }
}
