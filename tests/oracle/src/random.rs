//! Repeatable random numbers (SplitMix64).

pub struct Random(pub u64);

impl Random {
    /// The next 64 bits.
    pub fn next(&mut self) -> u64 {
        self.0 = self.0.wrapping_add(0x9E37_79B9_7F4A_7C15);
        let mut z = self.0;
        z = (z ^ (z >> 30)).wrapping_mul(0xBF58_476D_1CE4_E5B9);
        z = (z ^ (z >> 27)).wrapping_mul(0x94D0_49BB_1331_11EB);
        z ^ (z >> 31)
    }

    /// A number below `limit`.
    pub fn below(&mut self, limit: u32) -> u32 {
        (self.next() % u64::from(limit)) as u32
    }

    /// A number from `low` to `high`, one of the two ends a quarter of the time.
    pub fn within(&mut self, low: i64, high: i64) -> i64 {
        match self.below(8) {
            0 => low,
            1 => high,
            _ => low + (self.next() % (high - low + 1) as u64) as i64,
        }
    }

    /// One of the listed values a quarter of the time, otherwise a number below `limit`.
    pub fn mostly_below(&mut self, limit: u32, extremes: &[u32]) -> u32 {
        match self.below(4) {
            0 => extremes[self.below(extremes.len() as u32) as usize],
            _ => self.below(limit),
        }
    }
}
