//! Numbers that look random and are the same on every machine (SplitMix64).

use std::time::{SystemTime, UNIX_EPOCH};

pub struct Random(u64);

/// A seed that differs from run to run.
pub fn any_seed() -> u64 {
    SystemTime::now().duration_since(UNIX_EPOCH).map_or(0, |since| since.as_nanos() as u64)
}

impl Random {
    pub fn new(seed: u64) -> Self {
        Random(seed)
    }

    pub fn next(&mut self) -> u64 {
        self.0 = self.0.wrapping_add(0x9E37_79B9_7F4A_7C15);
        let mut z = self.0;
        z = (z ^ (z >> 30)).wrapping_mul(0xBF58_476D_1CE4_E5B9);
        z = (z ^ (z >> 27)).wrapping_mul(0x94D0_49BB_1331_11EB);
        z ^ (z >> 31)
    }

    /// A number from `low` to `high`, both among them.
    pub fn within(&mut self, low: i64, high: i64) -> i64 {
        let span = (high - low) as u64 + 1;
        low + (self.next() % span) as i64
    }

    /// Whether something that happens once in `n` times happens.
    pub fn once_in(&mut self, n: u64) -> bool {
        self.next() % n == 0
    }

    pub fn one_of<T: Copy>(&mut self, these: &[T]) -> T {
        these[self.within(0, these.len() as i64 - 1) as usize]
    }
}
