//! Random numbers (splitmix64) and choices; a seed repeats a run.

use std::ops::RangeInclusive;
use std::time::{SystemTime, UNIX_EPOCH};

pub struct Random(u64);

impl Random {
    pub fn new(seed: u64) -> Random {
        Random(seed)
    }

    pub fn number(&mut self) -> u64 {
        self.0 = self.0.wrapping_add(0x9e37_79b9_7f4a_7c15);
        let mut z = self.0;
        z = (z ^ (z >> 30)).wrapping_mul(0xbf58_476d_1ce4_e5b9);
        z = (z ^ (z >> 27)).wrapping_mul(0x94d0_49bb_1331_11eb);
        z ^ (z >> 31)
    }

    pub fn below(&mut self, end: usize) -> usize {
        (self.number() % end as u64) as usize
    }

    /// A number of the range.
    pub fn within<N: TryInto<u64> + TryFrom<u64>>(&mut self, range: RangeInclusive<N>) -> N {
        let (low, high) = range.into_inner();
        let [low, high] = [low, high].map(|end| end.try_into().ok().expect("a range from 0 or more"));
        N::try_from(low + self.number() % (high - low + 1)).ok().expect("a number up to the range's end")
    }

    /// True so many times in a hundred.
    pub fn chance(&mut self, percent: usize) -> bool {
        self.below(100) < percent
    }

    /// True once in `n` times.
    pub fn one_in(&mut self, n: usize) -> bool {
        self.below(n) == 0
    }

    pub fn pick<T: Copy>(&mut self, choices: &[T]) -> T {
        choices[self.below(choices.len())]
    }

    pub fn bytes(&mut self, length: usize) -> Vec<u8> {
        let mut bytes = vec![0; length];
        for part in bytes.chunks_mut(8) {
            part.copy_from_slice(&self.number().to_le_bytes()[..part.len()]);
        }
        bytes
    }

    pub fn printable(&mut self, length: usize) -> Vec<u8> {
        (0..length).map(|_| self.within(32..=126)).collect()
    }
}

/// A seed from the clock.
pub fn clock_seed() -> u64 {
    let now = SystemTime::now().duration_since(UNIX_EPOCH).expect("the clock stands after 1970");
    now.as_nanos() as u64
}
