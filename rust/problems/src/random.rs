//! Random numbers from a seed.

use std::time::{SystemTime, UNIX_EPOCH};

/// The seed in the environment variable SEED, else the one given.
pub fn seed_or(other: u64) -> u64 {
    match std::env::var("SEED") {
        Ok(text) if !text.is_empty() => text.parse().expect("SEED is a whole number"),
        _ => other,
    }
}

/// The seed in the environment variable SEED, else one from the clock.
pub fn seed() -> u64 {
    let since = SystemTime::now().duration_since(UNIX_EPOCH);
    seed_or(since.map_or(1, |time| time.as_nanos() as u64 % 1_000_000_000_000))
}

/// A source of random numbers: splitmix64.
#[derive(Debug, Clone)]
pub struct Random(u64);

impl Random {
    /// The source with this seed.
    pub fn new(seed: u64) -> Random {
        Random(seed)
    }

    /// The source for one problem of a run, so that each can be made alone.
    pub fn of_problem(seed: u64, problem: u64) -> Random {
        let mut mixed = Random(seed);
        Random(mixed.bits() ^ problem.wrapping_mul(0x9e37_79b9_7f4a_7c15))
    }

    /// Any 64 bits.
    pub fn bits(&mut self) -> u64 {
        self.0 = self.0.wrapping_add(0x9e37_79b9_7f4a_7c15);
        let mut bits = self.0;
        bits = (bits ^ (bits >> 30)).wrapping_mul(0xbf58_476d_1ce4_e5b9);
        bits = (bits ^ (bits >> 27)).wrapping_mul(0x94d0_49bb_1331_11eb);
        bits ^ (bits >> 31)
    }

    /// A number from 0 to `count` - 1; `count` is above 0.
    pub fn below(&mut self, count: usize) -> usize {
        ((u128::from(self.bits()) * count as u128) >> 64) as usize
    }

    /// A number from `low` to `high`, both included.
    pub fn within(&mut self, low: i32, high: i32) -> i32 {
        let count = (i64::from(high) - i64::from(low) + 1) as usize;
        (i64::from(low) + self.below(count) as i64) as i32
    }

    /// A size from `low` to `high`, both included.
    pub fn size(&mut self, low: usize, high: usize) -> usize {
        low + self.below(high - low + 1)
    }

    /// True so many times of 100.
    pub fn percent(&mut self, share: usize) -> bool {
        self.below(100) < share
    }

    /// One of the choices.
    pub fn pick<T: Copy>(&mut self, choices: &[T]) -> T {
        choices[self.below(choices.len())]
    }

    /// The list in another order.
    pub fn shuffle<T>(&mut self, list: &mut [T]) {
        for last in (1..list.len()).rev() {
            list.swap(last, self.below(last + 1));
        }
    }
}

#[cfg(test)]
mod tests {
    use super::*;

    #[test]
    fn numbers_stay_within_and_reach_both_ends() {
        let mut random = Random::new(7);
        let drawn: Vec<i32> = (0..1_000).map(|_| random.within(-3, 3)).collect();
        assert_eq!(drawn.iter().min(), Some(&-3));
        assert_eq!(drawn.iter().max(), Some(&3));
        let wide: Vec<i32> = (0..64).map(|_| random.within(i32::MIN, i32::MAX)).collect();
        assert!(wide.iter().any(|&n| n < -(1 << 29)) && wide.iter().any(|&n| n > 1 << 29));
    }

    #[test]
    fn a_seed_gives_the_same_numbers_again() {
        let draw = |seed| {
            let mut random = Random::of_problem(seed, 5);
            [random.bits(), random.bits()]
        };
        assert_eq!(draw(9), draw(9));
        assert_ne!(draw(9), draw(10));
        assert_ne!(draw(9)[0], Random::of_problem(9, 6).bits());
    }
}
