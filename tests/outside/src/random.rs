//! A small generator of random numbers (SplitMix64), so that every run sees the same jobs.

use std::fmt::Debug;

pub struct Random {
    state: u64,
}

impl Random {
    pub fn new(seed: u64) -> Random {
        Random { state: seed }
    }

    pub fn word(&mut self) -> u64 {
        self.state = self.state.wrapping_add(0x9E37_79B9_7F4A_7C15);
        let mut z = self.state;
        z = (z ^ (z >> 30)).wrapping_mul(0xBF58_476D_1CE4_E5B9);
        z = (z ^ (z >> 27)).wrapping_mul(0x94D0_49BB_1331_11EB);
        z ^ (z >> 31)
    }

    /// A number from `least` to `greatest`, both included.
    pub fn between(&mut self, least: i64, greatest: i64) -> i64 {
        assert!(least <= greatest);
        let span = (greatest as i128 - least as i128 + 1) as u128;
        (least as i128 + (u128::from(self.word()) % span) as i128) as i64
    }

    /// An index below `count`.
    pub fn below(&mut self, count: usize) -> usize {
        (self.word() % count as u64) as usize
    }

    /// True once in `count` times.
    pub fn once_in(&mut self, count: u64) -> bool {
        self.word() % count == 0
    }

    pub fn pick<T: Copy>(&mut self, from: &[T]) -> T {
        from[self.below(from.len())]
    }
}

/// What so many rounds with the random numbers of a seed have seen, printed.
pub fn seen_in_rounds<S: Default + Debug>(seed: u64, rounds: usize, mut round: impl FnMut(&mut Random, &mut S)) -> S {
    let mut random = Random::new(seed);
    let mut seen = S::default();
    for _ in 0..rounds {
        round(&mut random, &mut seen);
    }
    eprintln!("{seen:?}");
    seen
}
