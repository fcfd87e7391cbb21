//! Random numbers from a seed, in the types that recipes want.

use scene::Random;

pub struct Chance(Random);

impl Chance {
    pub fn new(seed: u64) -> Self {
        Self(Random::new(seed, ""))
    }

    pub fn word(&mut self) -> u64 {
        self.0.next()
    }

    /// A number below `end`, which is above 0.
    pub fn below(&mut self, end: usize) -> usize {
        self.0.below(end as u64) as usize
    }

    /// From `first` to `last`, both included.
    pub fn between(&mut self, first: i32, last: i32) -> i32 {
        self.0.from_to(first.into(), last.into()) as i32
    }

    /// True once in `times`.
    pub fn once_in(&mut self, times: usize) -> bool {
        self.0.once_in(times as u64)
    }

    pub fn pick<T: Copy>(&mut self, of: &[T]) -> T {
        self.0.one_of(of)
    }

    /// From 0 up to, not including, 1.
    pub fn part(&mut self) -> f64 {
        self.0.part()
    }
}
