//! Random numbers from a seed.

use njunnemar::{Rng, SplitMix};

pub struct Chance(SplitMix);

impl Chance {
    pub fn new(seed: u64) -> Self {
        Chance(SplitMix::new(seed))
    }

    pub fn word(&mut self) -> u64 {
        self.0.next_word()
    }

    /// A number below `n`; 0 where `n` is 0.
    pub fn below(&mut self, n: usize) -> usize {
        (self.word() % n.max(1) as u64) as usize
    }

    pub fn percent(&mut self, p: usize) -> bool {
        self.below(100) < p
    }

    pub fn pick<'a, T>(&mut self, list: &'a [T]) -> &'a T {
        &list[self.below(list.len())]
    }
}
