//! A generator of numbers that is ours, so that what is drawn is the same on every machine.
// A program that draws need not draw in every way.
#![allow(dead_code)]

/// A linear congruential generator modulo 2^64 with Knuth's constants for MMIX.
#[derive(Clone, Debug)]
pub struct Lcg(u64);

impl Lcg {
    pub const fn new(seed: u64) -> Self {
        Lcg(seed)
    }

    /// The next state, whose upper bits are the ones to take.
    pub const fn state(&mut self) -> u64 {
        const MULTIPLIER: u64 = 6_364_136_223_846_793_005;
        const INCREMENT: u64 = 1_442_695_040_888_963_407;
        self.0 = self.0.wrapping_mul(MULTIPLIER).wrapping_add(INCREMENT);
        self.0
    }

    /// The next number below `bound`, which is not 0.
    pub const fn below(&mut self, bound: usize) -> usize {
        (self.state() >> 32) as usize % bound
    }

    /// Yes in `percent` of a hundred draws.
    pub fn chance(&mut self, percent: usize) -> bool {
        self.below(100) < percent
    }

    pub fn pick<'c, T: ?Sized>(&mut self, choices: &[&'c T]) -> &'c T {
        choices[self.below(choices.len())]
    }
}
