//! Numbers that look random and are the same in each run. The tests of several crates draw by them.
#![tactic(auto)]

/// Numbers by a linear congruential generator (Knuth, "The Art of Computer Programming", volume 2).
#[derive(Drop)]
pub struct Draws(pub u64);

impl Draws {
    /// The next number below `count`.
    pub fn below(&mut self, count: u64) -> u64 {
        self.0 = self
            .0
            .wrapping_mul(6_364_136_223_846_793_005)
            .wrapping_add(1_442_695_040_888_963_407);
        (self.0 >> 33) % count
    }

    /// The next byte from `low` to `high`.
    pub fn byte(&mut self, low: u8, high: u8) -> u8 {
        low + self.below(u64::from(high - low) + 1) as u8
    }
}
