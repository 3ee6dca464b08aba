//! Numbers that look random and are the same in each run.

ghost use Rattle.std.specs.Prelude.{◌<◌};

/// Numbers by a linear congruential generator (Knuth, "The Art of Computer Programming", volume 2).
#[derive(Drop)]
pub struct Draws(u64);

impl Draws {
    /// Those of this seed. Seeds that are close have others.
    pub fn of(seed: u64) -> Draws {
        let mut draws = Draws(seed);
        draws.go_on();
        draws.0 ^= draws.0 >> 29;
        draws.go_on();
        draws
    }

    fn go_on(&mut self) {
        self.0 = self
            .0
            .wrapping_mul(6_364_136_223_846_793_005)
            .wrapping_add(1_442_695_040_888_963_407);
    }

    /// The next number below `count`.
    pub fn below(&mut self, count: u64) -> u64
        requires { 0 < count }
        ensures { result < count }
    {
        self.go_on();
        (self.0 >> 33) % count
    }

    /// A number from 1 to the most, which is at least 1.
    pub fn number_to(&mut self, most: u8) -> u8 {
        match u8::try_from(self.below(u64::from(most.max(1)))) {
            Ok(number) => number.saturating_add(1),
            Err(_) => 1,
        }
    }
}
