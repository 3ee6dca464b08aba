//! Sets of numbers of notes.

/// A set of numbers below 512: the numbers of notes in a short history.
#[derive(Clone, Copy)]
pub struct Numbers([u128; 4]);

/// How many numbers a set may tell apart.
pub const MAX_NUMBERS: usize = 512;

impl Numbers {
    pub const NONE: Numbers = Numbers([0; 4]);

    /// The set with this number too. One that is too large stays out.
    pub fn with(self, number: usize) -> Numbers {
        let mut parts = self.0;
        if let Some(part) = parts.get_mut(number / 128) {
            *part |= 1 << (number % 128);
        }
        Numbers(parts)
    }

    pub fn has(self, number: usize) -> bool {
        match self.0.get(number / 128) {
            Some(part) => (*part >> (number % 128)) & 1 == 1,
            None => false,
        }
    }

    /// What is in one of the two.
    pub fn and(self, other: Numbers) -> Numbers {
        let Numbers([a, b, c, d]) = self;
        let Numbers([e, f, g, h]) = other;
        Numbers([a | e, b | f, c | g, d | h])
    }

    /// Whether all of these are there too.
    pub fn is_within(self, other: Numbers) -> bool {
        let Numbers([a, b, c, d]) = self;
        let Numbers([e, f, g, h]) = other;
        (a & !e) | (b & !f) | (c & !g) | (d & !h) == 0
    }
}
