//! The bytes of checkpoints worked out by hand from the format, and of 500 drawn at random, both ways; and the acts of
//! logs, as checkpoints hold them.
#![tactic(auto)]

#[cfg(test)]
mod bytes;
#[cfg(test)]
mod drawn;
#[cfg(test)]
mod old;
#[cfg(test)]
mod pasts;
#[cfg(test)]
mod random;
#[cfg(test)]
mod seen;
pub mod stored;
