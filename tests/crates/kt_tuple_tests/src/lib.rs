//! The public calls of kt_tuple on their happy paths, at their limits, and beside examples worked out by hand.
#![tactic(auto)]

#[cfg(test)]
mod texts;
#[cfg(test)]
mod values;
