//! Tests of kt_reasons' public calls.
#![tactic(auto)]

#[cfg(test)]
mod recovery;
#[cfg(test)]
mod rows;
#[cfg(test)]
mod steps;
