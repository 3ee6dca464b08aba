//! Tests of kt_command's public calls.
#![tactic(auto)]

#[cfg(test)]
mod openers;
#[cfg(test)]
mod openings;
#[cfg(test)]
mod requests;
