//! Tests of kt_run's public calls.
#![tactic(auto)]

#[cfg(test)]
mod failing_stores;
#[cfg(test)]
mod faults;
#[cfg(test)]
mod runs;
#[cfg(test)]
mod streams;
