//! Tests of the public calls of kt_trace and kt_tell.
#![tactic(auto)]

#[cfg(test)]
mod json;
#[cfg(test)]
mod rows;
#[cfg(test)]
mod texts;
#[cfg(test)]
mod words;
