//! The public calls of kt_worker, step by step.
#![tactic(auto)]

#[cfg(test)]
mod making;
#[cfg(test)]
mod parts;
#[cfg(test)]
mod requests;
