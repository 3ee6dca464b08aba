//! The public calls of kt_history on two histories and a run worked out by hand.
#![tactic(auto)]

#[cfg(test)]
mod histories;
#[cfg(test)]
mod spaces;
