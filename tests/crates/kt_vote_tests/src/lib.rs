//! The public calls of kt_vote on their happy paths, and votes worked out by hand.
#![tactic(auto)]

#[cfg(test)]
mod ballots;
