//! The public calls of kt_shard, each once as it is meant.
#![tactic(auto)]

#[cfg(test)]
mod parts;
#[cfg(test)]
mod services;
