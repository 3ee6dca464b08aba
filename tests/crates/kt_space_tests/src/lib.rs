//! The public calls of kt_space, on a few tuples and beside a plain list.
#![tactic(auto)]

#[cfg(test)]
mod beside;
#[cfg(test)]
mod picking;
#[cfg(test)]
mod plain;
