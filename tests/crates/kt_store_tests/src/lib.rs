//! A store beside a plain map. That in memory is tried here, and that in SQL by kt_sql_tests.
#![tactic(auto)]

pub mod beside;
mod calls;
#[cfg(test)]
mod faults;
#[cfg(test)]
mod memory;
mod plain;
#[cfg(test)]
mod scripted;
