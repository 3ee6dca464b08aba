//! The policy, stages, runs by threads and worlds that settle, through the public calls of kt_stage.
#![tactic(auto)]

#[cfg(test)]
mod against;
#[cfg(test)]
mod failing_stores;
#[cfg(test)]
mod gates;
#[cfg(test)]
mod glances;
#[cfg(test)]
mod making;
#[cfg(test)]
mod policy;
#[cfg(test)]
mod random_runs;
#[cfg(test)]
mod runs;
#[cfg(test)]
mod seats;
#[cfg(test)]
mod struck;
