//! Worlds step by step, through the public calls of kt_core; the random walks are those of kt_walk.
#![tactic(auto)]

#[cfg(test)]
mod calls;
#[cfg(test)]
mod fault_lines;
#[cfg(test)]
mod lending;
#[cfg(test)]
mod making;
#[cfg(test)]
mod orders;
#[cfg(test)]
mod random_walks;
#[cfg(test)]
mod repeats;
#[cfg(test)]
mod resumes;
#[cfg(test)]
mod rows;
#[cfg(test)]
mod states;
#[cfg(test)]
mod texts;
#[cfg(test)]
mod worked_rows;
#[cfg(test)]
mod worlds;
