//! A node by itself, through the public calls of kt_node: what it makes of each step and of each message, worked out
//! by hand from the tables of steps and of arrivals.
#![tactic(auto)]

#[cfg(test)]
mod abandoning;
#[cfg(test)]
mod acts;
#[cfg(test)]
mod asks_to_check;
#[cfg(test)]
mod asks_to_roll_back;
#[cfg(test)]
mod cases;
#[cfg(test)]
mod damaged;
#[cfg(test)]
mod deciding;
#[cfg(test)]
mod failing;
#[cfg(test)]
mod kept;
#[cfg(test)]
mod learning;
#[cfg(test)]
mod line;
#[cfg(test)]
mod loading;
#[cfg(test)]
mod making;
#[cfg(test)]
mod modes;
#[cfg(test)]
mod named;
#[cfg(test)]
mod planning;
#[cfg(test)]
mod restarting;
#[cfg(test)]
mod sieving;
#[cfg(test)]
mod solo;
#[cfg(test)]
mod telling;
#[cfg(test)]
mod verdicts;
#[cfg(test)]
mod votes;
#[cfg(test)]
mod words;
