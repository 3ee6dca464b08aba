//! The store in SQL beside a plain map, over tables that are there, and beneath a world.
#![tactic(auto)]

#[cfg(test)]
mod adopted;
#[cfg(test)]
mod beside;
#[cfg(test)]
mod cells;
#[cfg(test)]
mod damaged;
#[cfg(test)]
mod migrations;
#[cfg(test)]
mod resumed_stops;
#[cfg(test)]
mod spoiled;
#[cfg(test)]
mod spoiled_walks;
#[cfg(test)]
mod stops;
#[cfg(test)]
mod walks;
