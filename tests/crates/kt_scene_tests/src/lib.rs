//! Tests of kt_scene's public calls.
#![tactic(auto)]

#[cfg(test)]
mod asked;
#[cfg(test)]
mod courses;
#[cfg(test)]
mod endless;
#[cfg(test)]
mod failing_stores;
#[cfg(test)]
mod fault_scenes;
#[cfg(test)]
mod journals;
#[cfg(test)]
mod mutants;
#[cfg(test)]
mod replays;
#[cfg(test)]
mod resumes;
#[cfg(test)]
mod rollbacks;
#[cfg(test)]
mod scenes;
#[cfg(test)]
mod settling;
#[cfg(test)]
mod streams;
#[cfg(test)]
mod tables;
#[cfg(test)]
mod texts;
