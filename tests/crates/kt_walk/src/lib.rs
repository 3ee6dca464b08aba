//! Random walks through scenes, and slow computations from notes, nodes and store of what must hold after each step.
//! They have no contract: the tests of kt_core_tests and kt_stage_tests and the program of `bench/walk` stand on them.
#![tactic(auto)]

pub mod asking;
pub mod scene_size;
pub mod copies;
pub mod cuts;
pub mod draws;
pub mod finding;
pub mod following;
pub mod fronts;
mod kinds;
pub mod lines;
pub mod numbers;
pub mod runs;
pub mod scenes;
pub mod scripts;
mod shapes;
pub mod slowly;
pub mod tally;
mod variables;
pub mod walking;
pub mod watching;
pub mod worked;
