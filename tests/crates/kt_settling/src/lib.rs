//! Worlds that settle after failures, beside slow computations after each step. They have no contract: the tests of
//! kt_stage_tests and kt_scene_tests and the program of `bench/walk` stand on them.
#![tactic(auto)]

pub mod schedules;
pub mod settled;
pub mod striking;
