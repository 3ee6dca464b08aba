//! Failures at each moment of worked scenarios, and at each two moments of the shortest. `bench/walk struck` has more.

use kt_settling::striking::{struck_after, struck_twice_after};
use kt_walk::tally::Tally;
use kt_walk::worked::{
    BOTH_FAIL, CASCADE, CHECKPOINT_OF_TWO, OVERLAPPING_INSTANCES, Scenario, THREE_OVER_TWO,
};
use std::alloc::Global;
use std::process::Abort;

/// What the strikes of a test come to at least: how many runs, and how many worlds were compared and how many of these
/// were steady.
#[derive(Clone, Copy)]
struct Least {
    runs: u64,
    compared: u64,
    steady: u64,
}

fn is_at_least(rt: &impl Abort, tally: &Tally, least: &Least) {
    assert!(rt;
        tally.scenes >= least.runs
            && tally.compared >= least.compared
            && tally.steady >= least.steady,
        "{tally:?}"
    );
}

/// Each strike after so many steps of the scenario, and at each of this stride from there on.
fn strike(
    rt: &impl Abort,
    alloc: Global,
    scenario: &Scenario,
    (first, stride): (usize, usize),
    least: &Least,
) {
    let mut tally = Tally::NONE;
    for count in first..=scenario.steps.len() {
        if (count - first) % stride == 0 {
            let found = struck_after(alloc, scenario, count, &mut tally);
            assert!(rt; found.is_ok(), "{found:?} after {count} steps");
        }
    }
    is_at_least(rt, &tally, least);
}

#[test]
fn checkpoint_of_two(rt: HostRuntime) {
    let least = Least {
        runs: 56,
        compared: 765,
        steady: 250,
    };
    strike(&rt, rt.alloc(), &CHECKPOINT_OF_TWO, (0, 1), &least);
}

#[test]
fn both_fail(rt: HostRuntime) {
    let least = Least {
        runs: 61,
        compared: 963,
        steady: 356,
    };
    strike(&rt, rt.alloc(), &BOTH_FAIL, (0, 1), &least);
}

#[test]
fn overlapping_instances(rt: HostRuntime) {
    let least = Least {
        runs: 60,
        compared: 900,
        steady: 200,
    };
    strike(&rt, rt.alloc(), &OVERLAPPING_INSTANCES, (0, 2), &least);
}

#[test]
fn cascade(rt: HostRuntime) {
    let least = Least {
        runs: 22,
        compared: 700,
        steady: 100,
    };
    strike(&rt, rt.alloc(), &CASCADE, (7, 18), &least);
}

#[test]
fn three_over_two(rt: HostRuntime) {
    let least = Least {
        runs: 14,
        compared: 400,
        steady: 50,
    };
    strike(&rt, rt.alloc(), &THREE_OVER_TWO, (8, 14), &least);
}

#[test]
fn twice(rt: HostRuntime) {
    let mut tally = Tally::NONE;
    for count in [4usize, 9] {
        let found = struck_twice_after(rt.alloc(), &CHECKPOINT_OF_TWO, count, 5, &mut tally);
        assert!(rt; found.is_ok(), "{found:?} after {count} steps");
    }
    let least = Least {
        runs: 60,
        compared: 800,
        steady: 250,
    };
    is_at_least(&rt, &tally, &least);
}
