//! Schedules against progress, after which what is left settles. `bench/walk` makes as many as are wanted.

use kt_settling::schedules::{Schedule, against};
use kt_walk::tally::Tally;
use std::alloc::Global;
use std::process::Abort;

/// How many scenes there are of each schedule.
const SCENES: u64 = 17;

/// How many steps are chosen in a scene at most.
const STEPS: u64 = 40;

/// So many worlds are compared at least in all scenes.
fn go_through(rt: &impl Abort, alloc: Global, schedule: Schedule, compared: u64) {
    let mut tally = Tally::NONE;
    for scene in 0..SCENES {
        let found = against(alloc, schedule, (20_261_127, scene), STEPS, &mut tally);
        assert!(rt; found.is_ok(), "{found:?} in scene {scene}");
    }
    assert!(rt;
        tally.scenes == SCENES && tally.compared >= compared,
        "{tally:?}"
    );
    assert!(rt;
        tally.steady_with_lost > 0 && tally.survivors > 0,
        "{tally:?}"
    );
}

#[test]
fn longest_ago(rt: HostRuntime) {
    go_through(&rt, rt.alloc(), Schedule::LongestAgo, 800);
}

#[test]
fn failing(rt: HostRuntime) {
    go_through(&rt, rt.alloc(), Schedule::Failing, 800);
}

#[test]
fn newest(rt: HostRuntime) {
    go_through(&rt, rt.alloc(), Schedule::Newest, 800);
}
