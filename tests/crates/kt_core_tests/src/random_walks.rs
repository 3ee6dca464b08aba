//! 40 random walks. `bench/walk` makes as many as are wanted.

use kt_walk::tally::Tally;
use kt_walk::walking::walk;

/// How many scenes there are.
const SCENES: u64 = 40;

/// What they come to at least.
const LEAST: Tally = Tally {
    scenes: SCENES,
    tried: 18_000,
    made: [100, 12, 500, 8, 75, 30, 40, 5, 36, 23, 23],
    refusals: [0, 160, 6_000, 10_000, 250, 750, 60],
    notes: [100, 12, 87, 75, 2, 73, 8, 31],
    checks: [23, 4],
    rollbacks: [10, 6],
    overlapping: 18,
    compared: 900,
    steady: 300,
    steady_with_lost: 87,
    survivors: 50,
    lost: 28,
};

#[test]
fn hold_after_every_step(rt: HostRuntime) {
    let mut tally = Tally::NONE;
    for scene in 0..SCENES {
        let walked = walk(rt.alloc(), 20_261_123, scene, &mut tally);
        assert!(rt; walked.is_ok(), "{walked:?} in scene {scene}");
    }
    assert!(rt; tally.is_at_least(&LEAST), "{tally:?}");
}
