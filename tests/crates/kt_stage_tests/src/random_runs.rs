//! Runs of random scenes with random fault lines. Each is told by its seed.

use crate::runs::{Outcome, run_and_replay};
use kt_core::{Fault, FaultKind, Faults, Step};
use kt_walk::draws::Draws;
use kt_walk::scenes::{size_up_to, scene_up_to};
use std::alloc::Global;
use std::test::Fail;

const SCENES: u64 = 300;

/// How many workers, and how many shards, a scene has at most.
const MOST: u8 = 4;

/// How many fault lines a scene has at most.
const LINES: u64 = 6;

/// Random fault lines of the nodes of the scene of this seed.
fn random_faults(alloc: Global, seed: u64) -> Result<Faults, Fail> {
    let scene_row = size_up_to(MOST, seed);
    let mut draws = Draws::of(seed ^ 0x2545_f491);
    let mut faults = Faults::new(alloc);
    for _ in 0..draws.below(LINES + 1) {
        let place = draws.number_to(scene_row.count()) - 1;
        let kind = if draws.below(2) == 0 {
            FaultKind::Fail
        } else {
            FaultKind::Check
        };
        faults.push(Fault {
            kind,
            node: scene_row.node(place),
            after: draws.below(30),
        })?;
    }
    Ok(faults)
}

/// How many steps were made, and how many of some kinds.
#[derive(Clone, Copy, Debug)]
struct Made {
    steps: usize,
    failures: usize,
    checks: usize,
    restarts: usize,
}

/// What all runs come to at least, however the threads run.
const LEAST: Made = Made {
    steps: 50_000,
    failures: 250,
    checks: 250,
    restarts: 250,
};

impl Made {
    const NONE: Made = Made {
        steps: 0,
        failures: 0,
        checks: 0,
        restarts: 0,
    };

    fn count(&mut self, steps: &[Step]) {
        self.steps += steps.len();
        for step in steps {
            match step {
                Step::Fail { .. } => self.failures += 1,
                Step::Check { .. } => self.checks += 1,
                Step::Restart { .. } => self.restarts += 1,
                _ => {}
            }
        }
    }

    fn is_at_least(&self, least: &Made) -> bool {
        self.steps >= least.steps
            && self.failures >= least.failures
            && self.checks >= least.checks
            && self.restarts >= least.restarts
    }
}

#[test]
fn random_scenes(rt: HostRuntime) -> Result<(), Fail> {
    let alloc = rt.alloc();
    let mut made = Made::NONE;
    for seed in 1..=SCENES {
        let scene = scene_up_to(alloc, MOST, seed)?;
        let faults = random_faults(alloc, seed)?;
        let Outcome { steps, .. } = run_and_replay(&rt, alloc, scene, faults)?;
        made.count(&steps);
    }
    assert!(rt; made.is_at_least(&LEAST), "{made:?}");
    Ok(())
}
