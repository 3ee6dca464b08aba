//! Runs by threads.

use crate::making::{
    SceneRow, Line, SHARD_1, WORKER_1, faults, journal_of, make_all, opened, replayed, report, scene,
};
use kt_core::{FaultKind, Faults, OpenError, Scene, Start, Step};
use kt_stage::{Left, OpenGate, RunFault, run_threads, run_threads_returning_left, unfinished};
use kt_store::{CkptStore, MemStore};
use std::alloc::Global;
use std::process::Abort;
use std::sync::Wait;
use std::test::Fail;
use std::thread::Threads;

/// Who takes part, fault lines, and what the report begins with however the threads run.
pub(crate) type Row = (SceneRow, &'static [Line], &'static [u8]);

pub(crate) const THREADS_AND_A_FAULT: Row = (
    (
        2,
        &[&[
            "out (\"k\")",
            "out (\"k\", 7)",
            "in (\"k\", ?int x)",
            "out (\"done\", x)",
            "rd (\"k\")",
        ]],
    ),
    &[(FaultKind::Fail, SHARD_1, 3)],
    b"survivors 5\nw1.1 out (\"k\") done\nw1.2 out (\"k\", 7) done\nw1.3 in (\"k\", ?int) got (\"k\", 7)\n\
w1.4 out (\"done\", 7) done\nw1.5 rd (\"k\") got (\"k\")\nlost 4\nspace 2\n(\"done\", 7)\n(\"k\")\npermanent 0\n",
);

/// Whoever waits for a tuple that nobody puts ends with the others.
const NOTHING_TO_DO: Row = (
    (8, &[&["in (\"k\")"], &["in (\"k\")"]]),
    &[],
    b"survivors 0\nlost 0\nspace 0\npermanent 0\n",
);

/// A worker whose script is empty.
const NO_STEPS: Row = (
    (1, &[&[]]),
    &[],
    b"survivors 0\nlost 0\nspace 0\npermanent 0\n",
);

const TWO_CHECKS: Row = (
    (1, &[&["out (\"k\")", "out (\"k\")"]]),
    &[
        (FaultKind::Check, WORKER_1, 4),
        (FaultKind::Check, SHARD_1, 5),
    ],
    b"survivors 2\nw1.1 out (\"k\") done\nw1.2 out (\"k\") done\nlost 0\nspace 2\n(\"k\")\n(\"k\")\n",
);

/// What came of a run.
#[derive(Drop)]
pub(crate) struct Outcome {
    pub(crate) steps: Vec<Step>,
    pub(crate) report: Vec<u8>,
}

/// Runs the scene to its end: no node has a next step then, and a replay of the journal writes the report.
pub(crate) fn run_and_replay<R: Threads + Wait + Sync + Abort>(
    rt: &R,
    alloc: Global,
    scene: Scene,
    faults: Faults,
) -> Result<Outcome, Fail> {
    let mut left = faults.copy(alloc)?;
    let run = run_threads(rt, alloc, scene, faults, MemStore::new(alloc), &OpenGate);
    let mut journal = run.ok().ok_or("a run")?;
    assert!(rt; unfinished(alloc, &mut journal, &mut left) == Ok(None));
    let steps = Vec::from_slice(alloc, journal.steps())?;
    let mut world = journal.into_world();
    let report = report(alloc, &mut world)?;
    let journal = journal_of(alloc, &mut world, &steps)?;
    assert!(rt; report == replayed(alloc, &journal)?);
    Ok(Outcome { steps, report })
}

/// Runs the scene, and gives the steps.
fn run<R: Threads + Wait + Sync + Abort>(
    rt: &R,
    alloc: Global,
    (scene_row, lines, expected): Row,
) -> Result<Vec<Step>, Fail> {
    let faults = faults(alloc, lines)?;
    let Outcome { steps, report } = run_and_replay(rt, alloc, scene(alloc, scene_row)?, faults)?;
    assert!(rt;
        report.starts_with(expected),
        "{:?}",
        String::from_utf8(report)
    );
    Ok(steps)
}

#[test]
fn threads_and_a_fault(rt: HostRuntime) -> Result<(), Fail> {
    for _ in 0..200u32 {
        run(&rt, rt.alloc(), THREADS_AND_A_FAULT)?;
    }
    Ok(())
}

#[test]
fn waiting_threads_end(rt: HostRuntime) -> Result<(), Fail> {
    run(&rt, rt.alloc(), NOTHING_TO_DO)?;
    Ok(())
}

#[test]
fn a_run_of_no_steps(rt: HostRuntime) -> Result<(), Fail> {
    let steps = run(&rt, rt.alloc(), NO_STEPS)?;
    assert!(rt; steps.is_empty());
    Ok(())
}

#[test]
fn checks_while_it_runs(rt: HostRuntime) -> Result<(), Fail> {
    for _ in 0..20u32 {
        let steps = run(&rt, rt.alloc(), TWO_CHECKS)?;
        assert!(rt; steps.contains(&Step::Check { node: WORKER_1 }));
        assert!(rt; steps.contains(&Step::Check { node: SHARD_1 }));
    }
    Ok(())
}

#[test]
fn a_store_that_was_used(rt: HostRuntime) -> Result<(), Fail> {
    let alloc = rt.alloc();
    let (scene_row, _, _) = TWO_CHECKS;
    let mut world = opened(alloc, scene(alloc, scene_row)?)?;
    make_all(alloc, &mut world, &[Step::Check { node: WORKER_1 }])?;
    let store = world.into_store();
    let faults = Faults::new(alloc);
    let fault = run_threads(&rt, alloc, scene(alloc, scene_row)?, faults, store, &OpenGate).err();
    assert!(rt; fault == Some(RunFault::Open(OpenError::NotFresh)));
    Ok(())
}

/// A world that is not opened leaves the store alone, which is given back.
#[test]
fn the_store_is_given_back(rt: HostRuntime) -> Result<(), Fail> {
    let alloc = rt.alloc();
    let (scene_row, _, _) = TWO_CHECKS;
    let mut world = opened(alloc, scene(alloc, scene_row)?)?;
    make_all(alloc, &mut world, &[Step::Check { node: WORKER_1 }])?;
    let (scene, faults) = (scene(alloc, scene_row)?, Faults::new(alloc));
    let run = run_threads_returning_left(&rt, alloc, Start::Open, scene, faults, world.into_store(), &OpenGate);
    let (fault, left) = run.err().ok_or("a fault")?;
    assert!(rt; fault == RunFault::Open(OpenError::NotFresh));
    assert!(rt; matches!(left, Left::Store(_)));
    let mut store = left.into_store();
    assert!(rt; store.initiator(1) == Ok(Some(WORKER_1)));
    Ok(())
}
