//! Runs by threads over a store of which one call fails: the first in one run, the second in the next, and so on.

use crate::making::{faults, journal_of, make_all, opened, replayed, report, scene};
use crate::runs::THREADS_AND_A_FAULT;
use kt_core::{OpenError, Start, StepError};
use kt_stage::{Journal, Left, OpenGate, RunFault, run_threads, run_threads_returning_left};
use kt_store::{CkptStore, FaultStore, MemStore, StoreError};
use std::alloc::Global;
use std::process::Abort;
use std::sync::Wait;
use std::test::Fail;
use std::thread::Threads;

type Failing = FaultStore<MemStore>;

/// What a run came to: its journal, or a fault and what is left.
type Run = Result<Journal<Failing>, (RunFault, Left<Failing>)>;

/// More calls than any run makes.
const MOST: u64 = 10_000;

fn failing(alloc: Global, at: u64) -> Failing {
    FaultStore::new(MemStore::new(alloc), at)
}

/// Runs the scene over a store of which the call of this number fails.
fn run<R: Threads + Wait + Sync>(rt: &R, alloc: Global, at: u64) -> Result<Run, Fail> {
    let (scene_row, lines, _) = THREADS_AND_A_FAULT;
    let (scene, faults) = (scene(alloc, scene_row)?, faults(alloc, lines)?);
    let store = failing(alloc, at);
    Ok(run_threads_returning_left(rt, alloc, Start::Open, scene, faults, store, &OpenGate))
}

/// The world of the journal is that of its steps: it reports what their replay does.
fn replays(rt: &impl Abort, alloc: Global, journal: Journal<Failing>) -> Result<Failing, Fail> {
    let steps = Vec::from_slice(alloc, journal.steps())?;
    let mut world = journal.into_world();
    let report = report(alloc, &mut world)?;
    let journal = journal_of(alloc, &mut world, &steps)?;
    assert!(rt; report == replayed(alloc, &journal)?);
    Ok(world.into_store())
}

/// How many runs were refused at the opening, how many at a step, and at which place a step was refused last.
#[derive(Clone, Copy, Debug, PartialEq, Eq)]
struct Refused {
    openings: u64,
    steps: u64,
    furthest: u64,
}

/// The run ended with the fault of the store and with nothing else, and the store has counted it.
fn has_ended(
    rt: &impl Abort,
    alloc: Global,
    fault: RunFault,
    left: Left<Failing>,
    refused: &mut Refused,
) -> Result<(), Fail> {
    let store = match (fault, left) {
        (RunFault::Open(cause), Left::Store(store)) => {
            assert_eq!(rt; cause, OpenError::Store(StoreError::Device));
            refused.openings += 1;
            store
        }
        (RunFault::Step { at, cause }, Left::Journal(journal)) => {
            assert_eq!(rt; cause, StepError::Store(StoreError::Device));
            assert_eq!(rt; at, journal.steps().len() as u64 + 1);
            refused.steps += 1;
            refused.furthest = refused.furthest.max(at);
            replays(rt, alloc, journal)?
        }
        _ => return Err(Fail::from("another fault, or something else is left")),
    };
    assert_eq!(rt;
        (store.has_failed(), store.faults(), store.wants()),
        (true, 1, 0)
    );
    Ok(())
}

/// The steps of a run of which no call failed lead to the report of one over a store that never fails.
fn has_run(rt: &impl Abort, alloc: Global, journal: Journal<Failing>) -> Result<(), Fail> {
    let (scene_row, _, expected) = THREADS_AND_A_FAULT;
    let mut world = opened(alloc, scene(alloc, scene_row)?)?;
    make_all(alloc, &mut world, journal.steps())?;
    let report = report(alloc, &mut world)?;
    assert!(rt; report.starts_with(expected), "{report:?}");
    let store = journal.into_world().into_store();
    assert_eq!(rt;
        (store.has_failed(), store.faults(), store.wants()),
        (false, 0, 0)
    );
    Ok(())
}

#[test]
fn each_call_fails_in_turn(rt: HostRuntime) -> Result<(), Fail> {
    let alloc = rt.alloc();
    let mut refused = Refused {
        openings: 0,
        steps: 0,
        furthest: 0,
    };
    for at in 1..MOST {
        match run(&rt, alloc, at)? {
            Err((fault, left)) => has_ended(&rt, alloc, fault, left, &mut refused)?,
            Ok(journal) => {
                has_run(&rt, alloc, journal)?;
                assert!(rt;
                    refused.openings == 1 && refused.steps == at - 2,
                    "{refused:?}"
                );
                assert!(rt; refused.steps > 20 && refused.furthest > 20, "{refused:?}");
                return Ok(());
            }
        }
    }
    Err(Fail::from("a run has no end"))
}

/// A run that gives nothing back tells the same fault.
#[test]
fn nothing_is_given_back(rt: HostRuntime) -> Result<(), Fail> {
    let alloc = rt.alloc();
    let (scene_row, lines, _) = THREADS_AND_A_FAULT;
    for at in 1..=10 {
        let (scene, faults) = (scene(alloc, scene_row)?, faults(alloc, lines)?);
        let run = run_threads(&rt, alloc, scene, faults, failing(alloc, at), &OpenGate);
        let is_told = match run.err() {
            Some(RunFault::Open(cause)) => {
                at == 1 && cause == OpenError::Store(StoreError::Device)
            }
            Some(RunFault::Step { at: step, cause }) => {
                at > 1 && step >= 1 && cause == StepError::Store(StoreError::Device)
            }
            _ => false,
        };
        assert!(rt; is_told, "{at}");
    }
    Ok(())
}
