//! Runs from bytes to bytes over a store of which one call fails: the first in one run, the second in the next, and so
//! on.

use crate::runs::{ROWS, Row, replayed};
use kt_core::{OpenError, Start, StepError};
use kt_run::{Output, RunTextFault, run_text_returning_store};
use kt_scene::{Nobody, ReplayFault, Sink, Source};
use kt_stage::{OpenGate, RunFault};
use kt_store::{CkptStore, FaultStore, MemStore, StoreError};
use std::alloc::Global;
use std::process::Abort;
use std::sync::Wait;
use std::test::Fail;
use std::thread::Threads;

/// More calls than any run makes.
const MOST: u64 = 10_000;

/// How many runs were refused at the opening, at a step and at the report.
type Refused = [u64; 3];

/// How a run of the row ended over this store, what was written, and the store.
fn run<T: Threads + Wait + Sync, S: CkptStore + Send + Drop>(
    rt: &T,
    alloc: Global,
    row: &Row,
    output: Output,
    store: S,
) -> (Result<(), RunTextFault>, Vec<u8>, S) {
    let (text, _, _) = *row;
    let (mut source, mut sink) = (Source::new(text), Sink::new(Vec::new(alloc)));
    let start = Start::Open;
    let (answer, left) = run_text_returning_store(
        rt, alloc, start, &mut source, &mut sink, store, output, &OpenGate, &mut Nobody,
    );
    (answer, sink.into_inner(), left)
}

/// What was written is the row's report, or a journal that leads to it.
fn has_written(rt: &impl Abort, alloc: Global, row: &Row, output: Output, written: &[u8]) {
    let (_, report, _) = *row;
    match output {
        Output::Report => assert_eq!(rt; written, report),
        Output::Journal => {
            let (answer, again) = replayed(alloc, written);
            assert!(rt;
                answer == Ok(()) && again.as_slice() == report,
                "{answer:?}"
            );
        }
    }
}

/// The part of the run that the store refused.
fn part_of(fault: RunTextFault) -> Result<usize, Fail> {
    match fault {
        RunTextFault::Run(RunFault::Open(OpenError::Store(StoreError::Device))) => Ok(0),
        RunTextFault::Run(
            RunFault::Step {
                cause: StepError::Store(StoreError::Device),
                ..
            },
        ) => Ok(1),
        RunTextFault::Text(ReplayFault::Report(StoreError::Device)) => Ok(2),
        _ => Err(Fail::from("another fault")),
    }
}

/// Runs the row with the call of this number failing. Tells the part that was refused, or none where a run makes fewer
/// calls.
fn fails_at<T: Threads + Wait + Sync + Abort>(
    rt: &T,
    alloc: Global,
    row: &Row,
    output: Output,
    at: u64,
) -> Result<Option<usize>, Fail> {
    let store = FaultStore::new(MemStore::new(alloc), at);
    let (answer, written, left) = run(rt, alloc, row, output, store);
    let faults = u64::from(answer.is_err());
    assert_eq!(rt;
        (left.has_failed(), left.faults()),
        (answer.is_err(), faults)
    );
    let Err(fault) = answer else {
        has_written(rt, alloc, row, output, &written);
        return Ok(None);
    };
    assert_eq!(rt; written.len(), 0);
    let part = part_of(fault)?;
    if part == 0 {
        // Nothing was stored, so the same store is good for a run.
        let (answer, written, left) = run(rt, alloc, row, output, left);
        assert!(rt; answer == Ok(()) && left.faults() == 1, "{answer:?}");
        has_written(rt, alloc, row, output, &written);
    }
    Ok(Some(part))
}

/// How often each part was refused, with the first call failing, then the second, until a run makes fewer calls.
fn refused<T: Threads + Wait + Sync + Abort>(
    rt: &T,
    alloc: Global,
    row: &Row,
    output: Output,
) -> Result<Refused, Fail> {
    let mut refused = [0; 3];
    for at in 1..MOST {
        let Some(part) = fails_at(rt, alloc, row, output, at)? else {
            return Ok(refused);
        };
        refused[part] += 1;
    }
    Err(Fail::from("a run makes more calls"))
}

#[test]
fn each_call_fails_in_turn(rt: HostRuntime) -> Result<(), Fail> {
    let alloc = rt.alloc();
    for output in [Output::Report, Output::Journal] {
        // How the threads run decides how many calls a run makes. So the last run may be one without the calls at
        // which those before it were refused, and it is left open whether one was refused at its report.
        let [openings, steps, _] = refused(&rt, alloc, &ROWS[0], output)?;
        assert!(rt; openings == 1 && steps > 20, "{openings} {steps}");
        // Here nobody makes a step, and all calls but the first are the report's, at least two for each shard.
        let [openings, steps, reports] = refused(&rt, alloc, &ROWS[2], output)?;
        assert!(rt; openings == 1 && steps == 0 && reports >= 16, "{openings} {steps} {reports}");
    }
    Ok(())
}
