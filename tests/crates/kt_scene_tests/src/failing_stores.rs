//! Worlds over a store of which one call fails: each call of the opening, of each step and of the report in its turn.

use crate::courses::{Course, Failing};
use crate::rollbacks::ROWS;
use kt_core::{OpenError, OpenRefused, StepError, World};
use kt_scene::{Nobody, ReplayFault, Sink, Source, Start, replay_returning_store, write_report};
use kt_store::{CkptStore, FaultStore, MemStore, StoreError};
use std::alloc::Global;
use std::process::Abort;
use std::test::Fail;

/// How often an opening, a step and a report were refused.
#[derive(Clone, Copy, Debug, PartialEq, Eq)]
struct Refused {
    openings: u64,
    steps: u64,
    reports: u64,
}

const NEVER: Refused = Refused {
    openings: 0,
    steps: 0,
    reports: 0,
};

/// A store in memory of which the call of this number fails.
fn failing(alloc: Global, at: u64) -> Failing {
    FaultStore::new(MemStore::new(alloc), at)
}

/// The world of the scene. Where its opening is refused it is opened over what comes back.
fn opened(
    rt: &impl Abort,
    alloc: Global,
    course: &Course,
    at: u64,
    refused: &mut Refused,
) -> Result<World<Failing>, Fail> {
    match World::open(alloc, course.scene(alloc)?, failing(alloc, at)) {
        Ok(world) => Ok(world),
        Err(back) => {
            let OpenRefused {
                cause,
                scene,
                store,
            } = back;
            assert_eq!(rt; cause, OpenError::Store(StoreError::Device));
            assert_eq!(rt;
                (store.has_failed(), store.faults(), store.wants()),
                (true, 1, 0)
            );
            refused.openings += 1;
            Ok(World::open(alloc, scene, store).ok().ok_or("it opens")?)
        }
    }
}

/// What the step that is refused leaves stored, in a world of its own.
fn leaves_stored(
    rt: &impl Abort,
    alloc: Global,
    course: &Course,
    place: usize,
    at: u64,
) -> Result<(), Fail> {
    let mut world = course.played(alloc, place, at)?.ok_or("a world")?;
    assert!(rt; world.step(alloc, course.steps[place]).is_err());
    assert!(rt;
        course.is_stored(alloc, world.into_store(), place)?,
        "before {place}"
    );
    Ok(())
}

/// Makes the step at this place. Where it is refused the world is as before, and it is made again.
fn make(
    rt: &impl Abort,
    alloc: Global,
    course: &Course,
    world: &mut World<Failing>,
    place: usize,
) -> Result<bool, Fail> {
    let (step, faults) = (course.steps[place], world.faults());
    let Err(refusal) = world.step(alloc, step) else {
        assert_eq!(rt; world.faults(), faults, "{step:?}");
        return Ok(false);
    };
    assert_eq!(rt; refusal, StepError::Store(StoreError::Device), "{step:?}");
    assert_eq!(rt; refusal.number(), 8);
    assert_eq!(rt;
        (faults, world.faults(), world.wants()),
        (0, 1, 0),
        "{step:?}"
    );
    assert!(rt; course.shows(alloc, world, place)?, "{step:?} refused");
    let again = world.step(alloc, step);
    assert!(rt; again == Ok(()), "{step:?}: {again:?}");
    assert!(rt; course.shows(alloc, world, place + 1)?, "{step:?} made");
    assert_eq!(rt; world.faults(), 1);
    Ok(true)
}

/// The report of the world. Where it is refused nothing is written, and it is written again.
fn reported(
    rt: &impl Abort,
    alloc: Global,
    world: &mut World<Failing>,
    refused: &mut Refused,
) -> Result<Vec<u8>, Fail> {
    let mut sink = Sink::new(Vec::new(alloc));
    if let Err(fault) = write_report(alloc, world, &mut sink) {
        assert_eq!(rt; fault, ReplayFault::Report(StoreError::Device));
        assert_eq!(rt; (world.faults(), world.wants()), (1, 0));
        refused.reports += 1;
        assert_eq!(rt; sink.into_inner().len(), 0);
        sink = Sink::new(Vec::new(alloc));
        assert!(rt; write_report(alloc, world, &mut sink).is_ok());
    }
    Ok(sink.into_inner())
}

/// Opens the scene, makes the steps and reports, over a store of which the call of this number fails. Says whether it
/// came.
fn fails_at(
    rt: &impl Abort,
    alloc: Global,
    course: &Course,
    report: &str,
    at: u64,
    refused: &mut Refused,
) -> Result<bool, Fail> {
    let mut world = opened(rt, alloc, course, at, refused)?;
    for place in 0..course.steps.len() {
        if make(rt, alloc, course, &mut world, place)? {
            leaves_stored(rt, alloc, course, place, at)?;
            refused.steps += 1;
        }
    }
    let written = reported(rt, alloc, &mut world, refused)?;
    assert_eq!(rt; written.as_slice(), report.as_bytes());
    assert!(rt; course.shows(alloc, &world, course.steps.len())?);
    let store = world.into_store();
    let has_failed = store.has_failed();
    assert!(rt; course.is_stored(alloc, store, course.steps.len())?);
    Ok(has_failed)
}

/// How a replay ends over a store of which the call of this number fails, where it does. Nothing is written then.
fn replay_fault(
    rt: &impl Abort,
    alloc: Global,
    text: &[u8],
    report: &str,
    at: u64,
) -> Option<ReplayFault> {
    let (mut source, mut sink) = (Source::new(text), Sink::new(Vec::new(alloc)));
    let (answer, left) = replay_returning_store(alloc, Start::Open, &mut source, &mut sink, failing(alloc, at), &mut Nobody);
    let written = sink.into_inner();
    assert_eq!(rt;
        (left.faults(), left.wants()),
        (u64::from(answer.is_err()), 0)
    );
    let expected = if answer.is_ok() { report } else { "" };
    assert_eq!(rt; written.as_slice(), expected.as_bytes());
    answer.err()
}

/// Replays the scenario with each call of the store failing in turn. It answers how often which part was refused.
fn replays(rt: &impl Abort, alloc: Global, text: &[u8], report: &str) -> Refused {
    let (mut at, mut refused, mut last) = (1, NEVER, 0);
    while let Some(fault) = replay_fault(rt, alloc, text, report, at) {
        match fault {
            ReplayFault::Open(OpenError::Store(StoreError::Device)) => refused.openings += 1,
            ReplayFault::Step {
                at: step,
                cause: StepError::Store(StoreError::Device),
            } => {
                // A later call is of the same step or of a later one.
                assert!(rt; last <= step && refused.reports == 0);
                last = step;
                refused.steps += 1;
            }
            ReplayFault::Report(StoreError::Device) => refused.reports += 1,
            _ => assert!(rt; false, "{fault:?}"),
        }
        at += 1;
    }
    refused
}

#[test]
fn each_call_fails_in_turn(rt: HostRuntime) -> Result<(), Fail> {
    let alloc = rt.alloc();
    let (mut all, mut rows) = (NEVER, 0);
    for (parts, report, expected) in &ROWS {
        if expected.is_err() {
            continue;
        }
        let (course, mut refused, mut at) = (Course::of(alloc, parts)?, NEVER, 1);
        while fails_at(&rt, alloc, &course, report, at, &mut refused)? {
            at += 1;
        }
        assert_eq!(rt; refused.openings + refused.steps + refused.reports, at - 1);
        // A replay makes the same calls.
        assert_eq!(rt; replays(&rt, alloc, course.text(), report), refused);
        assert!(rt; refused.openings == 1 && refused.reports > 0);
        rows += 1;
        all.openings += 1;
        all.steps += refused.steps;
        all.reports += refused.reports;
    }
    assert!(rt; all.openings == rows && rows > 10, "{all:?}");
    assert!(rt; all.steps > 300 && all.reports > 40, "{all:?}");
    Ok(())
}
