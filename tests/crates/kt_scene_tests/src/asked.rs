//! What a world answers over a store of which the next call fails, or one that the same question makes after it.

use crate::courses::{Course, Failing};
use crate::rollbacks::{CASCADE, CHECKPOINT_OF_TWO, FAILS_AFTER_YES, SHARD_FAILS};
use kt_core::{Step, World};
use kt_tuple::NodeId;
use std::alloc::Global;
use std::process::Abort;
use std::test::Fail;

/// What a world is asked that its store has to answer.
#[derive(Clone, Copy, Debug)]
enum Question {
    Can(Step),
    IsAllowed(Step),
    Permanent,
}

const WORKER: NodeId = NodeId::Worker(1);

const SHARD: NodeId = NodeId::Shard(1);

/// Steps that are asked after in each state, whether they can be made or not.
const STEPS: [Step; 5] = [
    Step::Check { node: SHARD },
    Step::Learn { node: WORKER },
    Step::Restart { node: WORKER },
    Step::Decide { node: SHARD },
    Step::Restart { node: SHARD },
];

/// More calls than any question makes.
const MOST: u64 = 100;

/// The answer, as text.
fn answered(alloc: Global, world: &mut World<Failing>, question: Question) -> Result<String, Fail> {
    match question {
        Question::Can(step) => {
            let answer = world.can(alloc, step);
            Ok(format!(in alloc; "{answer:?}")?)
        }
        Question::IsAllowed(step) => {
            let answer = world.is_allowed(alloc, step);
            Ok(format!(in alloc; "{answer:?}")?)
        }
        Question::Permanent => {
            let answer = world.permanent_space(alloc);
            Ok(format!(in alloc; "{answer:?}")?)
        }
    }
}

/// Asks after so many steps, with each call failing in turn that the question makes, of which the first has this
/// number. The fault is handed on, the world is as before, and asked again it answers what it answers where none fails.
/// Says how many calls failed.
fn asked_in_turn(
    rt: &impl Abort,
    alloc: Global,
    course: &Course,
    count: usize,
    first: u64,
    question: Question,
) -> Result<u64, Fail> {
    let mut clean = course.played(alloc, count, 0)?.ok_or("a world")?;
    let expected = answered(alloc, &mut clean, question)?;
    for more in 0..MOST {
        let played = course.played(alloc, count, first + more)?;
        let mut world = played.ok_or("a world")?;
        let answer = answered(alloc, &mut world, question)?;
        if world.faults() == 0 {
            assert_eq!(rt; answer.as_str(), expected.as_str(), "{question:?}");
            return Ok(more);
        }
        assert_eq!(rt; answer.as_str(), "Err(Device)", "{question:?}");
        assert!(rt; course.shows(alloc, &world, count)?, "{question:?}");
        let again = answered(alloc, &mut world, question)?;
        assert_eq!(rt; again.as_str(), expected.as_str(), "{question:?}");
        assert_eq!(rt; (world.faults(), world.wants()), (1, 0));
        assert!(rt;
            course.is_stored(alloc, world.into_store(), count)?,
            "{question:?}"
        );
    }
    Err(Fail::from("a question has no end"))
}

/// How many calls failed of `can`, `is_allowed` and `permanent_space`.
type Counts = [u64; 3];

/// Asks all in each state of the scenario, and these steps in each.
fn asked(
    rt: &impl Abort,
    alloc: Global,
    course: &Course,
    steps: &[Step],
    counts: &mut Counts,
) -> Result<(), Fail> {
    let mut first = 1;
    for count in 0..=course.steps.len() {
        while course.played(alloc, count, first)?.is_none() {
            first += 1;
        }
        for step in steps {
            let question = Question::Can(*step);
            counts[0] += asked_in_turn(rt, alloc, course, count, first, question)?;
        }
        if let Some(step) = course.steps.get(count) {
            let (can, is_allowed) = (Question::Can(*step), Question::IsAllowed(*step));
            counts[0] += asked_in_turn(rt, alloc, course, count, first, can)?;
            counts[1] += asked_in_turn(rt, alloc, course, count, first, is_allowed)?;
        }
        counts[2] += asked_in_turn(rt, alloc, course, count, first, Question::Permanent)?;
    }
    Ok(())
}

#[test]
fn a_fault_is_handed_on(rt: HostRuntime) -> Result<(), Fail> {
    let alloc = rt.alloc();
    let mut counts = [0; 3];
    for (parts, steps) in [
        (SHARD_FAILS, STEPS.as_slice()),
        (CHECKPOINT_OF_TWO, &STEPS),
        (FAILS_AFTER_YES, &STEPS),
        (CASCADE, &[]),
    ] {
        asked(&rt, alloc, &Course::of(alloc, parts)?, steps, &mut counts)?;
    }
    let [can, is_allowed, permanent] = counts;
    assert!(rt;
        can > 200 && is_allowed > 100 && permanent > 300,
        "{counts:?}"
    );
    Ok(())
}
