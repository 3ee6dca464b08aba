//! Worlds that settle after each node has failed, with each growth refused in turn.

use crate::counts::Counts;
use crate::fresh::Fresh;
use crate::refusing::{MOST, Turns, never, refuse, was_spared};
use crate::seen::{seen, shows};
use crate::stepping::played;
use kt_core::{Faults, Step, StepError, World};
use kt_stage::settle;
use kt_store::{CkptStore, StoreError};
use kt_tuple::ALL_NODES;
use std::alloc::Global;
use std::test::Fail;

/// The world behind these steps, of which each node has failed then.
fn struck<S: CkptStore + Fresh + Drop>(
    alloc: Global,
    text: &[u8],
    steps: &[Step],
) -> Result<World<S>, Fail> {
    let mut world = played::<S>(alloc, text, steps)?;
    for node in ALL_NODES {
        // One that is down already, or that the scene does not have, cannot fail.
        world.step(alloc, Step::Fail { node }).ok();
    }
    Ok(world)
}

/// Settles the world once more, with memory, and answers whether it shows what is expected then.
fn settles<S: CkptStore>(
    alloc: Global,
    world: &mut World<S>,
    expected: &[u8],
) -> Result<bool, Fail> {
    let is_settled = settle(alloc, world, &mut Faults::new(alloc)).is_ok();
    Ok(is_settled && shows(alloc, world, expected)?)
}

/// Settles the world with the growth of this number refused. Answers whether it says so rightly and goes on from what
/// was made, whether it went well, and whether there was no such growth.
fn settled_once<S: CkptStore + Fresh + Drop>(
    alloc: Global,
    text: &[u8],
    steps: &[Step],
    expected: &[u8],
    number: usize,
) -> Result<(bool, bool, bool), Fail> {
    let mut world = struck::<S>(alloc, text, steps)?;
    let counts = Counts::of_world(&world);
    let mut faults = Faults::new(alloc);
    refuse(alloc, number)?;
    let answer = settle(alloc, &mut world, &mut faults);
    let is_spared = was_spared(alloc, number)?;
    let is_of_memory = matches!(
        answer,
        Ok(()) | Err(StepError::OutOfMemory | StepError::Store(StoreError::Memory))
    );
    let is_counted = Counts::of_world(&world) == counts.after_step(answer);
    let goes_on = settles(alloc, &mut world, expected)?;
    Ok((
        is_of_memory && is_counted && goes_on,
        answer.is_ok(),
        is_spared,
    ))
}

/// Settles the world behind these steps, each time another one.
pub(crate) fn settled_in_turn<S: CkptStore + Fresh + Drop>(
    rt: &HostRuntime,
    alloc: Global,
    text: &[u8],
    steps: &[Step],
) -> Result<(), Fail> {
    let mut world = struck::<S>(alloc, text, steps)?;
    settle(alloc, &mut world, &mut Faults::new(alloc))?;
    let expected = seen(alloc, &world)?;
    let mut turns = Turns::new("settle");
    for number in 1..MOST {
        let (is_right, is_settled, is_spared) =
            settled_once::<S>(alloc, text, steps, &expected, number)?;
        turns.hold(rt, is_right, "what was left")?;
        if is_spared {
            return turns.end(rt, number);
        }
        if is_settled {
            turns.bear();
        }
    }
    Err(never())
}
