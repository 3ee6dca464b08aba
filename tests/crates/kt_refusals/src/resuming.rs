//! Worlds that are resumed, with each growth refused in turn.

use crate::counts::Counts;
use crate::fresh::Fresh;
use crate::refusing::{MOST, Turns, never, refuse, was_spared};
use crate::seen::{has_stored, stored};
use crate::stepping::{played, scenario};
use kt_core::{ResumeError, ResumeRefused, Step, World};
use kt_scene::Scenario;
use kt_store::{CkptStore, StoreError};
use std::alloc::Global;
use std::test::Fail;

/// Whether memory ran out as the world was resumed, in the world or in its store.
pub(crate) fn is_of_resuming(cause: ResumeError) -> bool {
    matches!(
        cause,
        ResumeError::OutOfMemory | ResumeError::Store(StoreError::Memory)
    )
}

/// What the store held that was to be gone on from, and what it counted.
#[derive(Drop)]
struct Given {
    held: Vec<u8>,
    counts: Counts,
}

/// What a resuming that was refused left is resumed with memory; before that it is as it was, but that the store has
/// counted its own refusal.
fn resumes_again<S: CkptStore + Drop>(
    alloc: Global,
    refused: ResumeRefused<S>,
    given: &Given,
) -> Result<bool, Fail> {
    let ResumeRefused {
        cause,
        scene,
        mut store,
    } = refused;
    let is_counted = Counts::of(&store) == given.counts.after_resuming(cause);
    let is_same = has_stored(alloc, &mut store, &given.held)? && is_counted;
    Ok(is_of_resuming(cause) && is_same && World::resume(alloc, scene, store).is_ok())
}

/// What a resuming came to, whether no growth of it was refused, and what its store was before.
type Resumed<S> = (Result<World<S>, ResumeRefused<S>>, bool, Given);

/// Resumes the scene of the text over what these steps leave, with the growth of this number refused.
fn resumed_once<S: CkptStore + Fresh + Drop>(
    alloc: Global,
    text: &[u8],
    steps: &[Step],
    number: usize,
) -> Result<Resumed<S>, Fail> {
    let mut store = played::<S>(alloc, text, steps)?.into_store();
    let counts = Counts::of(&store);
    let held = stored(alloc, &mut store)?;
    let Scenario { scene, .. } = scenario(alloc, text)?;
    refuse(alloc, number)?;
    let resumed = World::resume(alloc, scene, store);
    let is_spared = was_spared(alloc, number)?;
    Ok((resumed, is_spared, Given { held, counts }))
}

/// Resumes the scene of the text with each growth refused in turn, each time over another store that these steps left.
pub(crate) fn resumed_in_turn<S: CkptStore + Fresh + Drop>(
    rt: &HostRuntime,
    alloc: Global,
    text: &[u8],
    steps: &[Step],
) -> Result<(), Fail> {
    let mut turns = Turns::new("resume");
    for number in 1..MOST {
        let (resumed, is_spared, given) = resumed_once::<S>(alloc, text, steps, number)?;
        match resumed {
            Ok(world) => {
                let is_counted = Counts::of_world(&world) == given.counts;
                turns.hold(rt, is_counted, "what the store counts")?;
                if is_spared {
                    return turns.end(rt, number);
                }
                turns.bear();
            }
            Err(refused) => {
                let is_right = resumes_again(alloc, refused, &given)?;
                turns.hold(rt, is_right, "what was left")?;
            }
        }
    }
    Err(never())
}
