//! Texts, bytes and reports, with each growth refused in turn.

use crate::counts::Counts;
use crate::fresh::{Fresh, sink};
use crate::refusing::{MOST, Turns, never, refuse, was_spared};
use crate::stepping::{Moment, played};
use kt_ckpt::{Ckpt, CkptError};
use kt_core::Step;
use kt_history::{History, space_of};
use kt_scene::{
    ReplayFault, SceneError, WorkKind, read_scene, write_journal, write_report, write_scene,
};
use kt_space::Bag;
use kt_store::{CkptStore, StoreError};
use kt_tuple::{ALL_NODES, NodeId, Service};
use std::alloc::Global;
use std::test::Fail;

/// Reads the text. Refused for memory, it names a line of it.
pub(crate) fn read_in_turn(
    rt: &HostRuntime,
    alloc: Global,
    text: &[u8],
    kind: WorkKind,
) -> Result<(), Fail> {
    let expected = format!(in alloc; "{:?}", read_scene(alloc, text, kind)?)?;
    let mut turns = Turns::new("read_scene");
    for number in 1..MOST {
        refuse(alloc, number)?;
        let answer = read_scene(alloc, text, kind);
        let is_spared = was_spared(alloc, number)?;
        match answer {
            Ok(scenario) => {
                let is_same = format!(in alloc; "{scenario:?}")?.as_str() == expected.as_str();
                turns.hold(rt, is_same, "another scenario")?;
                if is_spared {
                    return turns.end(rt, number);
                }
                turns.bear();
            }
            Err(fault) => {
                let is_memory = fault.cause == SceneError::OutOfMemory && 1 <= fault.line;
                turns.hold(rt, is_memory, "another fault")?;
            }
        }
    }
    Err(never())
}

/// Writes the scenario that the text is.
pub(crate) fn written_in_turn(
    rt: &HostRuntime,
    alloc: Global,
    text: &[u8],
    kind: WorkKind,
) -> Result<(), Fail> {
    let scenario = read_scene(alloc, text, kind)?;
    let expected = write_scene(alloc, &scenario.scene, &scenario.work)?;
    let mut turns = Turns::new("write_scene");
    for number in 1..MOST {
        refuse(alloc, number)?;
        let answer = write_scene(alloc, &scenario.scene, &scenario.work);
        let is_spared = was_spared(alloc, number)?;
        if let Ok(written) = answer {
            turns.hold(rt, written == expected, "another text")?;
            if is_spared {
                return turns.end(rt, number);
            }
            turns.bear();
        }
    }
    Err(never())
}

/// Encodes the checkpoint, and decodes its bytes.
fn encoded_in_turn(rt: &HostRuntime, alloc: Global, ckpt: &Ckpt) -> Result<(), Fail> {
    let bytes = ckpt.encode(alloc)?;
    let mut turns = Turns::new("encode");
    for number in 1..MOST {
        refuse(alloc, number)?;
        let answer = ckpt.encode(alloc);
        let is_spared = was_spared(alloc, number)?;
        if let Ok(encoded) = answer {
            turns.hold(rt, encoded == bytes, "other bytes")?;
            if is_spared {
                turns.end(rt, number)?;
                return decoded_in_turn(rt, alloc, &bytes);
            }
            turns.bear();
        }
    }
    Err(never())
}

fn decoded_in_turn(rt: &HostRuntime, alloc: Global, bytes: &[u8]) -> Result<(), Fail> {
    let mut turns = Turns::new("decode");
    for number in 1..MOST {
        refuse(alloc, number)?;
        let answer = Ckpt::decode(alloc, bytes);
        let is_spared = was_spared(alloc, number)?;
        match answer {
            Ok(ckpt) => {
                let is_same = ckpt.encode(alloc)?.as_slice() == bytes;
                turns.hold(rt, is_same, "another checkpoint")?;
                if is_spared {
                    return turns.end(rt, number);
                }
                turns.bear();
            }
            Err(fault) => {
                turns.hold(rt, fault == CkptError::OutOfMemory, "another fault")?;
            }
        }
    }
    Err(never())
}

/// Encodes and decodes the checkpoints of the node.
fn row_in_turn<S: CkptStore>(
    rt: &HostRuntime,
    alloc: Global,
    store: &mut S,
    node: NodeId,
) -> Result<(), Fail> {
    if let Some(ckpt) = store.permanent(alloc, node)? {
        encoded_in_turn(rt, alloc, &ckpt)?;
    }
    if let Some(tentative) = store.tentative(alloc, node)? {
        encoded_in_turn(rt, alloc, &tentative.checkpoint)?;
    }
    Ok(())
}

/// Encodes and decodes what is stored after these steps.
pub(crate) fn checkpoints_in_turn<S: CkptStore + Fresh + Drop>(
    rt: &HostRuntime,
    alloc: Global,
    text: &[u8],
    steps: &[Step],
) -> Result<(), Fail> {
    let mut store = played::<S>(alloc, text, steps)?.into_store();
    for node in ALL_NODES {
        row_in_turn(rt, alloc, &mut store, node)?;
    }
    Ok(())
}

/// Which text of a world is written.
#[derive(Clone, Copy, Debug, PartialEq, Eq)]
enum Told {
    Report,
    Journal,
}

/// What the writing came to, whether no growth of it was refused, whether the store has counted as it should, and what
/// was written.
#[derive(Drop)]
struct Written {
    answer: Result<(), ReplayFault>,
    is_spared: bool,
    is_counted: bool,
    text: Vec<u8>,
}

/// Whether what the store counts is what the writing leaves of it.
fn is_counted(answer: Result<(), ReplayFault>, before: Counts, after: Counts) -> bool {
    match answer {
        Err(ReplayFault::Report(cause)) => before.can_become(after, cause),
        _ => after == before,
    }
}

/// Writes of the world after these steps, with the growth of this number refused.
fn told_once<S: CkptStore + Fresh + Drop>(
    alloc: Global,
    text: &[u8],
    steps: &[Step],
    told: Told,
    number: usize,
) -> Result<Written, Fail> {
    let mut sink = sink(alloc)?;
    let mut world = played::<S>(alloc, text, steps)?;
    let before = Counts::of_world(&world);
    refuse(alloc, number)?;
    let answer = match told {
        Told::Report => write_report(alloc, &mut world, &mut sink),
        Told::Journal => write_journal(alloc, &mut world, steps, &mut sink),
    };
    let is_spared = was_spared(alloc, number)?;
    let is_counted = is_counted(answer, before, Counts::of_world(&world));
    Ok(Written {
        answer,
        is_spared,
        is_counted,
        text: sink.into_inner(),
    })
}

/// What is written of the world after these steps. Refused, it leaves nothing written.
fn told_in_turn<S: CkptStore + Fresh + Drop>(
    rt: &HostRuntime,
    alloc: Global,
    text: &[u8],
    steps: &[Step],
    told: Told,
) -> Result<(), Fail> {
    let expected = told_once::<S>(alloc, text, steps, told, 0)?.text;
    let mut turns = match told {
        Told::Report => Turns::new("write_report"),
        Told::Journal => Turns::new("write_journal"),
    };
    for number in 1..MOST {
        let written = told_once::<S>(alloc, text, steps, told, number)?;
        let is_right = match written.answer {
            Ok(()) => written.text == expected,
            Err(ReplayFault::Memory | ReplayFault::Report(StoreError::Memory)) => {
                written.text.is_empty()
            }
            Err(_) => false,
        };
        turns.hold(rt, is_right && written.is_counted, "another end")?;
        if written.is_spared {
            return turns.end(rt, number);
        }
        if written.answer.is_ok() {
            turns.bear();
        }
    }
    Err(never())
}

/// The tuples of the permanent checkpoints after these steps, each time in a world of its own.
fn gathered_in_turn<S: CkptStore + Fresh + Drop>(
    rt: &HostRuntime,
    alloc: Global,
    text: &[u8],
    steps: &[Step],
) -> Result<(), Fail> {
    let expected = played::<S>(alloc, text, steps)?.permanent_space(alloc)?;
    let mut turns = Turns::new("permanent_space");
    for number in 1..MOST {
        let mut world = played::<S>(alloc, text, steps)?;
        let before = Counts::of_world(&world);
        refuse(alloc, number)?;
        let answer = world.permanent_space(alloc);
        let is_spared = was_spared(alloc, number)?;
        let after = Counts::of_world(&world);
        match answer {
            Ok(tuples) => {
                turns.hold(rt, tuples == expected && after == before, "another answer")?;
                if is_spared {
                    return turns.end(rt, number);
                }
                turns.bear();
            }
            Err(cause) => {
                let is_memory = cause == StoreError::Memory && before.can_become(after, cause);
                turns.hold(rt, is_memory, "another refusal")?;
            }
        }
    }
    Err(never())
}

/// Permanent tuples, report and journal after these steps.
pub(crate) fn reports_in_turn<S: CkptStore + Fresh + Drop>(
    rt: &HostRuntime,
    alloc: Global,
    text: &[u8],
    steps: &[Step],
) -> Result<(), Fail> {
    gathered_in_turn::<S>(rt, alloc, text, steps)?;
    told_in_turn::<S>(rt, alloc, text, steps, Told::Report)?;
    told_in_turn::<S>(rt, alloc, text, steps, Told::Journal)
}

/// What survives of the history, with each growth refused in turn.
fn history_in_turn(
    rt: &HostRuntime,
    alloc: Global,
    history: &History,
    services: &[Service],
) -> Result<(), Fail> {
    let mut turns = Turns::new("survivors");
    for number in 1..MOST {
        refuse(alloc, number)?;
        let answer = history.survivors(alloc);
        let is_spared = was_spared(alloc, number)?;
        if let Ok(survivors) = answer {
            turns.hold(rt, survivors.as_slice() == services, "other survivors")?;
            if is_spared {
                return turns.end(rt, number);
            }
            turns.bear();
        }
    }
    Err(never())
}

/// The tuples of the bag, as text.
fn tuples_text(alloc: Global, bag: &Bag) -> Result<String, Fail> {
    let tuples = bag.to_vec(alloc)?;
    Ok(format!(in alloc; "{tuples:?}")?)
}

/// The space of the services, with each growth refused in turn.
fn space_in_turn(rt: &HostRuntime, alloc: Global, services: &[Service]) -> Result<(), Fail> {
    let bag = space_of(alloc, services)?;
    let expected = tuples_text(alloc, &bag)?;
    let mut turns = Turns::new("space_of");
    for number in 1..MOST {
        refuse(alloc, number)?;
        let answer = space_of(alloc, services);
        let is_spared = was_spared(alloc, number)?;
        if let Ok(bag) = answer {
            let tuples = tuples_text(alloc, &bag)?;
            turns.hold(rt, tuples.as_str() == expected.as_str(), "another space")?;
            if is_spared {
                return turns.end(rt, number);
            }
            turns.bear();
        }
    }
    Err(never())
}

impl Moment<'_> {
    /// What survives before the step, and the space of it.
    pub(crate) fn survives_in_turn<S: CkptStore + Fresh + Drop>(
        &self,
        rt: &HostRuntime,
        alloc: Global,
    ) -> Result<(), Fail> {
        let world = self.world::<S>(alloc)?;
        let history = world.history();
        let services = history.survivors(alloc)?;
        history_in_turn(rt, alloc, history, &services)?;
        space_in_turn(rt, alloc, &services)
    }
}
