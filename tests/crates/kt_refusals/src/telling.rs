//! What is told of a store and of a world's end, with each growth refused in turn.

use crate::counts::Counts;
use crate::fresh::Fresh;
use crate::refusing::{MOST, Turns, never, refuse, was_spared};
use crate::seen::{has_stored, stored};
use crate::stepping::played;
use kt_core::{Step, World};
use kt_scene::{Scenario, WorkKind, read_scene};
use kt_show::{show, show_json};
use kt_stage::{OpenGate, run_threads};
use kt_store::{CkptStore, StoreError};
use kt_summary::explain_end;
use std::alloc::Global;
use std::sync::Wait;
use std::test::Fail;
use std::thread::Threads;

/// How a store is told.
#[derive(Clone, Copy, Debug, PartialEq, Eq)]
enum Form {
    Words,
    Json,
}

impl Form {
    fn name(self) -> &'static str {
        match self {
            Form::Words => "show",
            Form::Json => "show_json",
        }
    }

    /// What the store holds.
    fn text<S: CkptStore>(self, alloc: Global, store: &mut S) -> Result<Vec<u8>, StoreError> {
        match self {
            Form::Words => show(alloc, store),
            Form::Json => show_json(alloc, store),
        }
    }

    /// Tells the store with the growth of this number refused. Only the refusal is counted, and the store holds what it
    /// held. Gives the text, where there is one, and whether there was no such growth.
    fn once<S: CkptStore>(
        self,
        rt: &HostRuntime,
        alloc: Global,
        store: &mut S,
        held: &[u8],
        turns: &Turns,
        number: usize,
    ) -> Result<(Option<Vec<u8>>, bool), Fail> {
        let before = Counts::of(store);
        refuse(alloc, number)?;
        let answer = self.text(alloc, store);
        let is_spared = was_spared(alloc, number)?;
        let after = Counts::of(store);
        turns.hold(rt, has_stored(alloc, store, held)?, "what the store holds")?;
        match answer {
            Ok(text) => {
                turns.hold(rt, after == before, "what the store counts")?;
                Ok((Some(text), is_spared))
            }
            Err(cause) => {
                let is_memory = cause == StoreError::Memory && before.can_become(after, cause);
                turns.hold(rt, is_memory, "another refusal")?;
                Ok((None, is_spared))
            }
        }
    }

    /// Tells what is stored after these steps, each time of the same store.
    fn in_turn<S: CkptStore>(
        self,
        rt: &HostRuntime,
        alloc: Global,
        store: &mut S,
    ) -> Result<(), Fail> {
        let held = stored(alloc, store)?;
        let expected = self.text(alloc, store)?;
        let mut turns = Turns::new(self.name());
        for number in 1..MOST {
            let (told, is_spared) = self.once(rt, alloc, store, &held, &turns, number)?;
            if let Some(text) = told {
                turns.hold(rt, text == expected, "another text")?;
                if is_spared {
                    return turns.end(rt, number);
                }
                turns.bear();
            }
            turns.hold(
                rt,
                self.text(alloc, store)? == expected,
                "another text then",
            )?;
        }
        Err(never())
    }
}

/// Tells what is stored after these steps, in words and as JSON.
pub(crate) fn stores_told_in_turn<S: CkptStore + Fresh + Drop>(
    rt: &HostRuntime,
    alloc: Global,
    text: &[u8],
    steps: &[Step],
) -> Result<(), Fail> {
    for form in [Form::Words, Form::Json] {
        let mut store = played::<S>(alloc, text, steps)?.into_store();
        form.in_turn(rt, alloc, &mut store)?;
    }
    Ok(())
}

/// Says what the world came to that these steps led to, which is lent.
fn ended_in_turn<S: CkptStore>(
    rt: &HostRuntime,
    alloc: Global,
    text: &[u8],
    world: &World<S>,
    steps: &[Step],
) -> Result<(), Fail> {
    let expected = explain_end(alloc, text, world, steps)?;
    let mut turns = Turns::new("explain_end");
    turns.hold(rt, !expected.is_empty(), "nothing said")?;
    for number in 1..MOST {
        refuse(alloc, number)?;
        let answer = explain_end(alloc, text, world, steps);
        let is_spared = was_spared(alloc, number)?;
        if let Ok(said) = answer {
            turns.hold(rt, said == expected, "another text")?;
            if is_spared {
                return turns.end(rt, number);
            }
            turns.bear();
        } else {
            turns.hold(rt, !is_spared, "refused with memory")?;
        }
    }
    Err(never())
}

/// Says what a world came to by these steps.
pub(crate) fn ends_in_turn<S: CkptStore + Fresh + Drop>(
    rt: &HostRuntime,
    alloc: Global,
    text: &[u8],
    steps: &[Step],
) -> Result<(), Fail> {
    let world = played::<S>(alloc, text, steps)?;
    ended_in_turn(rt, alloc, text, &world, steps)
}

/// Says what a run of the text by threads came to.
pub(crate) fn run_ends_in_turn<T: Threads + Wait + Sync, S: CkptStore + Fresh + Send + Drop>(
    rt: &HostRuntime,
    threads: &T,
    alloc: Global,
    text: &[u8],
) -> Result<(), Fail> {
    let Scenario { scene, work } = read_scene(alloc, text, WorkKind::Faults)?;
    let faults = work.into_faults().ok_or("fault lines")?;
    let store = S::fresh(alloc)?;
    let ran = run_threads(threads, alloc, scene, faults, store, &OpenGate);
    let journal = ran.ok().ok_or("a run")?;
    ended_in_turn(rt, alloc, text, journal.world(), journal.steps())
}
