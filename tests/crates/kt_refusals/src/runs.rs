//! Replays, completions and runs from text to text, with each growth refused in turn.

use crate::counts::Counts;
use crate::fresh::{Fresh, sink};
use crate::refusing::{MOST, Turns, never, refuse, was_spared};
use crate::resuming::is_of_resuming;
use crate::stepping::{is_of_opening, played, scenario};
use kt_complete::complete_returning_store;
use kt_core::{Start, Step, StepError};
use kt_run::{Output, RunTextFault, run_text};
use kt_scene::{
    Nobody, ReplayFault, Scenario, SceneError, Sink, Source, Work, WorkKind, read_scene, replay,
    resume_replay, write_scene,
};
use kt_stage::{OpenGate, RunFault, run_threads};
use kt_store::{CkptStore, StoreError};
use std::alloc::Global;
use std::sync::Wait;
use std::test::Fail;
use std::thread::Threads;

/// As many runs by threads in a row have to be spared: another run can have another count of growths.
pub(crate) const SPARED: u8 = 3;

fn is_of_step(cause: StepError) -> bool {
    matches!(
        cause,
        StepError::OutOfMemory | StepError::Store(StoreError::Memory)
    )
}

/// Whether memory ran out in the replay: for its text, a step, its store or its report.
pub(crate) fn is_of_replay(fault: ReplayFault) -> bool {
    match fault {
        ReplayFault::Scene { cause, .. } => cause == SceneError::OutOfMemory,
        ReplayFault::Step { cause, .. } => is_of_step(cause),
        ReplayFault::Open(cause) => is_of_opening(cause),
        ReplayFault::Resume(cause) => is_of_resuming(cause),
        ReplayFault::Report(cause) => cause == StoreError::Memory,
        ReplayFault::Memory => true,
        ReplayFault::Read | ReplayFault::Write => false,
    }
}

/// Whether memory ran out in the run, or for one of its threads.
pub(crate) fn is_of_run(fault: RunFault) -> bool {
    match fault {
        RunFault::Open(cause) => is_of_opening(cause),
        RunFault::Resume(cause) => is_of_resuming(cause),
        RunFault::Step { cause, .. } => is_of_step(cause),
        RunFault::Memory => true,
        RunFault::Close(_) | RunFault::Unfinished { .. } => false,
    }
}

/// What a replay or a run came to, whether no growth of it was refused, and what was written.
pub(crate) type Ended<F> = (Result<(), F>, bool, Vec<u8>);

/// A replay of a text: over a fresh store, or over what these steps of a scenario left, from which it goes on.
#[derive(Clone, Copy, Debug)]
enum Replay<'a> {
    Opens { text: &'a [u8] },
    GoesOn {
        text: &'a [u8],
        from: &'a [u8],
        steps: &'a [Step],
    },
}

impl Replay<'_> {
    fn name(self) -> &'static str {
        match self {
            Replay::Opens { .. } => "replay",
            Replay::GoesOn { .. } => "resume_replay",
        }
    }

    /// Replays with the growth of this number refused.
    fn once<S: CkptStore + Fresh + Drop>(
        self,
        alloc: Global,
        number: usize,
    ) -> Result<Ended<ReplayFault>, Fail> {
        let mut sink = sink(alloc)?;
        let answer = match self {
            Replay::Opens { text } => {
                let store = S::fresh(alloc)?;
                let mut source = Source::new(text);
                refuse(alloc, number)?;
                replay(alloc, &mut source, &mut sink, store)
            }
            Replay::GoesOn { text, from, steps } => {
                let store = played::<S>(alloc, from, steps)?.into_store();
                let mut source = Source::new(text);
                refuse(alloc, number)?;
                resume_replay(alloc, &mut source, &mut sink, store)
            }
        };
        let is_spared = was_spared(alloc, number)?;
        Ok((answer, is_spared, sink.into_inner()))
    }

    /// Replays with each growth refused in turn, each time with another reader, writer and store. Refused, it leaves
    /// nothing written.
    fn in_turn<S: CkptStore + Fresh + Drop>(
        self,
        rt: &HostRuntime,
        alloc: Global,
    ) -> Result<(), Fail> {
        let (_, _, expected) = self.once::<S>(alloc, 0)?;
        let mut turns = Turns::new(self.name());
        turns.hold(rt, !expected.is_empty(), "nothing written")?;
        for number in 1..MOST {
            let (answer, is_spared, written) = self.once::<S>(alloc, number)?;
            let is_right = match answer {
                Ok(()) => written == expected,
                Err(fault) => is_of_replay(fault) && written.is_empty(),
            };
            turns.hold(rt, is_right, "another end")?;
            if is_spared {
                return turns.end(rt, number);
            }
            if answer.is_ok() {
                turns.bear();
            }
        }
        Err(never())
    }
}

/// Whether the text replays over a fresh store.
pub(crate) fn replays<S: CkptStore + Fresh + Drop>(
    alloc: Global,
    text: &[u8],
) -> Result<bool, Fail> {
    let (replayed, _, _) = Replay::Opens { text }.once::<S>(alloc, 0)?;
    Ok(replayed == Ok(()))
}

/// Replays the text over fresh stores.
pub(crate) fn replayed_in_turn<S: CkptStore + Fresh + Drop>(
    rt: &HostRuntime,
    alloc: Global,
    text: &[u8],
) -> Result<(), Fail> {
    Replay::Opens { text }.in_turn::<S>(rt, alloc)
}

/// Goes on from what the steps of the text left, with no step more.
pub(crate) fn gone_on_in_turn<S: CkptStore + Fresh + Drop>(
    rt: &HostRuntime,
    alloc: Global,
    text: &[u8],
    steps: &[Step],
) -> Result<(), Fail> {
    let Scenario { scene, .. } = scenario(alloc, text)?;
    let rest = write_scene(alloc, &scene, &Work::Steps(Vec::new(alloc)))?;
    let replay = Replay::GoesOn {
        text: &rest,
        from: text,
        steps,
    };
    replay.in_turn::<S>(rt, alloc)
}

/// What a completion came to, whether no growth of it was refused, what was written, whether the store has counted just
/// its own refusal, and whether it can be gone on from.
#[derive(Drop)]
struct Completed {
    answer: Result<(), ReplayFault>,
    is_spared: bool,
    written: Vec<u8>,
    is_counted: bool,
    goes_on: bool,
}

/// Whether a store counts this behind a fault.
fn is_counted(answer: Result<(), ReplayFault>, before: Counts, after: Counts) -> bool {
    match answer {
        Err(ReplayFault::Open(cause)) => after == before.after_opening(cause),
        Err(ReplayFault::Step { cause, .. }) => after == before.after_step(Err(cause)),
        Err(ReplayFault::Report(cause)) => before.can_become(after, cause),
        _ => after == before,
    }
}

/// Whether a program goes on from the store by this text, which has no steps, to an end.
fn is_gone_on_from<S: CkptStore + Drop>(
    alloc: Global,
    store: S,
    rest: &[u8],
) -> Result<bool, Fail> {
    let mut sink = sink(alloc)?;
    let mut source = Source::new(rest);
    let (answer, _) = complete_returning_store(
        alloc,
        Start::Resume,
        &mut source,
        &mut sink,
        store,
        &mut Nobody,
    );
    Ok(answer == Ok(()))
}

/// Completes the text over a fresh store, with the growth of this number refused.
fn completed_once<S: CkptStore + Fresh + Drop>(
    alloc: Global,
    text: &[u8],
    rest: &[u8],
    number: usize,
) -> Result<Completed, Fail> {
    let mut sink: Sink<Vec<u8>> = sink(alloc)?;
    let store = S::fresh(alloc)?;
    let before = Counts::of(&store);
    let mut source = Source::new(text);
    refuse(alloc, number)?;
    let (answer, store) = complete_returning_store(
        alloc,
        Start::Open,
        &mut source,
        &mut sink,
        store,
        &mut Nobody,
    );
    let is_spared = was_spared(alloc, number)?;
    let is_counted = is_counted(answer, before, Counts::of(&store));
    let goes_on = is_gone_on_from(alloc, store, rest)?;
    Ok(Completed {
        answer,
        is_spared,
        written: sink.into_inner(),
        is_counted,
        goes_on,
    })
}

/// Completes the text, each time with another reader, writer and store. Refused, it leaves nothing written, and a store
/// from which a program goes on.
pub(crate) fn completed_in_turn<S: CkptStore + Fresh + Drop>(
    rt: &HostRuntime,
    alloc: Global,
    text: &[u8],
) -> Result<(), Fail> {
    let Scenario { scene, .. } = scenario(alloc, text)?;
    let rest = write_scene(alloc, &scene, &Work::Steps(Vec::new(alloc)))?;
    let expected = completed_once::<S>(alloc, text, &rest, 0)?.written;
    let mut turns = Turns::new("complete_returning_store");
    turns.hold(rt, !expected.is_empty(), "nothing written")?;
    for number in 1..MOST {
        let completed = completed_once::<S>(alloc, text, &rest, number)?;
        let is_right = match completed.answer {
            Ok(()) => completed.written == expected,
            Err(fault) => is_of_replay(fault) && completed.written.is_empty(),
        };
        turns.hold(rt, is_right, "another end")?;
        turns.hold(rt, completed.is_counted, "what the store counts")?;
        turns.hold(rt, completed.goes_on, "a store that is not gone on from")?;
        if completed.is_spared {
            return turns.end(rt, number);
        }
        if completed.answer.is_ok() {
            turns.bear();
        }
    }
    Err(never())
}

/// Runs the text by threads over a fresh store, with the growth of this number refused.
fn run_once<T: Threads + Wait + Sync, S: CkptStore + Fresh + Send + Drop>(
    threads: &T,
    alloc: Global,
    text: &[u8],
    number: usize,
) -> Result<Ended<RunTextFault>, Fail> {
    let mut source = Source::new(text);
    let mut sink = sink(alloc)?;
    let store = S::fresh(alloc)?;
    refuse(alloc, number)?;
    let answer = run_text(
        threads,
        alloc,
        &mut source,
        &mut sink,
        store,
        Output::Journal,
        &OpenGate,
    );
    let is_spared = was_spared(alloc, number)?;
    Ok((answer, is_spared, sink.into_inner()))
}

/// As many turns in a row in which no growth was refused, with this one.
pub(crate) fn spared_now(spared: u8, is_spared: bool) -> u8 {
    if is_spared {
        spared.saturating_add(1)
    } else {
        0
    }
}

/// Runs the text by threads, each time with another reader, writer and store. Refused, it leaves nothing written; else
/// what is written is a journal that replays.
pub(crate) fn run_in_turn<T: Threads + Wait + Sync, S: CkptStore + Fresh + Send + Drop>(
    rt: &HostRuntime,
    threads: &T,
    alloc: Global,
    text: &[u8],
) -> Result<(), Fail> {
    let mut turns = Turns::new("run_text");
    let mut spared = 0u8;
    for number in 1..MOST {
        let (answer, is_spared, written) = run_once::<T, S>(threads, alloc, text, number)?;
        let is_right = match answer {
            Ok(()) => replays::<S>(alloc, &written)?,
            Err(RunTextFault::Text(fault)) => is_of_replay(fault) && written.is_empty(),
            Err(RunTextFault::Run(fault)) => is_of_run(fault) && written.is_empty(),
        };
        turns.hold(rt, is_right, "another end")?;
        if answer.is_ok() && !is_spared {
            turns.bear();
        }
        spared = spared_now(spared, is_spared);
        if SPARED <= spared {
            return turns.end(rt, number.saturating_sub(usize::from(SPARED - 1)));
        }
    }
    Err(never())
}

/// Runs the scene of the text by threads over a fresh store, with the growth of this number refused. Says why it was
/// refused, or that it came to no end, and whether there was no such growth.
fn threads_once<T: Threads + Wait + Sync, S: CkptStore + Fresh + Send + Drop>(
    threads: &T,
    alloc: Global,
    text: &[u8],
    number: usize,
) -> Result<(Result<bool, RunFault>, bool), Fail> {
    let Scenario { scene, work } = read_scene(alloc, text, WorkKind::Faults)?;
    let faults = work.into_faults().ok_or("fault lines")?;
    let store = S::fresh(alloc)?;
    refuse(alloc, number)?;
    let answer = run_threads(threads, alloc, scene, faults, store, &OpenGate);
    let is_spared = was_spared(alloc, number)?;
    let ended = match answer {
        Ok(journal) => Ok(journal.world().is_steady()),
        Err(fault) => Err(fault),
    };
    Ok((ended, is_spared))
}

/// Runs the scene of the text by threads, each time over another store.
pub(crate) fn threads_in_turn<T: Threads + Wait + Sync, S: CkptStore + Fresh + Send + Drop>(
    rt: &HostRuntime,
    threads: &T,
    alloc: Global,
    text: &[u8],
) -> Result<(), Fail> {
    let mut turns = Turns::new("run_threads");
    let mut spared = 0u8;
    for number in 1..MOST {
        let (ended, is_spared) = threads_once::<T, S>(threads, alloc, text, number)?;
        let is_right = match ended {
            Ok(is_steady) => is_steady,
            Err(fault) => is_of_run(fault),
        };
        turns.hold(rt, is_right, "another end")?;
        if ended.is_ok() && !is_spared {
            turns.bear();
        }
        spared = spared_now(spared, is_spared);
        if SPARED <= spared {
            return turns.end(rt, number.saturating_sub(usize::from(SPARED - 1)));
        }
    }
    Err(never())
}
