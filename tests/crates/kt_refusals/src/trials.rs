//! Random fault lines, and runs that are made several times or with such lines, with each growth refused in turn.

use crate::counts::Counts;
use crate::fresh::{Fresh, sink};
use crate::refusing::{MOST, Turns, never, refuse, was_spared};
use crate::runs::{Ended, SPARED, is_of_replay, is_of_run, replays, spared_now};
use kt_chaos::push_random_faults;
use kt_core::Start;
use kt_run::{Output, RunTextFault};
use kt_scenario::{FaultLine, Faults};
use kt_scene::{Nobody, Scenario, Source, WorkKind, read_scene};
use kt_stage::OpenGate;
use kt_store::{CkptStore, StoreError};
use kt_trials::{Chaos, run_chaos_returning_store, run_times};
use std::alloc::Global;
use std::sync::Wait;
use std::test::Fail;
use std::thread::Threads;

/// The lines that are drawn: few enough that a run with them is short.
const CHAOS: Chaos = Chaos { count: 6, seed: 7 };

/// How often a scenario is run.
const TIMES: u32 = 2;

/// How the tally of two runs with one report begins, and that of two with two.
const ONE_REPORT: &[u8] = b"# 2 of 2 runs\nsurvivors ";

const TWO_REPORTS: &[u8] = b"# 1 of 2 runs\nsurvivors ";

/// Draws lines for the scene of the text behind those that it has, with the growth of this number refused. Gives what
/// there is then, whether it went well, and whether there was no such growth.
fn drawn_once(alloc: Global, text: &[u8], number: usize) -> Result<(Faults, bool, bool), Fail> {
    let Scenario { scene, work } = read_scene(alloc, text, WorkKind::Faults)?;
    let mut faults = work.into_faults().ok_or("fault lines")?;
    refuse(alloc, number)?;
    let is_drawn = push_random_faults(&mut faults, &scene, CHAOS).is_ok();
    let is_spared = was_spared(alloc, number)?;
    Ok((faults, is_drawn, is_spared))
}

/// Whether these are the first of the others.
fn are_first(lines: &[FaultLine], all: &[FaultLine]) -> bool {
    lines.len() <= all.len()
        && lines
            .iter()
            .zip(all)
            .all(|(line, other)| line.fault == other.fault)
}

/// Draws lines for the scene of the text. Refused, it leaves the first of them.
pub(crate) fn drawn_in_turn(rt: &HostRuntime, alloc: Global, text: &[u8]) -> Result<(), Fail> {
    let (all, _, _) = drawn_once(alloc, text, 0)?;
    let mut turns = Turns::new("push_random_faults");
    for number in 1..MOST {
        let (faults, is_drawn, is_spared) = drawn_once(alloc, text, number)?;
        let is_whole = faults.lines().len() == all.lines().len();
        let is_right = are_first(faults.lines(), all.lines()) && is_whole == is_drawn;
        turns.hold(rt, is_right, "other lines")?;
        if is_spared {
            turns.hold(rt, is_drawn, "refused with memory")?;
            return turns.end(rt, number);
        }
        if is_drawn {
            turns.bear();
        }
    }
    Err(never())
}

/// Runs the text so often, with the growth of this number refused.
fn times_once<T: Threads + Wait + Sync>(
    threads: &T,
    alloc: Global,
    text: &[u8],
    number: usize,
) -> Result<Ended<RunTextFault>, Fail> {
    let mut source = Source::new(text);
    let mut sink = sink(alloc)?;
    refuse(alloc, number)?;
    let answer = run_times(
        threads,
        alloc,
        &mut source,
        &mut sink,
        TIMES,
        &OpenGate,
        &mut Nobody,
    );
    let is_spared = was_spared(alloc, number)?;
    Ok((answer, is_spared, sink.into_inner()))
}

/// Whether memory ran out: for the texts, or in a run.
fn is_of_memory(fault: RunTextFault) -> bool {
    match fault {
        RunTextFault::Text(fault) => is_of_replay(fault),
        RunTextFault::Run(fault) => is_of_run(fault),
    }
}

/// Runs the text several times. Refused, it leaves nothing written; else a tally of that many runs.
pub(crate) fn times_in_turn<T: Threads + Wait + Sync>(
    rt: &HostRuntime,
    threads: &T,
    alloc: Global,
    text: &[u8],
) -> Result<(), Fail> {
    let mut turns = Turns::new("run_times");
    let mut spared = 0u8;
    for number in 1..MOST {
        let (answer, is_spared, written) = times_once(threads, alloc, text, number)?;
        let is_right = match answer {
            Ok(()) => written.starts_with(ONE_REPORT) || written.starts_with(TWO_REPORTS),
            Err(fault) => is_of_memory(fault) && written.is_empty(),
        };
        turns.hold(rt, is_right, "another end")?;
        if answer.is_ok() && !is_spared {
            turns.bear();
        }
        spared = spared_now(spared, is_spared);
        if SPARED <= spared {
            return turns.end(rt, number.saturating_sub(usize::from(SPARED - 1)));
        }
    }
    Err(never())
}

/// Runs the text with random lines over a fresh store, with the growth of this number refused. Says too whether the
/// store that comes back has counted one refusal at most.
fn chaos_once<T: Threads + Wait + Sync, S: CkptStore + Fresh + Send + Drop>(
    threads: &T,
    alloc: Global,
    text: &[u8],
    number: usize,
) -> Result<(Ended<RunTextFault>, bool), Fail> {
    let mut source = Source::new(text);
    let mut sink = sink(alloc)?;
    let store = S::fresh(alloc)?;
    let before = Counts::of(&store);
    refuse(alloc, number)?;
    let (answer, store) = run_chaos_returning_store(
        threads,
        alloc,
        Start::Open,
        &mut source,
        &mut sink,
        store,
        Output::Journal,
        CHAOS,
        &OpenGate,
        &mut Nobody,
    );
    let is_spared = was_spared(alloc, number)?;
    let after = Counts::of(&store);
    let is_counted = if answer.is_ok() && is_spared {
        after == before
    } else {
        before.can_become(after, StoreError::Memory)
    };
    Ok(((answer, is_spared, sink.into_inner()), is_counted))
}

/// Runs the text with random lines. Refused, it leaves nothing written; else these lines as remarks and a journal that
/// replays.
pub(crate) fn chaos_in_turn<T: Threads + Wait + Sync, S: CkptStore + Fresh + Send + Drop>(
    rt: &HostRuntime,
    threads: &T,
    alloc: Global,
    text: &[u8],
) -> Result<(), Fail> {
    let mut turns = Turns::new("run_chaos_returning_store");
    let mut spared = 0u8;
    for number in 1..MOST {
        let ((answer, is_spared, written), is_counted) = chaos_once::<T, S>(
            threads, alloc, text, number,
        )?;
        let is_right = match answer {
            Ok(()) => replays::<S>(alloc, &written)?,
            Err(fault) => is_of_memory(fault) && written.is_empty(),
        };
        turns.hold(rt, is_right, "another end")?;
        turns.hold(rt, is_counted, "what the store counts")?;
        if answer.is_ok() && !is_spared {
            turns.bear();
        }
        spared = spared_now(spared, is_spared);
        if SPARED <= spared {
            return turns.end(rt, number.saturating_sub(usize::from(SPARED - 1)));
        }
    }
    Err(never())
}
