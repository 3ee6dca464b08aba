//! Tests of what public calls make of want of memory. They are a program, which `tests/refused --calls` starts behind a
//! library that refuses just the growths that it is told of: each growth of a call in turn.
//!
//! Begin in `refusing.rs`, which says what is refused, then `stepping.rs` for worlds.
#![tactic(auto)]

mod counts;
mod fresh;
mod looking;
mod refusing;
mod resuming;
mod runs;
mod scripts;
mod seen;
mod settling;
mod stages;
mod stepping;
mod stores;
mod telling;
mod texts;
mod trials;
mod words;

use crate::fresh::Fresh;
use crate::looking::looks_in_turn;
use crate::resuming::resumed_in_turn;
use crate::runs::{
    completed_in_turn, gone_on_in_turn, replayed_in_turn, run_in_turn, threads_in_turn,
};
use crate::scripts::scripts_in_turn;
use crate::settling::settled_in_turn;
use crate::stages::{Way, leads_to};
use crate::stepping::{Moment, opened_in_turn, scenario};
use crate::stores::{sql_in_turn, stores_in_turn};
use crate::telling::{ends_in_turn, run_ends_in_turn, stores_told_in_turn};
use crate::texts::{checkpoints_in_turn, read_in_turn, reports_in_turn, written_in_turn};
use crate::trials::{chaos_in_turn, drawn_in_turn, times_in_turn};
use crate::words::words_in_turn;
use kt_core::Step;
use kt_scene::{Scenario, Source, WorkKind, read_text};
use kt_sql::SqlStore;
use kt_store::{CkptStore, MemStore};
use sqlite::MemStore as Disk;
use std::alloc::Global;
use std::env;
use std::sync::Wait;
use std::test::Fail;
use std::thread::Threads;

/// All that is tried of a step of the scenario.
fn try_step<W: Wait, S: CkptStore + Fresh + Drop>(
    rt: &HostRuntime,
    waits: &W,
    alloc: Global,
    moment: Moment<'_>,
) -> Result<(), Fail> {
    moment.is_read::<S>(rt, alloc)?;
    moment.can_be_made::<S>(rt, alloc)?;
    moment.made_in_turn::<S>(rt, alloc)?;
    moment.survives_in_turn::<S>(rt, alloc)?;
    for way in [Way::Act, Way::Glance, Way::Confirm] {
        if leads_to(way, moment.step) {
            moment.acted_in_turn::<W, S>(rt, waits, alloc, way)?;
        }
    }
    Ok(())
}

/// Opens the scene of the text and makes its steps one by one, with each growth refused in turn.
fn try_steps<W: Wait, S: CkptStore + Fresh + Drop>(
    rt: &HostRuntime,
    waits: &W,
    alloc: Global,
    text: &[u8],
    steps: &[Step],
) -> Result<(), Fail> {
    opened_in_turn::<S>(rt, alloc, text)?;
    for (place, step) in steps.iter().enumerate() {
        let (before, _) = steps.split_at(place);
        let step = *step;
        let moment = Moment { text, before, step };
        try_step::<W, S>(rt, waits, alloc, moment)?;
    }
    resumed_in_turn::<S>(rt, alloc, text, steps)?;
    checkpoints_in_turn::<S>(rt, alloc, text, steps)?;
    reports_in_turn::<S>(rt, alloc, text, steps)?;
    stores_in_turn::<S>(rt, alloc, text, steps)?;
    stores_told_in_turn::<S>(rt, alloc, text, steps)?;
    ends_in_turn::<S>(rt, alloc, text, steps)?;
    settled_in_turn::<S>(rt, alloc, text, steps)?;
    gone_on_in_turn::<S>(rt, alloc, text, steps)?;
    replayed_in_turn::<S>(rt, alloc, text)?;
    completed_in_turn::<S>(rt, alloc, text)
}

/// All that is tried of a scenario of steps, over stores of this kind.
fn try_scenario<W: Wait, S: CkptStore + Fresh + Drop>(
    rt: &HostRuntime,
    waits: &W,
    alloc: Global,
    text: &[u8],
) -> Result<(), Fail> {
    read_in_turn(rt, alloc, text, WorkKind::Steps)?;
    written_in_turn(rt, alloc, text, WorkKind::Steps)?;
    let Scenario { scene, work } = scenario(alloc, text)?;
    scripts_in_turn(rt, alloc, scene.scripts())?;
    try_steps::<W, S>(rt, waits, alloc, text, work.steps())
}

/// All that is tried of a scenario of fault lines.
fn try_run<T: Threads + Wait + Sync, S: CkptStore + Fresh + Send + Drop>(
    rt: &HostRuntime,
    threads: &T,
    alloc: Global,
    text: &[u8],
) -> Result<(), Fail> {
    read_in_turn(rt, alloc, text, WorkKind::Faults)?;
    written_in_turn(rt, alloc, text, WorkKind::Faults)?;
    drawn_in_turn(rt, alloc, text)?;
    run_ends_in_turn::<T, S>(rt, threads, alloc, text)?;
    threads_in_turn::<T, S>(rt, threads, alloc, text)?;
    run_in_turn::<T, S>(rt, threads, alloc, text)?;
    chaos_in_turn::<T, S>(rt, threads, alloc, text)
}

/// The same over stores in memory, and several runs over such.
fn try_runs<T: Threads + Wait + Sync>(
    rt: &HostRuntime,
    threads: &T,
    alloc: Global,
    text: &[u8],
) -> Result<(), Fail> {
    try_run::<T, MemStore>(rt, threads, alloc, text)?;
    times_in_turn(rt, threads, alloc, text)
}

/// What is tried is said by the first argument; the scenario is the standard input. Without an argument nothing is
/// tried, since then no library stands behind the program.
fn main(rt: HostRuntime) -> Result<(), Fail> {
    let alloc = rt.alloc();
    let mut arguments = env::args(&rt)?;
    arguments.next();
    let Some(word) = arguments.next() else {
        return Ok(());
    };
    let mut reader = Source::new(rt.stdin());
    let text = read_text(alloc, &mut reader)?;
    match word.as_bytes() {
        b"looks" => looks_in_turn(&rt, alloc, &text),
        b"steps" => try_scenario::<_, MemStore>(&rt, &rt, alloc, &text),
        b"steps-in-sql" => try_scenario::<_, SqlStore<Disk>>(&rt, &rt, alloc, &text),
        b"run" => try_runs(&rt, &rt, alloc, &text),
        b"run-in-sql" => try_run::<_, SqlStore<Disk>>(&rt, &rt, alloc, &text),
        b"sql" => sql_in_turn(&rt, alloc),
        b"words" => words_in_turn(&rt, alloc),
        _ => Err(Fail::new("this is not tried")),
    }
}
