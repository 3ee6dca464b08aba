//! Seats, and what a stage is closed with.

use crate::making::{SceneRow, SHARD_1, WORKER_1, faults, opened, scene};
use kt_core::{FaultKind, Step, StepError};
use kt_stage::{
    ActError, CloseError, Journal, Naming, Receipt, Seat, Stage, node_count, unfinished,
};
use kt_store::MemStore;
use kt_walk::scenes::Game;
use std::alloc::Global;
use std::marker::Brand;
use std::process::Abort;
use std::sync::Wait;
use std::sync::ledger::Blank;
use std::test::Fail;

const PUTS_AND_TAKES: SceneRow = (1, &[&["out (\"a\", 1)", "in (\"a\", ?int)"]]);

/// The worker asks; the shard does not ask for it, and the worker not twice.
fn ask<R: Wait + Abort, L: Naming>(
    rt: &R,
    alloc: Global,
    stage: &Stage<MemStore, L>,
    worker: &mut Seat<L>,
    shard: &mut Seat<L>,
) -> Step {
    let step = Step::Issue { node: WORKER_1 };
    let receipt = Receipt { number: 1, step };
    assert!(rt; worker.node() == WORKER_1 && shard.node() == SHARD_1);
    assert!(rt; stage.act(rt, alloc, worker, step) == Ok(receipt));
    assert!(rt; stage.act(rt, alloc, shard, step) == Err(ActError::NotOwner));
    let again = stage.act(rt, alloc, worker, step);
    assert!(rt;
        again == Err(ActError::Step(StepError::NothingThere)),
        "{again:?}"
    );
    assert!(rt; worker.receipts() == [receipt].as_slice() && shard.receipts().is_empty());
    step
}

/// The worker has made its step, and the shard has one to make; with a failure that is due, the worker too.
fn is_unfinished(
    rt: &impl Abort,
    alloc: Global,
    journal: &mut Journal<MemStore>,
    step: Step,
) -> Result<(), Fail> {
    let mut none = faults(alloc, &[])?;
    let mut due = faults(alloc, &[(FaultKind::Fail, WORKER_1, 1)])?;
    assert!(rt; journal.steps() == [step].as_slice() && journal.world().steps_of(WORKER_1) == 1);
    assert!(rt; unfinished(alloc, journal, &mut none) == Ok(Some(SHARD_1)));
    assert!(rt; unfinished(alloc, journal, &mut due) == Ok(Some(WORKER_1)));
    assert!(rt; journal.steps() == [step].as_slice());
    Ok(())
}

/// The stage is closed with both seats, or without the shard's.
fn close<R: Wait + Abort, L: Naming>(
    rt: &R,
    alloc: Global,
    world: Game,
    blank: Blank,
    with_all: bool,
) -> Result<(), Fail> {
    let (stage, mut seats) = Stage::<MemStore, L>::open(alloc, world, blank)?;
    let mut shard = seats.pop().ok_or("a seat")?;
    let mut worker = seats.pop().ok_or("a seat")?;
    assert!(rt; seats.is_empty());
    let step = ask(rt, alloc, &stage, &mut worker, &mut shard);
    // in any order
    if with_all {
        seats.push(shard)?;
    }
    seats.push(worker)?;
    let (cause, mut journal) = match stage.close(seats) {
        Ok(journal) => (None, journal),
        Err((cause, journal)) => (Some(cause), journal),
    };
    let missing = CloseError::SeatMissing { node: SHARD_1 };
    assert!(rt; cause == if with_all { None } else { Some(missing) });
    is_unfinished(rt, alloc, &mut journal, step)
}

fn close_anew<R: Wait + Abort>(rt: &R, alloc: Global, with_all: bool) -> Result<(), Fail> {
    let world = opened(alloc, scene(alloc, PUTS_AND_TAKES)?)?;
    let blank = Blank::new(node_count(&world));
    close::<R, Brand>(rt, alloc, world, blank, with_all)
}

/// Two stages side by side, each with its own seats: one worker acts twice, the other not at all.
fn close_both<R: Wait + Abort, L: Naming, M: Naming>(
    rt: &R,
    alloc: Global,
    (world, blank): (Game, Blank),
    (other_world, other_blank): (Game, Blank),
) -> Result<(), Fail> {
    let (stage, mut seats) = Stage::<MemStore, L>::open(alloc, world, blank)?;
    let (other_stage, other_seats) = Stage::<MemStore, M>::open(alloc, other_world, other_blank)?;
    let worker = seats.get_mut(0).ok_or("a seat")?;
    let (ask, again) = (Step::Issue { node: WORKER_1 }, Step::Repeat { node: WORKER_1 });
    stage.act(rt, alloc, worker, ask).ok().ok_or("a step")?;
    stage.act(rt, alloc, worker, again).ok().ok_or("a step")?;
    let other = other_stage.close(other_seats).ok().ok_or("a journal")?;
    let journal = stage.close(seats).ok().ok_or("a journal")?;
    assert!(rt; journal.steps() == [ask, again].as_slice() && other.steps().is_empty());
    Ok(())
}

fn with_blank(alloc: Global) -> Result<(Game, Blank), Fail> {
    let world = opened(alloc, scene(alloc, PUTS_AND_TAKES)?)?;
    let blank = Blank::new(node_count(&world));
    Ok((world, blank))
}

#[test]
fn two_stages(rt: HostRuntime) -> Result<(), Fail> {
    let alloc = rt.alloc();
    let (first, second) = (with_blank(alloc)?, with_blank(alloc)?);
    close_both::<HostRuntime, Brand, Brand>(&rt, alloc, first, second)
}

#[test]
fn seats(rt: HostRuntime) -> Result<(), Fail> {
    close_anew(&rt, rt.alloc(), true)
}

#[test]
fn a_seat_left_out(rt: HostRuntime) -> Result<(), Fail> {
    close_anew(&rt, rt.alloc(), false)
}
