//! Worked scenarios with failures: after each of their steps all that is promised holds, worked out slowly.

use crate::states;
use kt_core::World;
use kt_store::MemStore;
use kt_tuple::Tuple;
use kt_walk::scene_size::SceneSize;
use kt_walk::cuts;
use kt_walk::finding::Finding;
use kt_walk::fronts::agrees;
use kt_walk::scenes::Game;
use kt_walk::slowly::Pasts;
use kt_walk::worked::{
    BOTH_FAIL, CASCADE, CHECKPOINT_OF_TWO, FAILS_AFTER_YES, KEPT_REPLY_DROPPED,
    OVERLAPPING_INSTANCES, REQUEST_IN_CHECKPOINT, Scenario, THREE_OVER_TWO,
};
use std::alloc::Global;
use std::process::Abort;
use std::test::Fail;

/// The world after so many steps, none of which is refused.
fn played(alloc: Global, scenario: &Scenario, count: usize) -> Result<Game, Fail> {
    let world = World::open(alloc, scenario.scene(alloc)?, MemStore::new(alloc));
    let mut world = world.ok().ok_or("a world")?;
    for step in &scenario.first(alloc, count)? {
        if world.step(alloc, *step).is_err() {
            return Err(Fail::from("a step was refused"));
        }
    }
    Ok(world)
}

/// What is promised of the world beside a store that holds the same, and that store's permanent tuples.
fn all_agrees(
    alloc: Global,
    world: &Game,
    store: &mut MemStore,
    permanent: &[Tuple],
    size: SceneSize,
) -> Result<(), Finding> {
    let notes = world.history().notes();
    let mut pasts = Pasts::new(alloc)?;
    pasts.go_on(alloc, notes)?;
    agrees(alloc, world, &pasts)?;
    cuts::agrees(alloc, store, permanent, notes, size, &pasts)?;
    states::agree(alloc, store, notes, world.scene().scripts(), size)
}

fn holds_after(
    rt: &impl Abort,
    alloc: Global,
    scenario: &Scenario,
    count: usize,
) -> Result<(), Fail> {
    let world = played(alloc, scenario, count)?;
    let mut again = played(alloc, scenario, count)?;
    let permanent = again.permanent_space(alloc).map_err(|_| "a store")?;
    let mut store = again.into_store();
    let found = all_agrees(alloc, &world, &mut store, &permanent, scenario.size);
    assert!(rt; found.is_ok(), "{found:?} after {count} steps");
    Ok(())
}

fn holds_throughout(rt: &impl Abort, alloc: Global, scenario: &Scenario) -> Result<(), Fail> {
    for count in 0..=scenario.steps.len() {
        holds_after(rt, alloc, scenario, count)?;
    }
    Ok(())
}

#[test]
fn fails_after_yes(rt: HostRuntime) -> Result<(), Fail> {
    holds_throughout(&rt, rt.alloc(), &FAILS_AFTER_YES)
}

#[test]
fn kept_reply_dropped(rt: HostRuntime) -> Result<(), Fail> {
    holds_throughout(&rt, rt.alloc(), &KEPT_REPLY_DROPPED)
}

#[test]
fn both_fail(rt: HostRuntime) -> Result<(), Fail> {
    holds_throughout(&rt, rt.alloc(), &BOTH_FAIL)
}

#[test]
fn request_in_checkpoint(rt: HostRuntime) -> Result<(), Fail> {
    holds_throughout(&rt, rt.alloc(), &REQUEST_IN_CHECKPOINT)
}

#[test]
fn overlapping_instances(rt: HostRuntime) -> Result<(), Fail> {
    holds_throughout(&rt, rt.alloc(), &OVERLAPPING_INSTANCES)
}

#[test]
fn cascade(rt: HostRuntime) -> Result<(), Fail> {
    holds_throughout(&rt, rt.alloc(), &CASCADE)
}

#[test]
fn checkpoint_of_two(rt: HostRuntime) -> Result<(), Fail> {
    holds_throughout(&rt, rt.alloc(), &CHECKPOINT_OF_TWO)
}

#[test]
fn three_over_two(rt: HostRuntime) -> Result<(), Fail> {
    holds_throughout(&rt, rt.alloc(), &THREE_OVER_TWO)
}
