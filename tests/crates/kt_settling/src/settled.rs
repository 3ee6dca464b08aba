//! The steps that `settle` makes, one after the other, and what they come to.

use kt_core::{Faults, Scene, Step, World};
use kt_stage::{next_for, settle};
use kt_store::MemStore;
use kt_tuple::ALL_NODES;
use kt_walk::scene_size::SceneSize;
use kt_walk::copies::copy_of;
use kt_walk::finding::{Finding, holds};
use kt_walk::scenes::Game;
use kt_walk::tally::Tally;
use kt_walk::watching::Watched;
use std::alloc::Global;

/// Within how many steps a world has to settle.
const MOST_STEPS: u64 = 500;

/// The next step of the first node, in node order, that has one.
pub fn next_of(
    alloc: Global,
    world: &mut Game,
    size: SceneSize,
    faults: &Faults,
) -> Result<Option<Step>, Finding> {
    for place in 0..size.count() {
        if let Some(step) = next_for(alloc, world, faults, size.node(place))? {
            return Ok(Some(step));
        }
    }
    Ok(None)
}

/// Makes up to so many steps, and checks what must hold after each. Whether no node has a next one then.
fn go_on(
    alloc: Global,
    watched: &mut Watched,
    most: u64,
    tally: &mut Tally,
) -> Result<bool, Finding> {
    let (size, faults) = (watched.size(), Faults::new(alloc));
    for _ in 0..most {
        let Some(step) = next_of(alloc, watched.world_mut(), size, &faults)? else {
            return Ok(true);
        };
        holds(watched.go(alloc, step, tally)?, "a next step is enabled")?;
    }
    Ok(false)
}

/// No node has a next step, and the world is steady.
fn is_over(alloc: Global, world: &mut Game) -> Result<(), Finding> {
    let faults = Faults::new(alloc);
    for node in ALL_NODES {
        let next = next_for(alloc, world, &faults, node)?;
        holds(next.is_none(), "no next step at the end")?;
    }
    holds(world.is_steady(), "steady at the end")
}

/// Whether the two are alike, so far as they show it.
fn are_alike(alloc: Global, a: &mut Game, b: &mut Game, size: SceneSize) -> Result<bool, Finding> {
    let mut are_alike = a.made() == b.made() && a.history().notes() == b.history().notes();
    for place in 0..size.count() {
        let node = size.node(place);
        are_alike = are_alike && a.mode(node) == b.mode(node);
        are_alike = are_alike && a.steps_of(node) == b.steps_of(node);
        are_alike = are_alike && a.kept_len(node) == b.kept_len(node);
        for other in 0..size.count() {
            let other = size.node(other);
            are_alike = are_alike && a.link_len(node, other) == b.link_len(node, other);
        }
    }
    Ok(are_alike && a.permanent_space(alloc)? == b.permanent_space(alloc)?)
}

/// The world of the scene after these steps.
fn played(alloc: Global, scene: Scene, steps: &[Step]) -> Result<Game, Finding> {
    let world = World::open(alloc, scene, MemStore::new(alloc));
    let mut world = world.ok().ok_or(Finding::NotMade("a world"))?;
    for step in steps {
        let made = world.step(alloc, *step);
        holds(made.is_ok(), "the same step once more")?;
    }
    Ok(world)
}

/// After the first so many of the same steps, `settle` leads to the same world.
fn is_what_settle_makes(alloc: Global, watched: &mut Watched, count: usize) -> Result<(), Finding> {
    let scene = copy_of(alloc, watched.world().scene())?;
    let mut other = match watched.steps().get(..count) {
        Some(steps) => played(alloc, scene, steps)?,
        None => return Err(Finding::NotMade("the first steps")),
    };
    let settled = settle(alloc, &mut other, &mut Faults::new(alloc));
    holds(settled.is_ok(), "it settles")?;
    let size = watched.size();
    let are_alike = are_alike(alloc, &mut other, watched.world_mut(), size)?;
    holds(are_alike, "what `settle` makes of it")
}

/// The world settles within so many steps, after each of which all holds that must, and it is as `settle` makes it.
pub fn settles(alloc: Global, watched: &mut Watched, tally: &mut Tally) -> Result<(), Finding> {
    let before = watched.steps().len();
    let is_settled = go_on(alloc, watched, MOST_STEPS, tally)?;
    holds(is_settled, "it settles within 500 steps")?;
    is_over(alloc, watched.world_mut())?;
    is_what_settle_makes(alloc, watched, before)
}
