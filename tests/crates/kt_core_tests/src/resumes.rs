//! Worlds that go on from what a store holds, after one was stopped.

use crate::making::{SHARD_1, WORKER_1, opened, scripts};
use crate::rows::leaves;
use crate::worlds::PUTTER_AND_TAKER;
use kt_core::{OpenError, ResumeError, Scene, Start, StartError, World};
use kt_history::{Note, What};
use kt_node::Mode;
use kt_store::{CkptStore, MemStore};
use kt_tuple::NodeId;
use kt_walk::lines::step;
use kt_walk::scenes::Game;
use std::alloc::Global;
use std::process::Abort;
use std::test::Fail;

/// The worker puts its tuple and hears that it is there.
const PUT: [&str; 4] = ["issue w1", "deliver w1 s1", "serve s1 w1 0", "deliver s1 w1"];

/// A check with all votes and its verdict, of which nobody is told.
const AGREED: [&str; 6] = [
    "check w1",
    "deliver w1 s1",
    "deliver s1 w1",
    "deliver w1 s1",
    "deliver s1 w1",
    "decide w1",
];

/// A check that the shard has joined, and no more.
const ASKED: [&str; 2] = ["check w1", "deliver w1 s1"];

/// Both learn of the Yes and roll each other back, and the worker goes on.
const GOES_ON: [&str; 14] = [
    "learn w1",
    "learn s1",
    "restart w1",
    "restart s1",
    "deliver w1 s1",
    "deliver s1 w1",
    "deliver s1 w1",
    "decide w1",
    "deliver w1 s1",
    "decide s1",
    "issue w1",
    "deliver w1 s1",
    "deliver w1 s1",
    "serve s1 w1 0",
];

const STORED: [&str; 1] = ["w1.1 out (\"a\", 1) done"];

const TAKEN: [&str; 2] = [
    "w1.1 out (\"a\", 1) done",
    "w1.2 in (\"a\", ?int) got (\"a\", 1)",
];

fn make(rt: &impl Abort, alloc: Global, world: &mut Game, lines: &[&str]) -> Result<(), Fail> {
    for line in lines {
        assert_eq!(rt; world.step(alloc, step(line)?), Ok(()), "{line}");
    }
    Ok(())
}

/// What a world leaves in its store that is stopped behind these steps.
fn stopped(rt: &impl Abort, alloc: Global, parts: &[&[&str]]) -> Result<MemStore, Fail> {
    let mut world = opened(alloc, 1, scripts(alloc, &PUTTER_AND_TAKER)?)?;
    for part in parts {
        make(rt, alloc, &mut world, part)?;
    }
    Ok(world.into_store())
}

fn scene(alloc: Global, workers: &[&[&str]]) -> Result<Scene, Fail> {
    Ok(Scene::new(1, scripts(alloc, workers)?).ok_or("a scene")?)
}

fn resumed(alloc: Global, store: MemStore) -> Result<Game, Fail> {
    let world = World::resume(alloc, scene(alloc, &PUTTER_AND_TAKER)?, store);
    Ok(world.ok().ok_or("a world")?)
}

/// What happened are the acts of the permanent checkpoints; all nodes are down, no step was made, and nothing is on its
/// way.
#[test]
fn how_a_resumed_world_stands(rt: HostRuntime) -> Result<(), Fail> {
    let alloc = rt.alloc();
    let world = resumed(alloc, stopped(&rt, alloc, &[&PUT, &AGREED])?)?;
    let mut made = Vec::new(alloc);
    for note in world.history().notes() {
        if let Note::Act(act) = note {
            made.push((act.node, act.by))?;
        }
    }
    assert_eq!(rt; made.as_slice(), [(WORKER_1, 0), (SHARD_1, 1), (SHARD_1, 1), (WORKER_1, 3)].as_slice());
    let second = world.history().act(2).ok_or("an act")?;
    assert!(rt; matches!(second.what, What::Heard));
    assert_eq!(rt; (world.made(), world.steps_of(WORKER_1), world.steps_of(SHARD_1)), (0, 0, 0));
    assert_eq!(rt; (world.mode(WORKER_1), world.mode(SHARD_1)), (Some(Mode::Down), Some(Mode::Down)));
    assert_eq!(rt; (world.link_len(WORKER_1, SHARD_1), world.link_len(SHARD_1, WORKER_1)), (0, 0));
    assert_eq!(rt; world.found(), Some(1));
    leaves(&rt, alloc, &world, &STORED, &["(\"a\", 1)"])
}

/// It goes on to the end, and can be stopped and resumed behind each step on the way.
#[test]
fn it_goes_on(rt: HostRuntime) -> Result<(), Fail> {
    let alloc = rt.alloc();
    let mut world = resumed(alloc, stopped(&rt, alloc, &[&PUT, &AGREED])?)?;
    make(&rt, alloc, &mut world, &GOES_ON)?;
    leaves(&rt, alloc, &world, &TAKEN, &[])?;
    for count in 0..=GOES_ON.len() {
        let mut world = resumed(alloc, stopped(&rt, alloc, &[&PUT, &AGREED])?)?;
        make(&rt, alloc, &mut world, &GOES_ON[..count])?;
        let world = resumed(alloc, world.into_store())?;
        leaves(&rt, alloc, &world, &STORED, &["(\"a\", 1)"])?;
    }
    Ok(())
}

/// Where no check got Yes a resumed world begins anew, and who was asked is down until the verdict.
#[test]
fn stopped_between_votes(rt: HostRuntime) -> Result<(), Fail> {
    let alloc = rt.alloc();
    for line in ["learn s1", "restart w1"] {
        let mut world = resumed(alloc, stopped(&rt, alloc, &[&PUT, &ASKED])?)?;
        assert!(rt; world.step(alloc, step(line)?).is_err(), "{line}");
    }
    let mut world = resumed(alloc, stopped(&rt, alloc, &[&PUT, &ASKED])?)?;
    assert_eq!(rt; world.history().notes().len(), 0);
    make(&rt, alloc, &mut world, &["abandon w1", "learn w1", "learn s1"])?;
    leaves(&rt, alloc, &world, &[], &[])
}

/// Where a world is not resumed, scene and store come back as they were, so that the right scene can go on.
#[test]
fn what_comes_back(rt: HostRuntime) -> Result<(), Fail> {
    let alloc = rt.alloc();
    let store = stopped(&rt, alloc, &[&PUT, &AGREED])?;
    let other: [&[&str]; 1] = [&["out (\"b\")"]];
    let refused = World::resume(alloc, scene(alloc, &other)?, store).err().ok_or("a refusal")?;
    let node = NodeId::Worker(1);
    assert_eq!(rt; refused.cause, ResumeError::Unfit { node });
    assert_eq!(rt; refused.scene.scripts().len(), 1);
    let mut store = refused.store;
    assert_eq!(rt; store.nodes(alloc).map(|nodes| nodes.len()), Ok(2));
    let world = resumed(alloc, store)?;
    leaves(&rt, alloc, &world, &STORED, &["(\"a\", 1)"])
}

/// Nothing was stored: each node is down, and begins again from its beginning.
#[test]
fn nothing_was_stored(rt: HostRuntime) -> Result<(), Fail> {
    let alloc = rt.alloc();
    let world = resumed(alloc, stopped(&rt, alloc, &[&PUT])?)?;
    assert_eq!(rt; (world.mode(WORKER_1), world.found()), (Some(Mode::Down), Some(0)));
    leaves(&rt, alloc, &world, &[], &[])
}

/// A world begins in either way; a store on which something is stored is not fresh.
#[test]
fn both_beginnings(rt: HostRuntime) -> Result<(), Fail> {
    let alloc = rt.alloc();
    let fresh = Start::Open.begin(alloc, scene(alloc, &PUTTER_AND_TAKER)?, MemStore::new(alloc));
    let world = fresh.ok().ok_or("a world")?;
    assert_eq!(rt; (world.mode(WORKER_1), world.found()), (Some(Mode::Up), None));
    let store = stopped(&rt, alloc, &[&PUT, &AGREED])?;
    let refused = Start::Open.begin(alloc, scene(alloc, &PUTTER_AND_TAKER)?, store);
    let refused = refused.err().ok_or("a refusal")?;
    assert_eq!(rt; refused.cause, StartError::Open(OpenError::NotFresh));
    let world = Start::Resume.begin(alloc, refused.scene, refused.store).ok().ok_or("a world")?;
    leaves(&rt, alloc, &world, &STORED, &["(\"a\", 1)"])
}
