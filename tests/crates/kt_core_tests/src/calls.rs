//! What else a world answers: `can`, `mode`, `is_steady`, `bags`, `permanent_space`, `into_store`; and a store that was
//! used before.

use crate::making::{SHARD_1, SHARD_2, WORKER_1, WORKER_2, opened, scripts};
use crate::worlds::PUTTER_AND_TAKER;
use kt_core::{OpenError, OpenRefused, Scene, Step, World};
use kt_node::Mode;
use kt_space::Bag;
use kt_store::{CkptStore, MemStore};
use kt_tuple::NodeId;
use kt_walk::scenes::Game;
use std::alloc::Global;
use std::process::Abort;
use std::test::Fail;

/// A step, and whether it can be made.
type Row = (Step, bool);

const ISSUE: Step = Step::Issue { node: WORKER_1 };

const HEAR: Step = Step::Deliver { from: WORKER_1, to: SHARD_1 };

const REPLY: Step = Step::Deliver { from: SHARD_1, to: WORKER_1 };

const SERVE: Step = Step::Serve {
    shard: SHARD_1,
    worker: WORKER_1,
    place: 0,
};

const CHECK: Step = Step::Check { node: WORKER_1 };

const DECIDE: Step = Step::Decide { node: WORKER_1 };

const LEARN: Step = Step::Learn { node: WORKER_1 };

const FAIL: Step = Step::Fail { node: SHARD_1 };

/// The worker puts its tuple, and hears that it is there.
const PUT: [Row; 8] = [
    (Step::Take { node: WORKER_1 }, false),
    (HEAR, false),
    (ISSUE, true),
    (ISSUE, false),
    (HEAR, true),
    (SERVE, true),
    (Step::Restart { node: WORKER_1 }, false),
    (REPLY, true),
];

/// Worker and shard check their state; the worker comes to the verdict.
const CHECKED: [Row; 8] = [
    (CHECK, true),
    (DECIDE, false),
    (HEAR, true),
    (REPLY, true),
    (HEAR, true),
    (REPLY, true),
    (LEARN, false),
    (DECIDE, true),
];

/// The shard fails before it is told.
const FAILED: [Row; 3] = [(FAIL, true), (FAIL, false), (SERVE, false)];

/// Tries the steps, of which those are made that can be.
fn try_rows(rt: &impl Abort, alloc: Global, world: &mut Game, rows: &[Row]) {
    for (step, expected) in rows {
        assert!(rt; world.can(alloc, *step) == Ok(*expected), "{step:?}");
        assert!(rt; world.step(alloc, *step).is_ok() == *expected, "{step:?}");
    }
}

/// The modes of the worker and the shard; there are no others.
fn are_in(rt: &impl Abort, world: &Game, worker: Mode, shard: Mode) {
    let expected = [
        (WORKER_1, Some(worker)),
        (SHARD_1, Some(shard)),
        (WORKER_2, None),
        (SHARD_2, None),
        (NodeId::Worker(0), None),
        (NodeId::Shard(255), None),
    ];
    for (node, mode) in expected {
        assert!(rt; world.mode(node) == mode, "{node:?}");
    }
}

fn size(bag: Option<&Bag>) -> Option<usize> {
    Some(bag?.len())
}

/// So many tuples are in the first shard's bag, if it has one, and there is no other bag.
fn lends(rt: &impl Abort, world: &Game, expected: Option<usize>) {
    let mut expected = expected;
    for bag in world.bags() {
        assert!(rt; size(bag) == expected);
        expected = None;
    }
}

/// So many tuples are permanent.
fn are_permanent(rt: &impl Abort, alloc: Global, world: &mut Game, expected: usize) {
    match world.permanent_space(alloc) {
        Ok(tuples) => assert!(rt; tuples.len() == expected),
        Err(refusal) => assert!(rt; false, "{refusal:?}"),
    }
}

/// The shard's tentative checkpoint counts from its Yes on, and the shard has no bag while it is down.
fn is_asked(rt: &impl Abort, alloc: Global, world: &mut Game) {
    try_rows(rt, alloc, world, &PUT);
    are_in(rt, world, Mode::Up, Mode::Up);
    lends(rt, world, Some(1));
    are_permanent(rt, alloc, world, 0);
    try_rows(rt, alloc, world, &CHECKED);
    are_in(rt, world, Mode::Held, Mode::Held);
    assert!(rt; world.is_steady());
    are_permanent(rt, alloc, world, 1);
    try_rows(rt, alloc, world, &FAILED);
    are_in(rt, world, Mode::Held, Mode::Down);
    assert!(rt; !world.is_steady());
    lends(rt, world, None);
    are_permanent(rt, alloc, world, 1);
}

#[test]
fn a_world_is_asked(rt: HostRuntime) -> Result<(), Fail> {
    let mut world = opened(rt.alloc(), 1, scripts(rt.alloc(), &PUTTER_AND_TAKER)?)?;
    is_asked(&rt, rt.alloc(), &mut world);
    Ok(())
}

/// One check was begun, by the worker, whose checkpoint holds two acts.
fn has_one_check(rt: &impl Abort, alloc: Global, store: &mut MemStore) {
    assert!(rt; store.is_fresh() == Ok(false));
    assert!(rt; store.next_instance() == Ok(2));
    assert!(rt; store.open_of(WORKER_1) == Ok(Some(1)));
    match store.tentative_header(alloc, WORKER_1) {
        Ok(Some(taken)) => assert!(rt; taken.instance == 1 && taken.header.line_len() == 2),
        _ => assert!(rt; false, "a checkpoint"),
    }
}

/// Scene and store come back as they were.
fn is_not_fresh(rt: &impl Abort, alloc: Global, scene: Scene, store: MemStore) {
    match World::open(alloc, scene, store) {
        Ok(_) => assert!(rt; false, "a world"),
        Err(refused) => {
            let OpenRefused {
                cause,
                scene,
                mut store,
            } = refused;
            assert!(rt; cause == OpenError::NotFresh);
            assert!(rt; scene.shards() == 2 && scene.scripts().len() == 1);
            has_one_check(rt, alloc, &mut store);
        }
    }
}

/// Over a store on which a check was begun no world is opened.
#[test]
fn a_store_that_was_used(rt: HostRuntime) -> Result<(), Fail> {
    let alloc = rt.alloc();
    let scene = Scene::new(2, scripts(alloc, &PUTTER_AND_TAKER)?).ok_or("a scene")?;
    let mut world = opened(alloc, 1, scripts(alloc, &PUTTER_AND_TAKER)?)?;
    try_rows(&rt, alloc, &mut world, &PUT);
    try_rows(&rt, alloc, &mut world, &[(CHECK, true)]);
    is_not_fresh(&rt, alloc, scene, world.into_store());
    Ok(())
}
