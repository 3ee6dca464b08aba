//! What a world lends of its links and nodes, and what it allows.

use crate::making::{SHARD_1, SHARD_2, WORKER_1, opened, scripts};
use crate::worlds::PUTTER_AND_TAKER;
use kt_core::Step;
use kt_node::{Message, Talk};
use kt_walk::lines::step;
use kt_walk::scenes::Game;
use std::alloc::Global;
use std::process::Abort;
use std::test::Fail;

/// Makes the steps of these lines.
fn make(rt: &impl Abort, alloc: Global, world: &mut Game, lines: &[&str]) -> Result<(), Fail> {
    for line in lines {
        let step = step(line)?;
        assert!(rt; world.is_allowed(alloc, step) == Ok(true), "{step:?}");
        assert!(rt; world.step(alloc, step).is_ok(), "{step:?}");
    }
    Ok(())
}

/// The number that is asked, if this is a request.
fn asked_in(message: Option<&Message>) -> Option<u64> {
    match message {
        Some(Message::App(app)) => match &app.talk {
            Talk::Request(request) => Some(request.number),
            Talk::Reply { .. } => None,
        },
        _ => None,
    }
}

/// A request is on its way, and then waits; both nodes are up.
fn is_asked(rt: &impl Abort, alloc: Global, world: &mut Game) -> Result<(), Fail> {
    make(rt, alloc, world, &["issue w1"])?;
    assert!(rt; world.link_len(WORKER_1, SHARD_1) == 1 && world.link_len(SHARD_1, WORKER_1) == 0);
    assert!(rt; asked_in(world.link_at(WORKER_1, SHARD_1, 0)) == Some(1));
    assert!(rt; world.link_at(WORKER_1, SHARD_1, 1).is_none() && world.link_at(WORKER_1, SHARD_2, 0).is_none());
    assert!(rt; world.worker(WORKER_1).is_some() && world.worker(SHARD_1).is_none());
    make(rt, alloc, world, &["deliver w1 s1"])?;
    assert!(rt; world.link_len(WORKER_1, SHARD_1) == 0);
    let waiting = world
        .shard(SHARD_1)
        .ok_or("a shard")?
        .waiting(1)
        .ok_or("a request")?;
    assert!(rt; waiting.number == 1 && world.shard(WORKER_1).is_none());
    Ok(())
}

/// The worker takes a checkpoint, keeps back the answer, and the shard fails.
fn is_kept(rt: &impl Abort, alloc: Global, world: &mut Game) -> Result<(), Fail> {
    assert!(rt; world.ballot(WORKER_1).is_none() && world.kept_len(WORKER_1) == 0);
    make(
        rt,
        alloc,
        world,
        &["serve s1 w1 0", "check w1", "deliver s1 w1"],
    )?;
    assert!(rt; world.worker(WORKER_1).is_none());
    assert!(rt; world.ballot(WORKER_1).ok_or("a ballot")?.instance() == 1);
    assert!(rt; world.kept_len(WORKER_1) == 1 && world.kept_at(WORKER_1, 1).is_none());
    assert!(rt; world.kept_at(WORKER_1, 0).ok_or("a message")?.0 == SHARD_1);
    make(rt, alloc, world, &["fail s1"])?;
    assert!(rt; world.shard(SHARD_1).is_none() && world.kept_len(SHARD_1) == 0);
    assert!(rt; world.is_allowed(alloc, Step::Fail { node: SHARD_1 }) == Ok(false));
    Ok(())
}

#[test]
fn a_world_lends_what_its_nodes_have(rt: HostRuntime) -> Result<(), Fail> {
    let alloc = rt.alloc();
    let mut world = opened(alloc, 1, scripts(alloc, &PUTTER_AND_TAKER)?)?;
    is_asked(&rt, alloc, &mut world)?;
    is_kept(&rt, alloc, &mut world)
}
