//! Receipts that are altered, which no caller can do.

use crate::{CloseError, Naming, Receipt, Seat, Stage, node_count};
use kt_core::{Scene, Script, Step, World};
use kt_store::MemStore;
use kt_tuple::NodeId;
use std::alloc::Global;
use std::marker::Brand;
use std::process::Abort;
use std::sync::Wait;
use std::sync::ledger::Blank;
use std::test::Fail;

const WORKER: NodeId = NodeId::Worker(1);

const SHARD: NodeId = NodeId::Shard(1);

/// What is done to the receipts of a seat that has made one step.
#[derive(Clone, Copy, Debug)]
enum Alteration {
    Nothing,
    AnotherPlace,
    AnotherStep,
    Lost,
    Twice,
}

/// To which seats it is done, and how the stage is closed then.
type Row = (Alteration, &'static [NodeId], Option<NodeId>);

const ROWS: [Row; 9] = [
    (Alteration::Nothing, &[WORKER, SHARD], None),
    (Alteration::AnotherPlace, &[WORKER], Some(WORKER)),
    (Alteration::AnotherStep, &[WORKER], Some(WORKER)),
    (Alteration::Lost, &[WORKER], Some(WORKER)),
    (Alteration::Twice, &[WORKER], Some(WORKER)),
    (Alteration::AnotherPlace, &[SHARD], Some(SHARD)),
    (Alteration::Lost, &[SHARD], Some(SHARD)),
    // the first in node order
    (Alteration::AnotherStep, &[WORKER, SHARD], Some(WORKER)),
    (Alteration::Twice, &[SHARD, WORKER], Some(WORKER)),
];

/// A worker with nothing to ask, and a shard.
fn scene(alloc: Global) -> Result<Scene, Fail> {
    let mut scripts = Vec::new(alloc);
    scripts.push(Script::new(alloc))?;
    Ok(Scene::new(1, scripts).ok_or("a scene")?)
}

fn alter(receipts: &mut Vec<Receipt>, alteration: Alteration) -> Result<(), Fail> {
    let first = receipts.get_mut(0).ok_or("a receipt")?;
    match alteration {
        Alteration::Nothing => {}
        Alteration::AnotherPlace => first.number = 3,
        Alteration::AnotherStep => first.step = Step::Fail { node: first.step.owner() },
        Alteration::Lost => receipts.clear(),
        Alteration::Twice => {
            let receipt = *first;
            receipts.push(receipt)?;
        }
    }
    Ok(())
}

fn seat_of<L: Naming>(seats: &mut [Seat<L>], node: NodeId) -> Result<&mut Seat<L>, Fail> {
    Ok(seats
        .iter_mut()
        .find(|seat| seat.node() == node)
        .ok_or("a seat")?)
}

/// Worker and shard each make a step; their receipts are altered then, and the stage is closed. The last seat comes
/// first.
fn close_altered<R: Wait + Abort, L: Naming>(
    rt: &R,
    alloc: Global,
    world: World<MemStore>,
    blank: Blank,
    (alteration, altered, expected): Row,
) -> Result<(), Fail> {
    let (stage, mut seats) = Stage::<MemStore, L>::open(alloc, world, blank)?;
    let steps = [Step::Check { node: WORKER }, Step::Check { node: SHARD }];
    for step in steps {
        let seat = seat_of(&mut seats, step.owner())?;
        stage.act(rt, alloc, seat, step).ok().ok_or("a step")?;
    }
    for node in altered {
        alter(&mut seat_of(&mut seats, *node)?.receipts, alteration)?;
    }
    seats.reverse();
    let (cause, journal) = match stage.close(seats) {
        Ok(journal) => (None, journal),
        Err((cause, journal)) => (Some(cause), journal),
    };
    let expected = expected.map(|node| CloseError::Unmatched { node });
    assert!(rt; cause == expected, "{alteration:?} of {altered:?}: {cause:?}");
    assert!(rt; journal.steps() == steps.as_slice());
    Ok(())
}

/// An altered seat is told of before one that is missing.
fn close_without_the_worker<R: Wait + Abort, L: Naming>(
    rt: &R,
    alloc: Global,
    world: World<MemStore>,
    blank: Blank,
) -> Result<(), Fail> {
    let (stage, mut seats) = Stage::<MemStore, L>::open(alloc, world, blank)?;
    let mut shard = seats.pop().ok_or("a seat")?;
    let step = Step::Check { node: SHARD };
    stage.act(rt, alloc, &mut shard, step).ok().ok_or("a step")?;
    alter(&mut shard.receipts, Alteration::AnotherPlace)?;
    seats.clear();
    seats.push(shard)?;
    let cause = stage.close(seats).err().map(|(cause, _)| cause);
    assert!(rt; cause == Some(CloseError::Unmatched { node: SHARD }));
    Ok(())
}

fn opened(alloc: Global) -> Result<(World<MemStore>, Blank), Fail> {
    let world = World::open(alloc, scene(alloc)?, MemStore::new(alloc));
    let world = world.ok().ok_or("a world")?;
    let blank = Blank::new(node_count(&world));
    Ok((world, blank))
}

#[test]
fn altered_receipts(rt: HostRuntime) -> Result<(), Fail> {
    let alloc = rt.alloc();
    for row in ROWS {
        let (world, blank) = opened(alloc)?;
        close_altered::<HostRuntime, Brand>(&rt, alloc, world, blank, row)?;
    }
    Ok(())
}

#[test]
fn an_altered_receipt_and_a_seat_left_out(rt: HostRuntime) -> Result<(), Fail> {
    let alloc = rt.alloc();
    let (world, blank) = opened(alloc)?;
    close_without_the_worker::<HostRuntime, Brand>(&rt, alloc, world, blank)
}
