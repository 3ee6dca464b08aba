//! A stage whose seats are driven by two threads of one's own: one is the worker, the other the shard.

ghost use Rattle.std.specs.Prelude.{◌≡◌, length, IfOk};
ghost use denote.Param.Send.{IsSend, IsSync};
ghost use Rattle.kt_stage.specs.Journal.{Replays};
ghost use Rattle.kt_stage.specs.Order.{nodes_of};
ghost use Rattle.kt_stage.specs.contracts.stage.Stage.{the_row as stage_row};
ghost use Rattle.kt_store.specs.contracts.memory.MemStore.{the_row as memory_row};

use kt_core::{Step, World};
use kt_scene::{Sink, WorkKind, read_scene, write_report};
use kt_stage::{Journal, Naming, Seat, Stage, node_count, propose, stage_may_be_shared};
use kt_store::{MemStore, memory_may_go};
use kt_tuple::NodeId;
use std::alloc::Global;
use std::marker::Brand;
use std::sync::Wait;
use std::sync::ledger::Blank;
use std::test::Fail;
use std::thread;
use std::thread::Threads;

const WORKER: NodeId = NodeId::Worker(1);

const SHARD: NodeId = NodeId::Shard(1);

/// How many steps each of them makes: it does two things about each of two requests.
const STEPS: usize = 4;

/// What the worker's thread does: it asks, and hears what was answered. Which of the two is due it does not know: the
/// other is refused, and a refused step changes nothing.
fn work<R: Wait, L: Naming>(
    rt: &R,
    alloc: Global,
    stage: &Stage<MemStore, L>,
    seat: Seat<L>,
) -> Seat<L> {
    let mut seat = seat;
    let (from, to) = (SHARD, WORKER);
    for _ in rt.forever() {
        if seat.receipts().len() >= STEPS {
            break;
        }
        let asked = stage.act(rt, alloc, &mut seat, Step::Issue { node: WORKER });
        let heard = stage.act(rt, alloc, &mut seat, Step::Deliver { from, to });
        if asked.is_err() && heard.is_err() {
            thread::yield_now();
        }
    }
    seat
}

/// What the shard's thread does: it hears a request, and serves it. It looks at the shard under the lock, and searches
/// what it saw without: the worker acts meanwhile. A proposal holds until the shard's own next step.
fn serve<R: Wait, L: Naming>(
    rt: &R,
    alloc: Global,
    stage: &Stage<MemStore, L>,
    seat: Seat<L>,
) -> Seat<L> {
    let mut seat = seat;
    let (from, to) = (WORKER, SHARD);
    for _ in rt.forever() {
        if seat.receipts().len() >= STEPS {
            break;
        }
        stage
            .act(rt, alloc, &mut seat, Step::Deliver { from, to })
            .ok();
        let seen = stage.glance(rt, alloc, &seat).ok();
        let found = seen.and_then(|glance| propose(&glance, WORKER));
        if let Some(proposal) = found {
            stage.confirm(rt, alloc, &mut seat, proposal).ok();
        } else {
            thread::yield_now();
        }
    }
    seat
}

/// Plays the world on the stage that L names, by a thread for each of its two nodes. The scene has one worker and one
/// shard.
fn play<R, L>(
    rt: &R,
    alloc: Global,
    world: World<MemStore>,
    blank: Blank,
) -> Result<Journal<MemStore>, Fail>
where
    R: Threads + Wait + Sync,
    L: Naming + Send + Sync,
    requires name { blank.name ≡ L.name }
    requires parts { blank.parts ≡ L.parts }
    requires one_each { blank.parts ≡ length (nodes_of world.state.scene) }
    requires opening { L.opening ≡ world }
    ensures replays { IfOk result (λ j. Replays L.opening j.world j.steps) }
{
    let (stage, mut seats) = Stage::<MemStore, L>::open(alloc, world, blank)?;
    let shard = seats.pop().ok_or("a seat")?;
    let worker = seats.pop().ok_or("a seat")?;
    memory_may_go();
    stage_may_be_shared::<MemStore, L>();
    let shared = &stage;
    let (worker, shard) = thread::join(
        rt,
        move || work(rt, alloc, shared, worker),
        move || serve(rt, alloc, shared, shard),
    );
    seats.push(worker)?;
    seats.push(shard)?;
    Ok(stage.close(seats).ok().ok_or("a journal")?)
}

/// Plays the scene of the text on a stage of its own. Gives the number of its steps, and the report.
pub(crate) fn played<R>(rt: &R, alloc: Global, text: &[u8]) -> Result<(usize, Vec<u8>), Fail>
where
    R: Threads + Wait + Sync,
{
    let scene = read_scene(alloc, text, WorkKind::Faults)?.scene;
    let world = World::open(alloc, scene, MemStore::new(alloc));
    let world = world.ok().ok_or("a world")?;
    let blank = Blank::new(node_count(&world));
    let journal = play::<R, Brand>(rt, alloc, world, blank)?;
    let count = journal.steps().len();
    let (mut world, mut sink) = (journal.into_world(), Sink::new(Vec::new(alloc)));
    write_report(alloc, &mut world, &mut sink)?;
    Ok((count, sink.into_inner()))
}
