//! Looking at a shard, and proposing whom it serves.

use crate::making::{SceneRow, SHARD_1, WORKER_1, opened, scene};
use kt_core::Step;
use kt_stage::{
    ActError, ConfirmError, Glance, GlanceError, Naming, Receipt, Seat, Stage, node_count, propose,
};
use kt_store::MemStore;
use kt_tuple::NodeId;
use kt_walk::scenes::Game;
use std::alloc::Global;
use std::marker::Brand;
use std::process::Abort;
use std::sync::Wait;
use std::sync::ledger::Blank;
use std::test::Fail;

const PUTS_AND_TAKES: SceneRow = (1, &[&["out (\"a\", 1)", "in (\"a\", ?int)"]]);

const ISSUE: Step = Step::Issue { node: WORKER_1 };

const REPEAT: Step = Step::Repeat { node: WORKER_1 };

const HEAR: Step = Step::Deliver {
    from: WORKER_1,
    to: SHARD_1,
};

const SERVE: Step = Step::Serve {
    shard: SHARD_1,
    worker: WORKER_1,
    place: 0,
};

const FAIL: Step = Step::Fail { node: SHARD_1 };

/// The seats of a stage with one worker and one shard, and the stage.
#[derive(Drop)]
struct Table<'a, R, L: Naming> {
    rt: &'a R,
    alloc: Global,
    stage: &'a Stage<MemStore, L>,
}

impl<R: Wait + Abort, L: Naming> Table<'_, R, L> {
    /// The step is made, and is the one of this number.
    fn acts(&self, seat: &mut Seat<L>, number: u64, step: Step) {
        let made = self.stage.act(self.rt, self.alloc, seat, step);
        assert!(self.rt; made == Ok(Receipt { number, step }), "{made:?}");
    }

    /// The seat looks, when it has so many receipts.
    fn looks(&self, seat: &Seat<L>, count: u64) -> Result<Glance, Fail> {
        let glance = self.stage.glance(self.rt, self.alloc, seat);
        let glance = glance.ok().ok_or("a glance")?;
        assert!(self.rt; glance.node() == seat.node() && glance.count() == count);
        Ok(glance)
    }

    /// Why the seat does not look.
    fn why(&self, seat: &Seat<L>) -> Option<GlanceError> {
        self.stage.glance(self.rt, self.alloc, seat).err()
    }
}

/// A proposal is stale once the seat has made a step. What was seen stays as it was, whatever the shard does since.
fn looks_and_serves<R: Wait + Abort, L: Naming>(
    rt: &R,
    alloc: Global,
    world: Game,
    blank: Blank,
) -> Result<(), Fail> {
    let (stage, mut seats) = Stage::<MemStore, L>::open(alloc, world, blank)?;
    let mut shard = seats.pop().ok_or("a seat")?;
    let mut worker = seats.pop().ok_or("a seat")?;
    let game = Table { rt, alloc, stage: &stage };
    game.acts(&mut worker, 1, ISSUE);
    assert!(rt; propose(&game.looks(&shard, 0)?, WORKER_1).is_none());
    game.acts(&mut shard, 2, HEAR);
    let seen = game.looks(&shard, 1)?;
    let proposal = propose(&seen, WORKER_1).ok_or("a proposal")?;
    assert!(rt; proposal.step() == SERVE);
    assert!(rt; propose(&seen, NodeId::Worker(2)).is_none() && propose(&seen, SHARD_1).is_none());
    game.acts(&mut worker, 3, REPEAT);
    game.acts(&mut shard, 4, HEAR);
    let stale = stage.confirm(rt, alloc, &mut shard, proposal);
    assert!(rt; stale == Err(ConfirmError::Stale { now: 2 }), "{stale:?}");
    let again = propose(&game.looks(&shard, 2)?, WORKER_1).ok_or("a proposal")?;
    let early = propose(&seen, WORKER_1).ok_or("a proposal")?;
    let made = stage.confirm(rt, alloc, &mut shard, again);
    assert!(rt; made == Ok(Receipt { number: 5, step: SERVE }), "{made:?}");
    assert!(rt; propose(&game.looks(&shard, 3)?, WORKER_1).is_none());
    // What was seen first was copied by the steps since, and still shows whom it showed.
    assert!(rt; propose(&seen, WORKER_1).is_some());
    let others = stage.confirm(rt, alloc, &mut worker, early);
    assert!(rt; others == Err(ConfirmError::Stale { now: 2 }), "{others:?}");
    assert!(rt; game.why(&worker) == Some(GlanceError::NotShard));
    game.acts(&mut shard, 6, FAIL);
    assert!(rt; game.why(&shard) == Some(GlanceError::NotUp));
    seats.push(worker)?;
    seats.push(shard)?;
    let journal = stage.close(seats).ok().ok_or("a journal")?;
    assert!(rt; journal.steps() == [ISSUE, HEAR, REPEAT, HEAR, SERVE, FAIL].as_slice());
    Ok(())
}

/// A proposal of another shard's glance, as many receipts old as the seat has, is refused as another's step.
fn confirms_for_another<R: Wait + Abort, L: Naming>(
    rt: &R,
    alloc: Global,
    world: Game,
    blank: Blank,
) -> Result<(), Fail> {
    let (stage, mut seats) = Stage::<MemStore, L>::open(alloc, world, blank)?;
    let mut shard = seats.pop().ok_or("a seat")?;
    let mut worker = seats.pop().ok_or("a seat")?;
    let game = Table { rt, alloc, stage: &stage };
    game.acts(&mut worker, 1, ISSUE);
    game.acts(&mut shard, 2, HEAR);
    let proposal = propose(&game.looks(&shard, 1)?, WORKER_1).ok_or("a proposal")?;
    let others = stage.confirm(rt, alloc, &mut worker, proposal);
    assert!(rt; others == Err(ConfirmError::Act(ActError::NotOwner)), "{others:?}");
    assert!(rt; worker.receipts().len() == 1);
    Ok(())
}

fn with_blank(alloc: Global) -> Result<(Game, Blank), Fail> {
    let world = opened(alloc, scene(alloc, PUTS_AND_TAKES)?)?;
    let blank = Blank::new(node_count(&world));
    Ok((world, blank))
}

#[test]
fn stale_proposal(rt: HostRuntime) -> Result<(), Fail> {
    let (world, blank) = with_blank(rt.alloc())?;
    looks_and_serves::<HostRuntime, Brand>(&rt, rt.alloc(), world, blank)
}

#[test]
fn a_proposal_of_another(rt: HostRuntime) -> Result<(), Fail> {
    let (world, blank) = with_blank(rt.alloc())?;
    confirms_for_another::<HostRuntime, Brand>(&rt, rt.alloc(), world, blank)
}
