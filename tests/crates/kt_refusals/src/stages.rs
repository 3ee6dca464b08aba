//! Stages whose seats act, look and confirm, with each growth refused in turn.

ghost use Rattle.std.specs.Prelude.{◌≡◌, length};
ghost use Rattle.kt_stage.specs.Order.{nodes_of};

use crate::counts::Counts;
use crate::fresh::Fresh;
use crate::refusing::{MOST, Turns, asked_for_none, never, refuse, refuse_all, was_spared};
use crate::seen::shows;
use crate::stepping::{Moment, is_of_memory};
use kt_core::{Step, World};
use kt_stage::{
    ActError, ConfirmError, GlanceError, Naming, Proposal, Receipt, Seat, Stage, node_count,
    propose,
};
use kt_store::CkptStore;
use kt_tuple::NodeId;
use std::alloc::Global;
use std::marker::Brand;
use std::sync::Wait;
use std::sync::ledger::Blank;
use std::test::Fail;

/// By which call the step is made whose growths are refused.
#[derive(Clone, Copy, Debug, PartialEq, Eq)]
pub(crate) enum Way {
    /// The seat acts.
    Act,
    /// The seat looks at its shard, and then acts with ample memory.
    Glance,
    /// The seat confirms what was proposed.
    Confirm,
}

/// A stage and its seats, and what the store has to count at the end.
#[derive(Drop)]
struct Table<S: CkptStore, L: Naming> {
    stage: Stage<S, L>,
    seats: Vec<Seat<L>>,
    counts: Counts,
}

fn place_of<L: Naming>(seats: &[Seat<L>], node: NodeId) -> usize {
    let mut place = 0usize;
    for seat in seats {
        if seat.node() == node {
            return place;
        }
        place = place.saturating_add(1);
    }
    place
}

fn seat_of<L: Naming>(seats: &mut [Seat<L>], node: NodeId) -> Result<&mut Seat<L>, Fail> {
    let place = place_of(seats, node);
    Ok(seats.get_mut(place).ok_or("a seat")?)
}

impl<S: CkptStore, L: Naming> Table<S, L> {
    fn acts(&mut self, waits: &impl Wait, alloc: Global, step: Step) -> Result<(), Fail> {
        let seat = seat_of(&mut self.seats, step.owner())?;
        self.stage.act(waits, alloc, seat, step)?;
        Ok(())
    }

    /// What the seat proposes with every growth refused, by a glance for which there is memory.
    fn proposed(
        &mut self,
        rt: &HostRuntime,
        waits: &impl Wait,
        alloc: Global,
        step: Step,
        turns: &Turns,
    ) -> Result<Proposal, Fail> {
        let seat = seat_of(&mut self.seats, step.owner())?;
        let glance = self.stage.glance(waits, alloc, seat)?;
        refuse_all(alloc)?;
        let proposal = propose(&glance, served(step));
        turns.hold(rt, asked_for_none(alloc)?, "a proposal has a growth")?;
        let proposal = proposal.ok_or("a proposal")?;
        turns.hold(rt, proposal.step() == step, "another proposal")?;
        Ok(proposal)
    }

    /// Makes the step, by confirming the proposal where there is one, with the growth of this number refused. Says
    /// whether there was none such. Where it is refused, the seat is as it was, and makes the step with memory.
    fn made_refused(
        &mut self,
        rt: &HostRuntime,
        waits: &impl Wait,
        alloc: Global,
        step: Step,
        proposal: Option<Proposal>,
        number: usize,
        turns: &mut Turns,
    ) -> Result<bool, Fail> {
        let seat = seat_of(&mut self.seats, step.owner())?;
        let count = seat.receipts().len();
        refuse(alloc, number)?;
        let made = match proposal {
            None => self
                .stage
                .act(waits, alloc, seat, step)
                .map_err(ConfirmError::Act),
            Some(proposal) => self.stage.confirm(waits, alloc, seat, proposal),
        };
        let is_spared = was_spared(alloc, number)?;
        turns.hold(rt, is_right(step, made), "another answer")?;
        if made.is_err() {
            turns.hold(rt, seat.receipts().len() == count, "the seat")?;
            self.counts = counts_after(self.counts, made);
            self.stage.act(waits, alloc, seat, step)?;
        } else if !is_spared {
            turns.bear();
        }
        Ok(is_spared)
    }

    /// The seat looks with the growth of this number refused, and then with memory. Says whether there was none such.
    fn glance_refused(
        &mut self,
        rt: &HostRuntime,
        waits: &impl Wait,
        alloc: Global,
        step: Step,
        number: usize,
        turns: &mut Turns,
    ) -> Result<bool, Fail> {
        let seat = seat_of(&mut self.seats, step.owner())?;
        refuse(alloc, number)?;
        let looked = self.stage.glance(waits, alloc, seat).err();
        let is_spared = was_spared(alloc, number)?;
        match looked {
            Some(cause) => {
                let is_memory = cause == GlanceError::OutOfMemory;
                turns.hold(rt, is_memory, "another refusal")?;
            }
            None if is_spared => {}
            None => turns.bear(),
        }
        Ok(is_spared)
    }

    /// Makes the step this way with the growth of this number refused, and says whether there was none such.
    fn goes(
        &mut self,
        rt: &HostRuntime,
        waits: &impl Wait,
        alloc: Global,
        step: Step,
        way: Way,
        number: usize,
        turns: &mut Turns,
    ) -> Result<bool, Fail> {
        match way {
            Way::Act => self.made_refused(rt, waits, alloc, step, None, number, turns),
            Way::Glance => {
                let is_spared = self.glance_refused(rt, waits, alloc, step, number, turns)?;
                self.acts(waits, alloc, step)?;
                Ok(is_spared)
            }
            Way::Confirm => {
                let proposal = self.proposed(rt, waits, alloc, step, turns)?;
                self.made_refused(rt, waits, alloc, step, Some(proposal), number, turns)
            }
        }
    }
}

/// Whether the step was made, or refused for memory.
fn is_right(step: Step, made: Result<Receipt, ConfirmError>) -> bool {
    match made {
        Ok(receipt) => receipt.step == step,
        Err(ConfirmError::Act(ActError::Step(error))) => is_of_memory(step, error),
        Err(ConfirmError::Act(ActError::NotOwner) | ConfirmError::Stale { .. }) => false,
    }
}

/// What the store counts where a seat's step came to this.
fn counts_after(counts: Counts, made: Result<Receipt, ConfirmError>) -> Counts {
    match made {
        Err(ConfirmError::Act(ActError::Step(error))) => counts.after_step(Err(error)),
        _ => counts,
    }
}

/// Whom the step serves; its owner, where it serves nobody.
fn served(step: Step) -> NodeId {
    match step {
        Step::Serve { worker, .. } => worker,
        _ => step.owner(),
    }
}

/// Whether the way leads to the step: only the first match is proposed.
pub(crate) fn leads_to(way: Way, step: Step) -> bool {
    way == Way::Act || matches!(step, Step::Serve { place: 0, .. })
}

/// A stage of the world, on which the steps before the moment's were made.
fn staged<W: Wait, S: CkptStore + Drop, L: Naming>(
    waits: &W,
    alloc: Global,
    world: World<S>,
    blank: Blank,
    moment: Moment<'_>,
) -> Result<Table<S, L>, Fail>
    requires name { blank.name ≡ L.name }
    requires parts { blank.parts ≡ L.parts }
    requires one_each { blank.parts ≡ length (nodes_of world.state.scene) }
    requires opening { L.opening ≡ world }
{
    let counts = Counts::of_world(&world);
    let (stage, seats) = Stage::<S, L>::open(alloc, world, blank)?;
    let mut table = Table {
        stage,
        seats,
        counts,
    };
    for step in moment.before {
        table.acts(waits, alloc, *step)?;
    }
    Ok(table)
}

/// Closes the stage with every growth refused. Its journal has the steps up to the moment's, its world shows this, and
/// the store has counted its refusals and no more.
fn closes<S: CkptStore + Drop, L: Naming>(
    alloc: Global,
    table: Table<S, L>,
    moment: Moment<'_>,
    shown: &[u8],
) -> Result<bool, Fail> {
    let Table {
        stage,
        seats,
        counts,
    } = table;
    refuse_all(alloc)?;
    let closed = stage.close(seats);
    let is_without = asked_for_none(alloc)?;
    let journal = closed.ok().ok_or("a journal")?;
    let steps = journal.steps();
    let (before, last) = steps.split_at(moment.before.len().min(steps.len()));
    let is_same = before == moment.before && last == [moment.step].as_slice();
    let is_counted = Counts::of_world(journal.world()) == counts;
    Ok(is_without && is_same && is_counted && shows(alloc, journal.world(), shown)?)
}

/// The steps up to the moment's are made on a stage, the last this way, with the growth of this number refused. The
/// stage is closed then. Says whether there was no such growth.
fn on_stage<W: Wait, S: CkptStore + Drop, L: Naming>(
    rt: &HostRuntime,
    waits: &W,
    alloc: Global,
    world: World<S>,
    blank: Blank,
    moment: Moment<'_>,
    way: Way,
    number: usize,
    turns: &mut Turns,
    shown: &[u8],
) -> Result<bool, Fail>
    requires name { blank.name ≡ L.name }
    requires parts { blank.parts ≡ L.parts }
    requires one_each { blank.parts ≡ length (nodes_of world.state.scene) }
    requires opening { L.opening ≡ world }
{
    let mut table = staged::<W, S, L>(waits, alloc, world, blank, moment)?;
    let is_spared = table.goes(rt, waits, alloc, moment.step, way, number, turns)?;
    let is_right = closes(alloc, table, moment, shown)?;
    turns.hold(rt, is_right, "the journal")?;
    Ok(is_spared)
}

impl Moment<'_> {
    /// Makes the step on a stage of its own this way, with the growth of this number refused. Says whether there was no
    /// such growth.
    fn acted_once<W: Wait, S: CkptStore + Fresh + Drop>(
        &self,
        rt: &HostRuntime,
        waits: &W,
        alloc: Global,
        way: Way,
        number: usize,
        turns: &mut Turns,
        shown: &[u8],
    ) -> Result<bool, Fail> {
        let world = self.opened::<S>(alloc)?;
        let blank = Blank::new(node_count(&world));
        on_stage::<W, S, Brand>(
            rt, waits, alloc, world, blank, *self, way, number, turns, shown,
        )
    }

    /// Makes the step on a stage this way with each growth refused in turn. The journal's world is that of the steps.
    pub(crate) fn acted_in_turn<W: Wait, S: CkptStore + Fresh + Drop>(
        &self,
        rt: &HostRuntime,
        waits: &W,
        alloc: Global,
        way: Way,
    ) -> Result<(), Fail> {
        let after = self.shown_after::<S>(alloc)?;
        let mut turns = match way {
            Way::Act => Turns::new("act"),
            Way::Glance => Turns::new("glance"),
            Way::Confirm => Turns::new("confirm"),
        };
        for number in 1..MOST {
            if self.acted_once::<W, S>(rt, waits, alloc, way, number, &mut turns, &after)? {
                return turns.end(rt, number);
            }
        }
        Err(never())
    }
}
