//! What must hold of a world after each step, worked out from its notes, modes and bags.

use crate::asking::follow_scripts;
use crate::finding::{Finding, holds};
use crate::numbers::Numbers;
use crate::runs::{add_all, are_same, space_after};
use crate::scenes::Game;
use crate::slowly::{Pasts, acts_survive, are_lines, note_at, standing, survive, surviving};
use kt_history::{History, Note, space_of};
use kt_node::Mode;
use kt_tuple::{ALL_NODES, MAX_WORKERS, NodeId, Tuple};
use std::alloc::{AllocError, Global};

/// The world's survivors are those of the definitions, one run of a space, in the order of their scripts; and a
/// steady world is whole. How many services survive.
pub fn agrees(alloc: Global, world: &Game, pasts: &Pasts) -> Result<usize, Finding> {
    let notes = world.history().notes();
    let stands = standing(alloc, notes)?;
    are_lines(alloc, world.history())?;
    let acts = acts_survive(world.history(), pasts, stands);
    holds(acts, "the acts with nothing lost in their past")?;
    let services = surviving(alloc, notes, pasts, stands)?;
    survive(alloc, world.history(), &services)?;
    holds(are_in_order(notes, &services), "the order of the scripts")?;
    follow_scripts(alloc, world.scene().scripts(), notes, &services)?;
    let space = space_after(alloc, notes, &services)?;
    leads_to(alloc, world.history(), &space)?;
    if is_steady(world)? {
        holds(pasts.are_closed(stands), "what stands survives")?;
        holds_tuples(alloc, world, &space)?;
    }
    Ok(services.len())
}

/// Of each worker the surviving requests are its first ones, in their order.
fn are_in_order(notes: &[Note], services: &[usize]) -> bool {
    let mut counts = [0u64; MAX_WORKERS as usize + 1];
    services
        .iter()
        .all(|number| is_next(&mut counts, note_at(notes, *number)))
}

fn is_next(counts: &mut [u64], note: Option<&Note>) -> bool {
    let Some(Note::Act(act)) = note else {
        return false;
    };
    match counts.get_mut(usize::from(act.worker)) {
        Some(count) => {
            *count = count.saturating_add(1);
            *count == act.number
        }
        None => false,
    }
}

/// The survivors lead to these tuples.
fn leads_to(alloc: Global, history: &History, space: &[Tuple]) -> Result<(), Finding> {
    let survivors = history.survivors(alloc)?;
    let bag = space_of(alloc, &survivors)?;
    let mut tuples = Vec::new(alloc);
    add_all(alloc, &mut tuples, &bag)?;
    holds(are_same(&tuples, space), "the survivors' space")
}

/// Whether no node is down or rolls back.
fn is_steady(world: &Game) -> Result<bool, Finding> {
    let mut is_steady = true;
    for node in ALL_NODES {
        is_steady = is_steady && works(world.mode(node));
    }
    holds(world.is_steady() == is_steady, "whether it is steady")?;
    Ok(is_steady)
}

fn works(mode: Option<Mode>) -> bool {
    match mode {
        None | Some(Mode::Up | Mode::Held) => true,
        Some(Mode::Rolling | Mode::Down) => false,
    }
}

/// The shards of the steady world together hold these tuples.
fn holds_tuples(alloc: Global, world: &Game, space: &[Tuple]) -> Result<(), Finding> {
    let mut tuples = Vec::new(alloc);
    for bag in world.bags() {
        if let Some(bag) = bag {
            add_all(alloc, &mut tuples, bag)?;
        }
    }
    holds(are_same(&tuples, space), "the bags")
}

/// There is a bag of each shard that is not down.
pub(crate) fn lends_bags(world: &Game) -> Result<(), Finding> {
    let mut number = 0u8;
    for bag in world.bags() {
        number = number.saturating_add(1);
        let is_there = match world.mode(NodeId::Shard(number)) {
            None | Some(Mode::Down) => false,
            Some(_) => true,
        };
        holds(bag.is_some() == is_there, "who lends a bag")?;
    }
    Ok(())
}

/// Whether some act is lost.
pub(crate) fn has_lost(alloc: Global, notes: &[Note]) -> Result<bool, AllocError> {
    let stands: Numbers = standing(alloc, notes)?;
    Ok(
        notes.iter().enumerate().any(|(place, note)| match note {
            Note::Act(_) => !stands.has(place.saturating_add(1)),
            Note::Cut { .. } => false,
        }),
    )
}
