//! The cut of the permanent checkpoints, worked out from the notes and the store.

use crate::scene_size::SceneSize;
use crate::finding::{Finding, holds};
use crate::numbers::Numbers;
use crate::runs::{are_same, space_after};
use crate::slowly::{Pasts, front_of, line_after, services};
use kt_history::Note;
use kt_store::{MemStore, Verdict};
use kt_tuple::{NodeId, Tuple};
use std::alloc::{AllocError, Global};

/// How many acts the node's permanent checkpoint holds, a tentative one counting from its Yes on.
fn acts_held(alloc: Global, store: &MemStore, node: NodeId) -> Result<u64, AllocError> {
    let Some(row) = store.rows().iter().find(|row| row.node == node) else {
        return Ok(0);
    };
    if let Some(tentative) = &row.tentative {
        let instance = store.board().iter().find(|it| it.instance == tentative.instance);
        if matches!(instance, Some(it) if it.verdict == Verdict::Yes) {
            return Ok(tentative.checkpoint.header(alloc)?.line_len());
        }
    }
    Ok(match &row.permanent {
        Some(permanent) => permanent.header(alloc)?.line_len(),
        None => 0,
    })
}

/// Those of the node's acts that its permanent checkpoint holds.
fn front_held(
    alloc: Global,
    store: &MemStore,
    notes: &[Note],
    node: NodeId,
) -> Result<Numbers, Finding> {
    let held = acts_held(alloc, store, node)?;
    let line = line_after(alloc, notes, node)?;
    holds(held <= line.len() as u64, "a checkpoint within its line")?;
    Ok(front_of(&line, held as usize))
}

/// The acts that the permanent checkpoints hold.
fn cut_of(
    alloc: Global,
    store: &MemStore,
    notes: &[Note],
    size: SceneSize,
) -> Result<Numbers, Finding> {
    let mut cut = Numbers::NONE;
    for place in 0..size.count() {
        cut = cut.and(front_held(alloc, store, notes, size.node(place))?);
    }
    Ok(cut)
}

/// The services in the cut, in the order made.
fn part(alloc: Global, notes: &[Note], cut: Numbers) -> Result<Vec<usize>, AllocError> {
    let mut numbers = services(alloc, notes)?;
    numbers.retain(|number| cut.has(*number));
    Ok(numbers)
}

/// The cut of the permanent checkpoints is causally closed, its services are one run of a space, and the permanent
/// tuples are just that run's.
pub fn agrees(
    alloc: Global,
    store: &MemStore,
    tuples: &[Tuple],
    notes: &[Note],
    size: SceneSize,
    pasts: &Pasts,
) -> Result<(), Finding> {
    let cut = cut_of(alloc, store, notes, size)?;
    holds(pasts.are_closed(cut), "the permanent cut is closed")?;
    let services = part(alloc, notes, cut)?;
    let space = space_after(alloc, notes, &services)?;
    holds(are_same(tuples, &space), "the permanent space")
}
