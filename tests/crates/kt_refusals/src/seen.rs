//! All that a world and a store show, as text, so that two of them can be compared.

use crate::counts::Counts;
use kt_core::World;
use kt_store::CkptStore;
use kt_tuple::{ALL_NODES, NodeId};
use std::alloc::Global;
use std::test::Fail;

fn add(text: &mut Vec<u8>, more: &str) -> Result<(), Fail> {
    text.extend_from_slice(more.as_bytes())?;
    Ok(())
}

/// What a node has: mode, count of steps, ballot, kept messages, and what it is beside.
fn add_node<S: CkptStore>(
    alloc: Global,
    text: &mut Vec<u8>,
    world: &World<S>,
    node: NodeId,
) -> Result<(), Fail> {
    let (mode, steps, ballot) = (world.mode(node), world.steps_of(node), world.ballot(node));
    add(
        text,
        &format!(in alloc; "{node:?} {mode:?} {steps} {ballot:?}\n")?,
    )?;
    for place in 0..world.kept_len(node) {
        let kept = world.kept_at(node, place);
        add(text, &format!(in alloc; "kept {kept:?}\n")?)?;
    }
    let worker = world.worker(node);
    add(text, &format!(in alloc; "{worker:?}\n")?)?;
    if let Some(shard) = world.shard(node) {
        let (tuples, sessions) = (shard.bag().to_vec(alloc)?, shard.sessions());
        add(text, &format!(in alloc; "{tuples:?} {sessions:?}\n")?)?;
    }
    Ok(())
}

fn add_link<S: CkptStore>(
    alloc: Global,
    text: &mut Vec<u8>,
    world: &World<S>,
    from: NodeId,
    to: NodeId,
) -> Result<(), Fail> {
    for place in 0..world.link_len(from, to) {
        let message = world.link_at(from, to, place);
        add(text, &format!(in alloc; "{from:?} {to:?} {message:?}\n")?)?;
    }
    Ok(())
}

/// All that a world shows: its history, each node and each link.
pub(crate) fn seen<S: CkptStore>(alloc: Global, world: &World<S>) -> Result<Vec<u8>, Fail> {
    let mut text = Vec::new(alloc);
    let notes = world.history().notes();
    add(&mut text, &format!(in alloc; "{notes:?}\n")?)?;
    for node in ALL_NODES {
        if world.mode(node).is_some() {
            add_node(alloc, &mut text, world, node)?;
        }
        for to in ALL_NODES {
            add_link(alloc, &mut text, world, node, to)?;
        }
    }
    Ok(text)
}

/// What a world shows without any memory: sums over all nodes, links, notes and bags, one for each reader, and what
/// its store counts.
pub(crate) fn read<S: CkptStore>(world: &World<S>) -> [usize; 14] {
    let history = world.history();
    let mut sums = [0usize; 14];
    let mut number = 0u64;
    for _ in history.notes() {
        number = number.saturating_add(1);
        sums[0] = sums[0].saturating_add(usize::from(history.survives(number)));
        sums[1] = sums[1].saturating_add(usize::from(history.is_act(number)));
        sums[2] = sums[2].saturating_add(usize::from(history.act(number).is_some()));
    }
    for node in ALL_NODES {
        sums[3] = sums[3].saturating_add(usize::from(world.mode(node).is_some()));
        sums[4] = sums[4].saturating_add(world.steps_of(node) as usize);
        sums[5] = sums[5].saturating_add(usize::from(world.ballot(node).is_some()));
        sums[6] = sums[6].saturating_add(world.kept_len(node));
        sums[7] = sums[7].saturating_add(usize::from(world.kept_at(node, 0).is_some()));
        sums[8] = sums[8].saturating_add(history.line(node).len());
        for to in ALL_NODES {
            let is_there = world.link_at(node, to, 0).is_some();
            sums[9] = sums[9].saturating_add(world.link_len(node, to));
            sums[10] = sums[10].saturating_add(usize::from(is_there));
        }
    }
    for bag in world.bags().into_iter().flatten() {
        sums[11] = sums[11].saturating_add(bag.len());
    }
    sums[12] = world.faults() as usize;
    sums[13] = world.wants() as usize;
    sums
}

fn add_row<S: CkptStore>(
    alloc: Global,
    text: &mut Vec<u8>,
    store: &mut S,
    node: NodeId,
) -> Result<(), Fail> {
    let (incarnation, open) = (store.incarnation(node)?, store.open_of(node)?);
    add(
        text,
        &format!(in alloc; "{node:?} {incarnation} {open:?} ")?,
    )?;
    if let Some(permanent) = store.permanent(alloc, node)? {
        let bytes = permanent.encode(alloc)?;
        add(text, &format!(in alloc; "permanent {bytes:?} ")?)?;
    }
    if let Some(tentative) = store.tentative(alloc, node)? {
        let (instance, bytes) = (tentative.instance, tentative.checkpoint.encode(alloc)?);
        add(text, &format!(in alloc; "tentative {instance} {bytes:?}")?)?;
    }
    add(text, "\n")
}

/// All that a store holds: each node's row with the bytes of its checkpoints, and the board.
pub(crate) fn stored<S: CkptStore>(alloc: Global, store: &mut S) -> Result<Vec<u8>, Fail> {
    let mut text = Vec::new(alloc);
    for node in ALL_NODES {
        add_row(alloc, &mut text, store, node)?;
    }
    for instance in 1..store.next_instance()? {
        let (verdict, initiator) = (store.verdict(instance)?, store.initiator(instance)?);
        add(
            &mut text,
            &format!(in alloc; "{instance} {initiator:?} {verdict:?}\n")?,
        )?;
    }
    Ok(text)
}

/// Whether this is just what the world shows.
pub(crate) fn shows<S: CkptStore>(
    alloc: Global,
    world: &World<S>,
    expected: &[u8],
) -> Result<bool, Fail> {
    let text = seen(alloc, world)?;
    Ok(text.as_slice() == expected)
}

/// Whether this is just what the store holds.
pub(crate) fn has_stored<S: CkptStore>(
    alloc: Global,
    store: &mut S,
    expected: &[u8],
) -> Result<bool, Fail> {
    let text = stored(alloc, store)?;
    Ok(text.as_slice() == expected)
}

/// Whether this is just what the world's store holds. It counts what the world says that it counts.
pub(crate) fn leaves<S: CkptStore + Drop>(
    alloc: Global,
    world: World<S>,
    expected: &[u8],
) -> Result<bool, Fail> {
    let counts = Counts::of_world(&world);
    let mut store = world.into_store();
    let is_counted = Counts::of(&store) == counts;
    Ok(is_counted && has_stored(alloc, &mut store, expected)?)
}
