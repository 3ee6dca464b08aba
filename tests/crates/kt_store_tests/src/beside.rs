//! Calls that look random and are the same in each run, and what the store reads after them.

use crate::calls;
use crate::plain::{Plain, Row};
use kt_ckpt::{Ckpt, CkptHeader};
use kt_draws::Draws;
use kt_link::Label;
use kt_store::{CkptStore, StoreError};
use kt_tuple::NodeId;
use std::alloc::Global;

/// How many calls are made, and how much of what the store reads is compared.
#[derive(Clone, Copy, Debug)]
pub struct Walk {
    pub calls: u64,
    /// After how many calls each what is read is compared: all nodes, and the newest instances.
    pub between: u64,
    /// How many of the newest.
    pub newest: u64,
    /// After how many calls each all instances are.
    pub between_all: u64,
    /// What stands for an instance before the first. It is never begun.
    pub never: u64,
}

/// How a store parts from the map.
#[derive(Clone, Copy, Debug, PartialEq, Eq)]
pub enum Apart {
    /// It refused a call.
    Refused(StoreError),
    /// It reads something else, after so many calls.
    After(u64),
    /// The bytes of a checkpoint are refused.
    Bytes,
}

impl From<StoreError> for Apart {
    fn from(refusal: StoreError) -> Apart {
        Apart::Refused(refusal)
    }
}

const NODES: [NodeId; 6] = [
    NodeId::Worker(2),
    NodeId::Shard(1),
    NodeId::Worker(1),
    NodeId::Shard(8),
    NodeId::Worker(16),
    NodeId::Shard(2),
];

/// The checkpoint of the first shard with no acts, an empty bag and one neighbour.
pub(crate) const EMPTY: [u8; 54] = [
    0x4b, 0x54, 0x43, 0x50, 2, // magic, version
    2, 1, // the first shard
    0, 0, 0, 0, 0, 0, 0, 0, // log length
    1, // one neighbour
    0, 0, 0, 0, 0, 0, 0, 0, 0, 0, 0, 0, 0, 0, 0, 0, // sent
    0, 0, 0, 0, 0, 0, 0, 0, 0, 0, 0, 0, 0, 0, 0, 0, // received
    0, 0, 0, 0, // no tuple
    0, // nobody waits
    0, // no answer is kept
];

/// An act of the shard: it heard the first request of the first worker, `out (1)`.
const HEARD: [u8; 32] = [
    3, 1, // it heard of the first worker
    1, 1, 1, 0, 0, 0, 0, 0, 0, 0, 1, // the first act of the first worker
    0, 0, 0, 0, 0, 0, 0, 1, // request 1
    1, 1, 1, 0, 0, 0, 0, 0, 0, 0, 1, // out (1)
];

/// One with up to three acts, and with a label sent last that has some count below 2^16.
fn checkpoint(alloc: Global, draws: &mut Draws) -> Result<Ckpt, Apart> {
    let mut bytes = Vec::from_slice(alloc, &EMPTY).map_err(|_| Apart::Bytes)?;
    let acts = draws.below(4);
    bytes[14] = acts as u8;
    bytes[30] = draws.below(256) as u8;
    bytes[31] = draws.below(256) as u8;
    for _ in 0..acts {
        bytes.extend_from_slice(&HEARD).map_err(|_| Apart::Bytes)?;
    }
    Ckpt::decode(alloc, &bytes).map_err(|_| Apart::Bytes)
}

/// The number by which the map knows such a checkpoint: of the count of the label sent last, and of the log's length.
pub(crate) fn number_of(line_len: u64, sent: &[Label]) -> u64 {
    match sent.first() {
        Some(label) => label.count.wrapping_mul(4).wrapping_add(line_len),
        None => line_len,
    }
}

fn number_in(ckpt: &Ckpt) -> u64 {
    number_of(ckpt.line_len(), ckpt.sent())
}

/// One call of some kind for some node or instance.
fn call<C: CkptStore>(
    alloc: Global,
    draws: &mut Draws,
    store: &mut C,
    plain: &mut Plain,
    ckpt: &Ckpt,
    never: u64,
) -> Result<(), StoreError> {
    let kind = draws.below(8);
    let place = draws.below(6) as usize;
    let next = plain.next_instance();
    // Mostly one of the newest: the older ones have their verdict.
    let instance = next.checked_sub(draws.below(6)).unwrap_or(never);
    match kind {
        0 => return calls::begin_check(store, alloc, plain, place, ckpt),
        1 => return calls::begin_restart(store, plain, place),
        2 | 3 => return calls::decide(store, plain, instance, draws.below(2) == 0),
        _ => {}
    }
    let Some(row) = plain.rows.get_mut(place) else {
        return Ok(());
    };
    match kind {
        4 => calls::put_tentative(store, alloc, row, instance, ckpt),
        5 => calls::bump(store, row),
        _ => calls::settle(store, alloc, row),
    }
}

/// Whether the store reads of the node what the map has.
fn agrees_on_node<C: CkptStore>(
    alloc: Global,
    store: &mut C,
    row: &Row,
    open: Option<u64>,
) -> Result<bool, StoreError> {
    let permanent = store.permanent(alloc, row.node)?;
    let tentative = store.tentative(alloc, row.node)?;
    Ok(
        store.incarnation(row.node)? == row.incarnation
            && permanent.map(|c| number_in(&c)) == row.permanent
            && tentative.map(|t| (t.instance, number_in(&t.checkpoint))) == row.tentative
            && store.open_of(row.node)? == open,
    )
}

/// Whether this is the header of such a checkpoint, which the map knows by this number.
fn is_marked(header: &CkptHeader, number: u64) -> bool {
    header.node() == NodeId::Shard(1)
        && number_of(header.line_len(), header.sent()) == number
        && header.sent().len() == 1
        && header.received().len() == 1
}

/// Whether the store reads of the node's checkpoints without their states what the map has.
fn agrees_on_header<C: CkptStore>(
    alloc: Global,
    store: &mut C,
    row: &Row,
) -> Result<bool, StoreError> {
    let permanent = match (store.permanent_header(alloc, row.node)?, row.permanent) {
        (Some(header), Some(number)) => is_marked(&header, number),
        (header, number) => header.is_none() && number.is_none(),
    };
    let tentative = match (store.tentative_header(alloc, row.node)?, row.tentative) {
        (Some(read), Some((instance, number))) => {
            read.instance == instance && is_marked(&read.header, number)
        }
        (read, stored) => read.is_none() && stored.is_none(),
    };
    Ok(permanent && tentative)
}

/// Whether it reads of the instance what the map has.
fn agrees_on_instance<C: CkptStore>(
    store: &mut C,
    plain: &Plain,
    instance: u64,
) -> Result<bool, StoreError> {
    let instance_row = plain.instance_row(instance);
    Ok(
        store.verdict(instance)? == instance_row.map(|p| p.1)
            && store.initiator(instance)? == instance_row.map(|p| p.0),
    )
}

/// Whether it does of all nodes, of these instances, and of what is next.
fn agrees<C: CkptStore>(
    alloc: Global,
    store: &mut C,
    plain: &Plain,
    first: u64,
    last: u64,
) -> Result<bool, StoreError> {
    for row in &plain.rows {
        let open = plain.open_of(row.node);
        if !agrees_on_node(alloc, store, row, open)? || !agrees_on_header(alloc, store, row)? {
            return Ok(false);
        }
    }
    for instance in first..last {
        if !agrees_on_instance(store, plain, instance)? {
            return Ok(false);
        }
    }
    Ok(store.next_instance()? == plain.next_instance() && store.faults() == 0 && store.wants() == 0)
}

/// Makes the calls of a fresh store and of the map. It answers the number that the next instance gets.
pub fn goes_beside<C: CkptStore>(alloc: Global, store: &mut C, walk: Walk) -> Result<u64, Apart> {
    let mut draws = Draws(13);
    let mut plain = Plain::new(alloc, &NODES).map_err(|_| StoreError::Memory)?;
    if !store.is_fresh()? {
        return Err(Apart::After(0));
    }
    for n in 1..=walk.calls {
        let ckpt = checkpoint(alloc, &mut draws)?;
        call(alloc, &mut draws, store, &mut plain, &ckpt, walk.never)?;
        if n % walk.between != 0 {
            continue;
        }
        let next = plain.next_instance();
        let first = if n % walk.between_all == 0 {
            0
        } else {
            next.saturating_sub(walk.newest)
        };
        if !agrees(alloc, store, &plain, first, next.wrapping_add(2))? {
            return Err(Apart::After(n));
        }
    }
    if store.is_fresh()? {
        return Err(Apart::After(walk.calls));
    }
    Ok(plain.next_instance())
}
