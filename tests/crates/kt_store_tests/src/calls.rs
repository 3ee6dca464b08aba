//! One call of the store, where its condition holds, and what the plain map makes of it.

use crate::beside::number_of;
use crate::plain::{Plain, Row};
use kt_ckpt::Ckpt;
use kt_store::{CkptStore, StoreError, Verdict};
use kt_tuple::NodeId;
use std::alloc::Global;

/// Whether the node has no tentative checkpoint.
fn is_free<C: CkptStore>(store: &mut C, alloc: Global, node: NodeId) -> Result<bool, StoreError> {
    match store.tentative(alloc, node)? {
        Some(_) => Ok(false),
        None => Ok(true),
    }
}

/// Whether the instance is open.
fn is_open<C: CkptStore>(store: &mut C, instance: u64) -> Result<bool, StoreError> {
    match store.verdict(instance)? {
        Some(Verdict::Open) => Ok(true),
        _ => Ok(false),
    }
}

/// The verdict on the node's tentative checkpoint.
fn verdict_on<C: CkptStore>(
    store: &mut C,
    alloc: Global,
    node: NodeId,
) -> Result<Option<Verdict>, StoreError> {
    match store.tentative(alloc, node)? {
        Some(tentative) => store.verdict(tentative.instance),
        None => Ok(None),
    }
}

pub(crate) fn begin_check<C: CkptStore>(
    store: &mut C,
    alloc: Global,
    plain: &mut Plain,
    place: usize,
    ckpt: &Ckpt,
) -> Result<(), StoreError> {
    let instance = plain.next_instance();
    let Some(row) = plain.rows.get_mut(place) else {
        return Ok(());
    };
    if is_free(store, alloc, row.node)? {
        store.begin_check(row.node, ckpt)?;
        row.tentative = Some((instance, number_of(ckpt.line_len(), ckpt.sent())));
        let node = row.node;
        plain.post(node)?;
    }
    Ok(())
}

pub(crate) fn put_tentative<C: CkptStore>(
    store: &mut C,
    alloc: Global,
    row: &mut Row,
    instance: u64,
    ckpt: &Ckpt,
) -> Result<(), StoreError> {
    if is_free(store, alloc, row.node)? {
        store.put_tentative(row.node, instance, ckpt)?;
        row.tentative = Some((instance, number_of(ckpt.line_len(), ckpt.sent())));
    }
    Ok(())
}

pub(crate) fn settle<C: CkptStore>(
    store: &mut C,
    alloc: Global,
    row: &mut Row,
) -> Result<(), StoreError> {
    match verdict_on(store, alloc, row.node)? {
        Some(Verdict::Yes) => {
            store.promote(row.node)?;
            if let Some((_, checkpoint)) = row.tentative {
                row.permanent = Some(checkpoint);
            }
            row.tentative = None;
        }
        Some(Verdict::No) => {
            store.discard(row.node)?;
            row.tentative = None;
        }
        _ => {}
    }
    Ok(())
}

pub(crate) fn begin_restart<C: CkptStore>(
    store: &mut C,
    plain: &mut Plain,
    place: usize,
) -> Result<(), StoreError> {
    if let Some(row) = plain.rows.get_mut(place) {
        store.begin_restart(row.node)?;
        row.incarnation = row.incarnation.wrapping_add(1);
        let node = row.node;
        plain.post(node)?;
    }
    Ok(())
}

pub(crate) fn bump<C: CkptStore>(store: &mut C, row: &mut Row) -> Result<(), StoreError> {
    store.bump(row.node)?;
    row.incarnation = row.incarnation.wrapping_add(1);
    Ok(())
}

pub(crate) fn decide<C: CkptStore>(
    store: &mut C,
    plain: &mut Plain,
    instance: u64,
    yes: bool,
) -> Result<(), StoreError> {
    if is_open(store, instance)? {
        store.decide(instance, yes)?;
        plain.decide(instance, yes);
    }
    Ok(())
}
