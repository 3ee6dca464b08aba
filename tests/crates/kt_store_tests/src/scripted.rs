//! A fixed list of calls that has each call of a store that can fail, and what a call answers, to be compared.

use kt_ckpt::Ckpt;
use kt_store::{CkptStore, StoreError, Verdict};
use kt_tuple::NodeId;
use std::alloc::Global;

/// A call of a store that can fail.
#[derive(Clone, Copy, Debug, PartialEq, Eq)]
pub(crate) enum Call {
    Incarnation(NodeId),
    Permanent(NodeId),
    Tentative(NodeId),
    PermanentHeader(NodeId),
    TentativeHeader(NodeId),
    Verdict(u64),
    Initiator(u64),
    OpenOf(NodeId),
    NextInstance,
    IsFresh,
    BeginCheck(NodeId),
    PutTentative(NodeId, u64),
    Promote(NodeId),
    Discard(NodeId),
    BeginRestart(NodeId),
    Bump(NodeId),
    Decide(u64, bool),
}

/// What a call answers. Of a checkpoint it has the length of its log, and of a tentative one its instance too.
#[derive(Clone, Copy, Debug, PartialEq, Eq)]
pub(crate) enum Said {
    Done,
    Is(bool),
    Number(u64),
    Checkpoint(Option<u64>),
    Tentative(Option<(u64, u64)>),
    Verdict(Option<Verdict>),
    Node(Option<NodeId>),
    Instance(Option<u64>),
}

const WORKER: NodeId = NodeId::Worker(1);

const SHARD: NodeId = NodeId::Shard(1);

/// Each stands where its condition holds, if those before it were made.
pub(crate) const CALLS: [Call; 22] = [
    Call::IsFresh,
    Call::NextInstance,
    Call::Incarnation(WORKER),
    Call::BeginCheck(WORKER),
    Call::Tentative(WORKER),
    Call::TentativeHeader(WORKER),
    Call::OpenOf(WORKER),
    Call::PutTentative(SHARD, 1),
    Call::Decide(1, true),
    Call::Verdict(1),
    Call::Promote(WORKER),
    Call::Permanent(WORKER),
    Call::PermanentHeader(WORKER),
    Call::Promote(SHARD),
    Call::BeginRestart(SHARD),
    Call::Initiator(2),
    Call::Decide(2, false),
    Call::PutTentative(WORKER, 2),
    Call::Discard(WORKER),
    Call::Bump(WORKER),
    Call::Incarnation(WORKER),
    Call::IsFresh,
];

/// Makes the call, with this checkpoint where it stores one.
pub(crate) fn make<C: CkptStore>(
    store: &mut C,
    alloc: Global,
    call: Call,
    ckpt: &Ckpt,
) -> Result<Said, StoreError> {
    Ok(match call {
        Call::Incarnation(node) => Said::Number(store.incarnation(node)?),
        Call::Permanent(node) => {
            Said::Checkpoint(store.permanent(alloc, node)?.map(|c| c.line_len()))
        }
        Call::Tentative(node) => Said::Tentative(
            store
                .tentative(alloc, node)?
                .map(|t| (t.instance, t.checkpoint.line_len())),
        ),
        Call::PermanentHeader(node) => {
            Said::Checkpoint(store.permanent_header(alloc, node)?.map(|m| m.line_len()))
        }
        Call::TentativeHeader(node) => Said::Tentative(
            store
                .tentative_header(alloc, node)?
                .map(|t| (t.instance, t.header.line_len())),
        ),
        Call::Verdict(instance) => Said::Verdict(store.verdict(instance)?),
        Call::Initiator(instance) => Said::Node(store.initiator(instance)?),
        Call::OpenOf(node) => Said::Instance(store.open_of(node)?),
        Call::NextInstance => Said::Number(store.next_instance()?),
        Call::IsFresh => Said::Is(store.is_fresh()?),
        Call::BeginCheck(_)
        | Call::PutTentative(_, _)
        | Call::Promote(_)
        | Call::Discard(_)
        | Call::BeginRestart(_)
        | Call::Bump(_)
        | Call::Decide(_, _) => {
            write(store, call, ckpt)?;
            Said::Done
        }
    })
}

/// Makes the call if it is a write.
fn write<C: CkptStore>(store: &mut C, call: Call, ckpt: &Ckpt) -> Result<(), StoreError> {
    match call {
        Call::BeginCheck(node) => store.begin_check(node, ckpt),
        Call::PutTentative(node, instance) => store.put_tentative(node, instance, ckpt),
        Call::Promote(node) => store.promote(node),
        Call::Discard(node) => store.discard(node),
        Call::BeginRestart(node) => store.begin_restart(node),
        Call::Bump(node) => store.bump(node),
        Call::Decide(instance, yes) => store.decide(instance, yes),
        _ => Ok(()),
    }
}

/// The first read in which the two stores part: of both nodes and of one that has no row, and of each instance.
pub(crate) fn parted<C: CkptStore, D: CkptStore>(
    one: &mut C,
    other: &mut D,
    alloc: Global,
    ckpt: &Ckpt,
) -> Option<Call> {
    for node in [WORKER, SHARD, NodeId::Worker(2)] {
        for read in [
            Call::Incarnation(node),
            Call::Permanent(node),
            Call::Tentative(node),
            Call::PermanentHeader(node),
            Call::TentativeHeader(node),
            Call::OpenOf(node),
        ] {
            if make(one, alloc, read, ckpt) != make(other, alloc, read, ckpt) {
                return Some(read);
            }
        }
    }
    for instance in 0..4 {
        for read in [Call::Verdict(instance), Call::Initiator(instance)] {
            if make(one, alloc, read, ckpt) != make(other, alloc, read, ckpt) {
                return Some(read);
            }
        }
    }
    for read in [Call::NextInstance, Call::IsFresh] {
        if make(one, alloc, read, ckpt) != make(other, alloc, read, ckpt) {
            return Some(read);
        }
    }
    None
}
