//! A store in SQL that is opened and asked, with each growth refused in turn.

use crate::counts::Counts;
use crate::fresh::Fresh;
use crate::refusing::{MOST, Turns, never, refuse, was_spared};
use crate::seen::{has_stored, stored};
use crate::stepping::played;
use kt_core::Step;
use kt_sql::{SqlOpenError, SqlStore};
use kt_store::{CkptStore, StoreError};
use kt_tuple::NodeId;
use sqlite::MemStore as Disk;
use std::alloc::Global;
use std::test::Fail;

/// Opens a store in memory.
pub(crate) fn sql_in_turn(rt: &HostRuntime, alloc: Global) -> Result<(), Fail> {
    let mut turns = Turns::new("SqlStore::in_memory");
    for number in 1..MOST {
        refuse(alloc, number)?;
        let opened: Result<SqlStore<Disk>, SqlOpenError> = SqlStore::in_memory(alloc);
        let is_spared = was_spared(alloc, number)?;
        match opened {
            Ok(_) if is_spared => return turns.end(rt, number),
            Ok(_) => turns.bear(),
            Err(cause) => {
                let is_memory = cause == SqlOpenError::Memory;
                turns.hold(rt, is_memory, "another refusal")?;
            }
        }
    }
    Err(never())
}

/// A question to a store, or a write that is always allowed.
#[derive(Clone, Copy, Debug, PartialEq, Eq)]
enum Call {
    Incarnation,
    Permanent,
    Tentative,
    PermanentHeader,
    TentativeHeader,
    OpenOf,
    Verdict,
    Initiator,
    NextInstance,
    IsFresh,
    Bump,
    BeginRestart,
}

const CALLS: [(Call, &str); 12] = [
    (Call::Incarnation, "incarnation"),
    (Call::Permanent, "permanent"),
    (Call::Tentative, "tentative"),
    (Call::PermanentHeader, "permanent_header"),
    (Call::TentativeHeader, "tentative_header"),
    (Call::OpenOf, "open_of"),
    (Call::Verdict, "verdict"),
    (Call::Initiator, "initiator"),
    (Call::NextInstance, "next_instance"),
    (Call::IsFresh, "is_fresh"),
    (Call::Bump, "bump"),
    (Call::BeginRestart, "begin_restart"),
];

/// Makes the call for this node, or for the first instance.
fn called<S: CkptStore>(
    alloc: Global,
    store: &mut S,
    call: Call,
    node: NodeId,
) -> Result<(), StoreError> {
    match call {
        Call::Incarnation => store.incarnation(node).map(drop),
        Call::Permanent => store.permanent(alloc, node).map(drop),
        Call::Tentative => store.tentative(alloc, node).map(drop),
        Call::PermanentHeader => store.permanent_header(alloc, node).map(drop),
        Call::TentativeHeader => store.tentative_header(alloc, node).map(drop),
        Call::OpenOf => store.open_of(node).map(drop),
        Call::Verdict => store.verdict(1).map(drop),
        Call::Initiator => store.initiator(1).map(drop),
        Call::NextInstance => store.next_instance().map(drop),
        Call::IsFresh => store.is_fresh().map(drop),
        Call::Bump => store.bump(node),
        Call::BeginRestart => store.begin_restart(node),
    }
}

/// The node for which the calls are made.
const NODE: NodeId = NodeId::Shard(1);

/// What a store holds before a call, and after it.
#[derive(Drop)]
struct Sides {
    before: Vec<u8>,
    after: Vec<u8>,
}

/// The store after these steps.
fn store_after<S: CkptStore + Fresh + Drop>(
    alloc: Global,
    text: &[u8],
    steps: &[Step],
) -> Result<S, Fail> {
    Ok(played::<S>(alloc, text, steps)?.into_store())
}

/// What the store holds before and after the call.
fn sides_of<S: CkptStore>(alloc: Global, store: &mut S, call: Call) -> Result<Sides, Fail> {
    let before = stored(alloc, store)?;
    called(alloc, store, call, NODE)?;
    let after = stored(alloc, store)?;
    Ok(Sides { before, after })
}

/// The store that refused the call for memory holds what it held, and answers with memory.
fn answers_again<S: CkptStore>(
    alloc: Global,
    store: &mut S,
    call: Call,
    error: StoreError,
    before: &[u8],
) -> Result<bool, Fail> {
    let is_same = has_stored(alloc, store, before)?;
    let is_answered = called(alloc, store, call, NODE).is_ok();
    Ok(error == StoreError::Memory && is_same && is_answered)
}

/// Makes the call with the growth of this number refused, and then with memory. Only the refusal is counted. Says
/// whether there was none such.
fn called_once<S: CkptStore>(
    rt: &HostRuntime,
    alloc: Global,
    store: &mut S,
    call: Call,
    sides: &Sides,
    turns: &mut Turns,
    number: usize,
) -> Result<bool, Fail> {
    let before = Counts::of(store);
    refuse(alloc, number)?;
    let answer = called(alloc, store, call, NODE);
    let is_spared = was_spared(alloc, number)?;
    let counts = before.after_call(&answer);
    turns.hold(rt, Counts::of(store) == counts, "what the store counts")?;
    match answer {
        Ok(()) if is_spared => {}
        Ok(()) => turns.bear(),
        Err(error) => {
            let is_right = answers_again(alloc, store, call, error, &sides.before)?;
            turns.hold(rt, is_right, "refused otherwise, or not as it was")?;
        }
    }
    let is_same = has_stored(alloc, store, &sides.after)? && Counts::of(store) == counts;
    turns.hold(rt, is_same, "the store after it")?;
    Ok(is_spared)
}

/// Makes the call on stores that hold what is stored after these steps, with each growth refused in turn.
fn called_in_turn<S: CkptStore + Fresh + Drop>(
    rt: &HostRuntime,
    alloc: Global,
    text: &[u8],
    steps: &[Step],
    call: (Call, &'static str),
) -> Result<(), Fail> {
    let (call, name) = call;
    let mut store = store_after::<S>(alloc, text, steps)?;
    let sides = sides_of(alloc, &mut store, call)?;
    let mut turns = Turns::new(name);
    for number in 1..MOST {
        let mut store = store_after::<S>(alloc, text, steps)?;
        if called_once(rt, alloc, &mut store, call, &sides, &mut turns, number)? {
            return turns.end(rt, number);
        }
    }
    Err(never())
}

/// Makes each call that any store answers at any time.
pub(crate) fn stores_in_turn<S: CkptStore + Fresh + Drop>(
    rt: &HostRuntime,
    alloc: Global,
    text: &[u8],
    steps: &[Step],
) -> Result<(), Fail> {
    for call in &CALLS {
        called_in_turn::<S>(rt, alloc, text, steps, *call)?;
    }
    Ok(())
}
