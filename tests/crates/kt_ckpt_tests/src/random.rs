//! 500 checkpoints that look random and are the same in each run.

use crate::drawn::checkpoint;
use crate::seen::Seen;
use kt_ckpt::{Acts, Ckpt, CkptError, MAX_PEERS, ShardState, State, WorkerState};
use kt_draws::Draws;
use kt_shard::{CachedReply, Request};
use kt_tuple::Op;
use std::alloc::{AllocError, Global};
use std::test::*;

/// Whether the two are equal in all fields.
pub(crate) fn is_same(alloc: Global, a: &Ckpt, b: &Ckpt) -> Result<bool, AllocError> {
    Ok(has_same_fields(a, b) && are_same_acts(alloc, a.acts(), b.acts())?)
}

fn has_same_fields(a: &Ckpt, b: &Ckpt) -> bool {
    a.node() == b.node()
        && a.line_len() == b.line_len()
        && a.sent() == b.sent()
        && a.received() == b.received()
        && is_same_state(a.state(), b.state())
}

/// Whether the two have the same acts.
fn are_same_acts(alloc: Global, a: &Acts, b: &Acts) -> Result<bool, AllocError> {
    let (a, b) = (a.listed(alloc)?, b.listed(alloc)?);
    for (a, b) in a.iter().zip(&b) {
        let is_same = a.what == b.what && a.by == b.by && a.op == b.op;
        if !is_same || a.worker != b.worker || a.number != b.number {
            return Ok(false);
        }
    }
    Ok(a.len() == b.len())
}

/// The acts made again, some at a time: so many, then one more each time.
fn acts_made_again(alloc: Global, acts: &Acts) -> Result<Acts, AllocError> {
    let (mut again, mut some) = (Acts::none(), Vec::new(alloc));
    let mut wanted = 0;
    for act in acts.listed(alloc)? {
        some.push(act.copy(alloc)?)?;
        if some.len() > wanted {
            again = again.with(alloc, some)?;
            some = Vec::new(alloc);
            wanted += 1;
        }
    }
    again.with(alloc, some)
}

fn is_same_state(a: &State, b: &State) -> bool {
    match (a, b) {
        (State::Worker(a), State::Worker(b)) => is_same_worker(a, b),
        (State::Shard(a), State::Shard(b)) => is_same_shard(a, b),
        _ => false,
    }
}

fn is_same_worker(a: &WorkerState, b: &WorkerState) -> bool {
    a.pc() == b.pc()
        && a.number() == b.number()
        && a.was_none() == b.was_none()
        && is_same_asked(a.asked(), b.asked())
        && a.variables() == b.variables()
}

fn is_same_asked(a: Option<&Op>, b: Option<&Op>) -> bool {
    match (a, b) {
        (Some(a), Some(b)) => a == b,
        (None, None) => true,
        _ => false,
    }
}

fn is_same_shard(a: &ShardState, b: &ShardState) -> bool {
    a.bag() == b.bag()
        && is_same_waiting(a.waiting(), b.waiting())
        && is_same_kept(a.cached(), b.cached())
}

fn is_same_waiting(a: &[(u8, Request)], b: &[(u8, Request)]) -> bool {
    for (a, b) in a.iter().zip(b) {
        if a.0 != b.0 || !is_same_request(&a.1, &b.1) {
            return false;
        }
    }
    a.len() == b.len()
}

fn is_same_kept(a: &[(u8, CachedReply)], b: &[(u8, CachedReply)]) -> bool {
    for (a, b) in a.iter().zip(b) {
        if a.0 != b.0 || !is_same_request(&a.1.request, &b.1.request) || a.1.answer != b.1.answer {
            return false;
        }
    }
    a.len() == b.len()
}

fn is_same_request(a: &Request, b: &Request) -> bool {
    a.number == b.number && a.op == b.op
}

/// The checkpoint made again of its parts.
fn made_again(alloc: Global, ckpt: &Ckpt) -> Result<Ckpt, AllocError> {
    let state = state_made_again(ckpt.state().copy(alloc)?);
    let sent = Vec::from_slice(alloc, ckpt.sent())?;
    let received = Vec::from_slice(alloc, ckpt.received())?;
    let acts = acts_made_again(alloc, ckpt.acts())?;
    Ckpt::new(
        alloc,
        ckpt.node(),
        ckpt.line_len(),
        sent,
        received,
        state,
        acts,
    )
}

fn state_made_again(state: State) -> State {
    match state {
        State::Worker(worker) => {
            let (pc, number, was_none, asked, variables) = worker.into_parts();
            State::Worker(WorkerState::new(pc, number, was_none, asked, variables))
        }
        State::Shard(shard) => {
            let (bag, waiting, cached) = shard.into_parts();
            State::Shard(ShardState::new(bag, waiting, cached))
        }
    }
}

fn is_written_as(alloc: Global, ckpt: &Ckpt, bytes: &[u8]) -> Result<bool, AllocError> {
    let written = ckpt.encode(alloc)?;
    Ok(written.as_slice() == bytes)
}

fn is_read_of(alloc: Global, ckpt: &Ckpt, bytes: &[u8]) -> Result<bool, CkptError> {
    let again = Ckpt::decode(alloc, bytes)?;
    Ok(is_same(alloc, ckpt, &again)?)
}

/// Whether its copy is the same, and what is made of the copy's parts.
fn is_copied(alloc: Global, ckpt: &Ckpt) -> Result<bool, AllocError> {
    let copy = ckpt.copy(alloc)?;
    if !is_same(alloc, ckpt, &copy)? {
        return Ok(false);
    }
    let again = made_again(alloc, &copy)?;
    is_same(alloc, ckpt, &again)
}

/// Whether the bytes are a checkpoint that is written as these bytes again, and read the same once more.
fn comes_back(alloc: Global, bytes: &[u8], seen: &mut Seen) -> Result<bool, CkptError> {
    let ckpt = Ckpt::decode(alloc, bytes)?;
    seen.see(ckpt.state());
    seen.see_acts(&ckpt.acts().listed(alloc)?);
    Ok(
        is_written_as(alloc, &ckpt, bytes)?
            && is_read_of(alloc, &ckpt, bytes)?
            && is_copied(alloc, &ckpt)?,
    )
}

#[test]
fn come_back_equal(rt: HostRuntime) -> Result<(), Fail> {
    let alloc = rt.alloc();
    let mut draws = Draws(13);
    let mut seen = Seen::nothing();
    for n in 0..500u32 {
        let peers = (n / 2 % u32::from(MAX_PEERS)) as u8 + 1;
        let bytes = checkpoint(alloc, &mut draws, n % 2 == 0, peers)?;
        assert!(rt; matches!(comes_back(alloc, &bytes, &mut seen), Ok(true)));
    }
    assert!(rt; seen.is_all());
    Ok(())
}
