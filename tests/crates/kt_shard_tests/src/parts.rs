//! A shard made of what is read of one.

use kt_shard::{Session, CachedReply, Request, Shard};
use kt_tuple::{MAX_WORKERS, Op, Tuple};
use std::alloc::{AllocError, Global};
use std::process::Abort;
use std::test::Fail;

fn copies(alloc: Global, sessions: &[Session]) -> Result<Vec<Session>, AllocError> {
    let mut copies = Vec::with_capacity(alloc, sessions.len())?;
    for session in sessions {
        copies.push(session.copy(alloc)?)?;
    }
    Ok(copies)
}

/// The shard made of what is read of this one.
fn made_again(alloc: Global, shard: &Shard) -> Result<Shard, AllocError> {
    let sessions = copies(alloc, shard.sessions())?;
    Ok(Shard::from_parts(shard.bag().copy(alloc)?, sessions))
}

/// The worker asks for this, and is served where it is said.
fn ask(
    alloc: Global,
    shard: &mut Shard,
    worker: u8,
    number: u64,
    text: &str,
    is_served: bool,
) -> Result<(), Fail> {
    let op = Op::Out(Tuple::parse(alloc, text.as_bytes())?);
    shard.wait(worker.min(MAX_WORKERS), Request { number, op });
    if is_served {
        shard.serve(alloc, worker, 0).map_err(|_| "not served")?;
    }
    Ok(())
}

/// A shard with two tuples, that remembers of some workers what they wait with, what was served, or both.
fn busy(alloc: Global) -> Result<Shard, Fail> {
    let mut shard = Shard::new(alloc)?;
    ask(alloc, &mut shard, 1, 1, "(7)", true)?;
    ask(alloc, &mut shard, 16, 5, "(8, \"a\")", true)?;
    ask(alloc, &mut shard, 1, 2, "(9)", false)?;
    ask(alloc, &mut shard, 3, 1, "(9)", false)?;
    Ok(shard)
}

fn is_request(one: &Request, other: &Request) -> bool {
    one.number == other.number && one.op == other.op
}

fn waits_alike(one: Option<&Request>, other: Option<&Request>) -> bool {
    match (one, other) {
        (Some(one), Some(other)) => is_request(one, other),
        (one, other) => one.is_none() && other.is_none(),
    }
}

fn is_kept_alike(one: Option<&CachedReply>, other: Option<&CachedReply>) -> bool {
    match (one, other) {
        (Some(one), Some(other)) => {
            is_request(&one.request, &other.request) && one.answer == other.answer
        }
        (one, other) => one.is_none() && other.is_none(),
    }
}

/// Each worker waits with the same and has the same kept.
fn assert_alike(rt: &impl Abort, one: &Shard, other: &Shard) {
    for worker in 0..=MAX_WORKERS {
        assert!(rt;
            waits_alike(one.waiting(worker), other.waiting(worker)),
            "{worker}"
        );
        assert!(rt;
            is_kept_alike(one.kept(worker), other.kept(worker)),
            "{worker}"
        );
    }
}

/// The tuples, and of whom is remembered what he waits with and what was kept.
#[test]
fn is_made_again_of_its_parts(rt: HostRuntime) -> Result<(), Fail> {
    let shard = busy(rt.alloc())?;
    let made = made_again(rt.alloc(), &shard)?;
    assert_alike(&rt, &shard, &made);
    assert_eq!(rt; made.bag().len(), 2);
    assert_eq!(rt;
        made.bag().to_vec(rt.alloc())?,
        shard.bag().to_vec(rt.alloc())?
    );
    for (worker, waits, is_cached) in [(1, true, true), (3, true, false), (16, false, true)] {
        assert_eq!(rt; made.waiting(worker).is_some(), waits, "{worker}");
        assert_eq!(rt; made.kept(worker).is_some(), is_cached, "{worker}");
    }
    Ok(())
}
