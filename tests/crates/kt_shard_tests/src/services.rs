//! Shards that hear and serve requests.

use kt_shard::{Heard, Request, ServeError, Shard};
use kt_tuple::{Op, Tuple};
use std::alloc::Global;
use std::test::Fail;

fn out(alloc: Global, text: &str) -> Result<Request, Fail> {
    let op = Op::Out(Tuple::parse(alloc, text.as_bytes())?);
    Ok(Request { number: 1, op })
}

/// A shard at which worker 1 waits with this.
fn asked(alloc: Global, text: &str) -> Result<Shard, Fail> {
    let request = out(alloc, text)?;
    let mut shard = Shard::new(alloc)?;
    shard.reserve()?;
    shard.wait(1, request);
    Ok(shard)
}

/// What comes of hearing worker 1 ask for this.
fn heard(alloc: Global, shard: &mut Shard, text: &str) -> Result<&'static str, Fail> {
    let request = out(alloc, text)?;
    Ok(match shard.hear(alloc, 1, request)? {
        Heard::Waits => "waits",
        Heard::Again(_) => "again",
        Heard::Ignored => "ignored",
    })
}

/// Serves worker 1 in two halves, of which the second takes no memory.
fn served_in_halves(alloc: Global, shard: &mut Shard) -> Result<bool, Fail> {
    let prepared = match shard.choose(1, 0) {
        Ok(choice) => choice.prepare(alloc)?,
        Err(_) => return Ok(false),
    };
    shard.reserve()?;
    shard.carry_out(1, prepared);
    Ok(true)
}

#[test]
fn a_request_is_served_once_and_answered_again(rt: HostRuntime) -> Result<(), Fail> {
    let alloc = rt.alloc();
    let mut shard = Shard::new(alloc)?;
    assert_eq!(rt; heard(alloc, &mut shard, "(7)")?, "waits");
    assert_eq!(rt; heard(alloc, &mut shard, "(7)")?, "ignored");
    assert!(rt; shard.can_serve(1, 0) && !shard.can_serve(1, 1) && !shard.can_serve(2, 0));
    assert!(rt; shard.serve(alloc, 2, 0) == Err(ServeError::NotWaiting));
    assert!(rt; shard.serve(alloc, 1, 0) == Ok(()));
    assert_eq!(rt; heard(alloc, &mut shard, "(7)")?, "again");
    assert_eq!(rt; shard.bag().len(), 1);
    Ok(())
}

#[test]
fn a_service_in_two_halves_leaves_the_copy_alone(rt: HostRuntime) -> Result<(), Fail> {
    let alloc = rt.alloc();
    let mut shard = asked(alloc, "(7)")?;
    let copy = shard.copy(alloc)?;
    assert!(rt; served_in_halves(alloc, &mut shard)?);
    assert!(rt; shard.bag().len() == 1 && shard.waiting(1).is_none() && shard.kept(1).is_some());
    assert!(rt; copy.bag().is_empty() && copy.waiting(1).is_some() && copy.kept(1).is_none());
    Ok(())
}

/// Each of two shards that share goes its own way once it makes room, and the other stays.
#[test]
fn what_is_shared_stays(rt: HostRuntime) -> Result<(), Fail> {
    let alloc = rt.alloc();
    let mut shard = asked(alloc, "(7)")?;
    let mut seen = shard.share(alloc)?;
    let again = shard.share(alloc)?;
    assert!(rt; seen.can_serve(1, 0) && again.can_serve(1, 0));
    assert!(rt; shard.serve(alloc, 1, 0) == Ok(()));
    assert!(rt; shard.bag().len() == 1 && shard.waiting(1).is_none());
    assert!(rt; seen.bag().is_empty() && seen.waiting(1).is_some());
    assert!(rt; seen.serve(alloc, 1, 0) == Ok(()));
    assert!(rt; seen.bag().len() == 1 && again.bag().is_empty() && again.can_serve(1, 0));
    Ok(())
}

/// Where the other is gone, what was shared is one's own again.
#[test]
fn what_was_shared_is_changed(rt: HostRuntime) -> Result<(), Fail> {
    let alloc = rt.alloc();
    let mut shard = asked(alloc, "(7)")?;
    drop(shard.share(alloc)?);
    assert!(rt; served_in_halves(alloc, &mut shard)?);
    assert_eq!(rt; heard(alloc, &mut shard, "(7)")?, "again");
    Ok(())
}
