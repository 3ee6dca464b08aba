//! Checkpoints in format 1: what is read of them with the acts of a log, and which fault is told of others.

use crate::drawn::checkpoint;
use crate::random::is_same;
use crate::stored::{FIRST_WORKER, OLD_SHARD_LEN, OLD_WORKER_LEN, SHARD};
use kt_ckpt::{Ckpt, CkptError, LogAct};
use kt_draws::Draws;
use std::alloc::{AllocError, Global};
use std::process::Abort;
use std::test::*;

/// The checkpoint of these bytes.
fn now(alloc: Global, bytes: &[u8]) -> Result<Ckpt, Fail> {
    Ok(
        Ckpt::decode(alloc, bytes)
            .ok()
            .ok_or("the bytes are a checkpoint")?,
    )
}

fn copied(alloc: Global, acts: &[LogAct]) -> Result<Vec<LogAct>, AllocError> {
    let mut copies = Vec::with_capacity(alloc, acts.len())?;
    for act in acts {
        copies.push(act.copy(alloc)?)?;
    }
    Ok(copies)
}

/// Copies of its acts.
fn acts_of(alloc: Global, ckpt: &Ckpt) -> Result<Vec<LogAct>, AllocError> {
    let mut copies = Vec::new(alloc);
    for act in ckpt.acts().listed(alloc)? {
        copies.push(act.copy(alloc)?)?;
    }
    Ok(copies)
}

/// The first bytes, with version 1.
fn in_format_1(alloc: Global, bytes: &[u8]) -> Result<Vec<u8>, Fail> {
    let mut old = Vec::from_slice(alloc, bytes)?;
    old[4] = 1;
    Ok(old)
}

fn shard_in_format_1(alloc: Global) -> Result<Vec<u8>, Fail> {
    in_format_1(alloc, &SHARD[..OLD_SHARD_LEN])
}

/// What is answered of bytes with these acts.
fn read(alloc: Global, bytes: &[u8], acts: &[LogAct]) -> Result<Result<(), CkptError>, Fail> {
    Ok(
        match Ckpt::decode_old(alloc, bytes, copied(alloc, acts)?) {
            Ok(_) => Ok(()),
            Err(fault) => Err(fault),
        },
    )
}

/// The bytes of format 1 are those before the acts, and are read back with the acts.
#[test]
fn both_ways(rt: HostRuntime) -> Result<(), Fail> {
    let alloc = rt.alloc();
    for (bytes, len) in [
        (SHARD.as_slice(), OLD_SHARD_LEN),
        (&FIRST_WORKER, OLD_WORKER_LEN),
    ] {
        let ckpt = now(alloc, bytes)?;
        let old = in_format_1(alloc, &bytes[..len])?;
        let written = ckpt.encode_old(alloc)?.ok_or("format 1 can hold it")?;
        assert!(rt; written.as_slice() == old.as_slice());
        let again = Ckpt::decode_old(alloc, &old, acts_of(alloc, &ckpt)?)
            .ok()
            .ok_or("it is read back")?;
        assert!(rt; is_same(alloc, &ckpt, &again)?);
    }
    Ok(())
}

/// With another number of acts, or those of another node, the length of the log is a bad field.
#[test]
fn other_acts(rt: HostRuntime) -> Result<(), Fail> {
    let alloc = rt.alloc();
    let shard = now(alloc, &SHARD)?;
    let worker = now(alloc, &FIRST_WORKER)?;
    let old = shard_in_format_1(alloc)?;
    let acts = &acts_of(alloc, &shard)?;
    assert_eq!(rt; read(alloc, &old, acts)?, Ok(()));
    assert_eq!(rt; read(alloc, &old, &[])?, Err(CkptError::Field));
    assert_eq!(rt; read(alloc, &old, &acts[..1])?, Err(CkptError::Field));
    let mut three = copied(alloc, acts)?;
    three.push(acts[0].copy(alloc)?)?;
    assert_eq!(rt; read(alloc, &old, &three)?, Err(CkptError::Field));
    assert_eq!(rt; read(alloc, &old, &acts_of(alloc, &worker)?)?, Err(CkptError::Field));
    Ok(())
}

/// The acts are judged behind the length of the log: what is cut before it is cut, and what is wrong behind it is not
/// looked at.
#[test]
fn acts_are_judged_at_the_line_length(rt: HostRuntime) -> Result<(), Fail> {
    let alloc = rt.alloc();
    let mut old = shard_in_format_1(alloc)?;
    for n in 0..15 {
        assert_eq!(rt; read(alloc, &old[..n], &[])?, Err(CkptError::Cut), "{n}");
    }
    for n in 15..old.len() {
        assert_eq!(rt; read(alloc, &old[..n], &[])?, Err(CkptError::Field), "{n}");
    }
    old[5] = 3;
    assert_eq!(rt; read(alloc, &old[..7], &[])?, Err(CkptError::Field));
    Ok(())
}

#[test]
fn fronts_and_more(rt: HostRuntime) -> Result<(), Fail> {
    let alloc = rt.alloc();
    let shard = now(alloc, &SHARD)?;
    let mut old = shard_in_format_1(alloc)?;
    for n in 0..old.len() {
        assert_eq!(rt; read(alloc, &old[..n], &acts_of(alloc, &shard)?)?, Err(CkptError::Cut), "{n}");
    }
    old.push(0)?;
    assert_eq!(rt; read(alloc, &old, &acts_of(alloc, &shard)?)?, Err(CkptError::Extra));
    // The bytes of the format that is written now are of another version, and so are those of format 1 to `decode`.
    assert_eq!(rt; read(alloc, &SHARD, &acts_of(alloc, &shard)?)?, Err(CkptError::Version));
    for version in [0, 2, 3, 255] {
        old[4] = version;
        assert_eq!(rt; read(alloc, &old, &acts_of(alloc, &shard)?)?, Err(CkptError::Version));
    }
    old[0] = 0;
    assert_eq!(rt; read(alloc, &old, &acts_of(alloc, &shard)?)?, Err(CkptError::Magic));
    Ok(())
}

/// A place of the shard's bytes, a value there that format 1 does not allow but the format of now does, and how many
/// bytes are handed in: where the fault is told though the bytes are cut behind it.
const PLACES: [(usize, u8, usize); 5] = [
    // nine neighbours
    (15, 9, 16),
    // nine values of the tuple in the bag
    (52, 9, 53),
    // a bool in that tuple
    (53, 3, 54),
    // an answer kept for a ninth worker
    (67, 9, 68),
    // a bool in the operation of the kept request
    (78, 3, 79),
];

#[test]
fn what_format_1_can_not_hold(rt: HostRuntime) -> Result<(), Fail> {
    let alloc = rt.alloc();
    let shard = now(alloc, &SHARD)?;
    for (place, value, len) in PLACES {
        let mut old = shard_in_format_1(alloc)?;
        old[place] = value;
        assert_eq!(rt; read(alloc, &old, &acts_of(alloc, &shard)?)?, Err(CkptError::Field), "{place}");
        assert_eq!(rt; read(alloc, &old[..len], &acts_of(alloc, &shard)?)?, Err(CkptError::Field), "{place}");
        // One byte before, the bytes are cut.
        let front = len.saturating_sub(1);
        assert_eq!(rt; read(alloc, &old[..front], &acts_of(alloc, &shard)?)?, Err(CkptError::Cut), "{place}");
    }
    let worker = now(alloc, &FIRST_WORKER)?;
    let mut old = in_format_1(alloc, &FIRST_WORKER[..OLD_WORKER_LEN])?;
    old[6] = 9;
    assert_eq!(rt; read(alloc, &old[..7], &acts_of(alloc, &worker)?)?, Err(CkptError::Field));
    Ok(())
}

/// With any one byte changed to any other there is a fault, or what is read is written as these bytes again.
#[test]
fn changed_bytes(rt: HostRuntime) -> Result<(), Fail> {
    let alloc = rt.alloc();
    let ckpt = now(alloc, &SHARD)?;
    let bytes = shard_in_format_1(alloc)?;
    let mut changed = Vec::from_slice(alloc, &bytes)?;
    let (mut refused, mut read) = (0, 0);
    for place in 0..bytes.len() {
        for other in (0..=255u8).filter(|other| *other != bytes[place]) {
            changed[place] = other;
            match Ckpt::decode_old(alloc, &changed, acts_of(alloc, &ckpt)?) {
                Ok(ckpt) => {
                    let written = ckpt.encode_old(alloc)?.ok_or("it was read in format 1")?;
                    assert!(rt; written.as_slice() == changed.as_slice(), "{place} {other}");
                    read += 1;
                }
                Err(fault) => {
                    assert!(rt; fault != CkptError::OutOfMemory, "{place} {other}");
                    refused += 1;
                }
            }
        }
        changed[place] = bytes[place];
    }
    assert!(rt; refused > 0 && read > 10_000 && refused + read == 91 * 255);
    Ok(())
}

/// Of 300 checkpoints that look random some are held by format 1, and come back; the others are refused.
#[test]
fn come_back_equal(rt: HostRuntime) -> Result<(), Fail> {
    let alloc = rt.alloc();
    let mut draws = Draws(47);
    let (mut held, mut others) = (0, 0);
    for n in 0..300u32 {
        let peers = (n / 2 % 12) as u8 + 1;
        let ckpt = now(alloc, &checkpoint(alloc, &mut draws, n % 2 == 0, peers)?)?;
        match ckpt.encode_old(alloc)? {
            Some(bytes) => {
                let again = Ckpt::decode_old(alloc, &bytes, acts_of(alloc, &ckpt)?)
                    .ok()
                    .ok_or("it is read back")?;
                assert!(rt; is_same(alloc, &ckpt, &again)?, "{n}");
                held += 1;
            }
            None => others += 1,
        }
    }
    assert!(rt; held > 0 && others > 0, "{held} {others}");
    Ok(())
}
