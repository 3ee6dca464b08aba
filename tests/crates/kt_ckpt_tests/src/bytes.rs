//! The bytes of a shard's and of a worker's checkpoint, against bytes worked out by hand.

use crate::stored::{FIRST_WORKER, SHARD};
use kt_ckpt::{Ckpt, CkptError, CkptHeader, State};
use kt_link::Label;
use kt_tuple::{NodeId, Value};
use std::alloc::Global;
use std::process::Abort;
use std::test::*;

/// The second worker: a log of five acts, two neighbours, the next command is the fourth, the last request has
/// the number 2 and no answer yet, `inp ("a", ?int, ?bool)`, the last answer was none, and the variables are -1, `hi`
/// and `true`. It issued `out ("hi", true)` and accepted its answer, issued the second request, sent it once more, and
/// ignored a late answer to the first.
const WORKER: [u8; 237] = [
    0x4b, 0x54, 0x43, 0x50, 2, // magic, version
    1, 2, // the second worker
    0, 0, 0, 0, 0, 0, 0, 5, // log length
    2, // two neighbours
    0, 0, 0, 0, 0, 0, 0, 1, 0, 0, 0, 0, 0, 0, 0, 3, // sent to the first
    0, 0, 0, 0, 0, 0, 0, 2, 0, 0, 0, 0, 0, 0, 1, 0, // received from the first
    0, 0, 0, 0, 0, 0, 0, 0, 0, 0, 0, 0, 0, 0, 0, 0, // sent to the second
    0, 0, 0, 0, 0, 0, 0, 0, 0, 0, 0, 0, 0, 0, 0, 0, // received from the second
    0, 3, // the next command
    0, 0, 0, 0, 0, 0, 0, 2, // last number
    1, // the last answer was none
    1, 4, 3, 2, 1, 0x61, 0x81, 0x83, // inp ("a", ?int, ?bool)
    3, // three variables
    1, 0xff, 0xff, 0xff, 0xff, 0xff, 0xff, 0xff, 0xff, // -1
    2, 2, 0x68, 0x69, // "hi"
    3, 1, // true
    1, 2, 0, // it issued
    0, 0, 0, 0, 0, 0, 0, 1, // request 1
    1, 2, 2, 2, 0x68, 0x69, 3, 1, // out ("hi", true)
    6, 2, 1, 2, 8, 0, 0, 0, 0, 0, 0, 0, 3, // it accepted what the third act of the eighth shard sent
    0, 0, 0, 0, 0, 0, 0, 1, // request 1
    1, 2, 2, 2, 0x68, 0x69, 3, 1, // out ("hi", true)
    0, // done
    1, 2, 0, // it issued
    0, 0, 0, 0, 0, 0, 0, 2, // request 2
    4, 3, 2, 1, 0x61, 0x81, 0x83, // inp ("a", ?int, ?bool)
    2, 2, 0, // it repeated
    0, 0, 0, 0, 0, 0, 0, 2, // request 2
    4, 3, 2, 1, 0x61, 0x81, 0x83, // inp ("a", ?int, ?bool)
    7, 2, 1, 2, 8, 0, 0, 0, 0, 0, 0, 0, 9, // it ignored what the ninth act of the eighth shard sent
    0, 0, 0, 0, 0, 0, 0, 1, // request 1
    1, 2, 2, 2, 0x68, 0x69, 3, 1, // out ("hi", true)
    1, 2, 2, 2, 0x68, 0x69, 3, 1, // got ("hi", true)
];

/// Whether the bytes are read, and what is read is written as these bytes again.
fn comes_back(alloc: Global, bytes: &[u8]) -> bool {
    match Ckpt::decode(alloc, bytes) {
        Ok(ckpt) => match ckpt.encode(alloc) {
            Ok(written) => written.as_slice() == bytes,
            Err(_) => false,
        },
        Err(_) => false,
    }
}

/// Whether each proper front of the bytes is cut short.
fn is_cut_everywhere(rt: &HostRuntime, bytes: &[u8]) -> bool {
    for n in 0..bytes.len() {
        if !matches!(Ckpt::decode(rt.alloc(), &bytes[..n]), Err(CkptError::Cut)) {
            return false;
        }
    }
    true
}

/// With any one byte changed to any other value there is a fault, or the bytes come back. It counts the two.
fn changed(rt: &impl Abort, alloc: Global, bytes: &[u8]) -> Result<(u32, u32), Fail> {
    let mut changed = Vec::from_slice(alloc, bytes)?;
    let (mut refused, mut read) = (0, 0);
    for place in 0..bytes.len() {
        for other in (0..=255u8).filter(|other| *other != bytes[place]) {
            changed[place] = other;
            match Ckpt::decode(alloc, &changed) {
                Ok(ckpt) => {
                    let written = ckpt.encode(alloc)?;
                    assert!(rt; written.as_slice() == changed.as_slice(), "{place} {other}");
                    read += 1;
                }
                Err(fault) => {
                    assert!(rt; fault != CkptError::OutOfMemory, "{place} {other}");
                    refused += 1;
                }
            }
        }
        changed[place] = bytes[place];
    }
    Ok((refused, read))
}

#[test]
fn both_ways(rt: HostRuntime) {
    assert!(rt; comes_back(rt.alloc(), &SHARD));
    assert!(rt; comes_back(rt.alloc(), &WORKER));
    assert!(rt; comes_back(rt.alloc(), &FIRST_WORKER));
}

#[test]
fn fronts(rt: HostRuntime) {
    assert!(rt; is_cut_everywhere(&rt, &SHARD));
    assert!(rt; is_cut_everywhere(&rt, &WORKER));
    assert!(rt; is_cut_everywhere(&rt, &FIRST_WORKER));
}

/// Whatever byte it is that stands behind.
#[test]
fn one_byte_more(rt: HostRuntime) -> Result<(), Fail> {
    for bytes in [SHARD.as_slice(), &WORKER, &FIRST_WORKER] {
        for more in 0..=255u8 {
            let mut longer = Vec::from_slice(rt.alloc(), bytes)?;
            longer.push(more)?;
            assert!(rt; matches!(Ckpt::decode(rt.alloc(), &longer), Err(CkptError::Extra)));
        }
    }
    Ok(())
}

/// With any byte left out, or doubled, there is a fault, or the bytes come back: a shard's int that is one byte short
/// has a byte of what follows, and who has an answer there seems to wait.
#[test]
fn a_byte_less_or_twice(rt: HostRuntime) -> Result<(), Fail> {
    let (mut refused, mut read) = (0, 0);
    for bytes in [SHARD.as_slice(), &WORKER, &FIRST_WORKER] {
        for place in 0..bytes.len() {
            for behind in [place, place + 1] {
                let mut other = Vec::from_slice(rt.alloc(), &bytes[..place])?;
                if behind == place {
                    other.push(bytes[place])?;
                }
                other.extend_from_slice(&bytes[behind..])?;
                if let Err(fault) = Ckpt::decode(rt.alloc(), &other) {
                    assert!(rt; fault != CkptError::OutOfMemory, "{place} {behind}");
                    refused += 1;
                } else {
                    assert!(rt; comes_back(rt.alloc(), &other), "{place} {behind}");
                    read += 1;
                }
            }
        }
    }
    assert!(rt; read > 0 && refused > 10 * read, "{refused} {read}");
    Ok(())
}

#[test]
fn other_version(rt: HostRuntime) {
    let mut bytes = SHARD;
    for version in [0, 1, 3, 7] {
        bytes[4] = version;
        assert!(rt; matches!(Ckpt::decode(rt.alloc(), &bytes), Err(CkptError::Version)));
    }
    bytes[3] = 0x51;
    assert!(rt; matches!(Ckpt::decode(rt.alloc(), &bytes), Err(CkptError::Magic)));
}

/// How many of the changed bytes are read was worked out by hand: numbers that count nothing, characters, and what is
/// one of few. Of an act that is what was done, where another has the same parts, the place of what was heard, and of a
/// worker's act the shard that sent it.
#[test]
fn changed_bytes(rt: HostRuntime) -> Result<(), Fail> {
    assert_eq!(rt; changed(&rt, rt.alloc(), &FIRST_WORKER)?, (10_304, 20_806));
    assert_eq!(rt; changed(&rt, rt.alloc(), &SHARD)?, (14_378, 26_932));
    let (refused, read) = changed(&rt, rt.alloc(), &WORKER)?;
    assert!(rt; refused > 0 && read > 0 && refused + read == 237 * 255);
    Ok(())
}

#[test]
fn fields(rt: HostRuntime) -> Result<(), Fail> {
    let ckpt = Ckpt::decode(rt.alloc(), &WORKER)
        .ok()
        .ok_or("the bytes are a checkpoint")?;
    assert_eq!(rt; ckpt.node(), NodeId::Worker(2));
    assert_eq!(rt; ckpt.line_len(), 5);
    assert_eq!(rt; ckpt.sent().len(), 2);
    assert_eq!(rt;
        ckpt.sent()[0],
        Label {
            incarnation: 1,
            count: 3
        }
    );
    assert_eq!(rt;
        ckpt.received()[0],
        Label {
            incarnation: 2,
            count: 256
        }
    );
    let State::Worker(worker) = ckpt.state() else {
        return Err(Fail::from("a worker has a worker's state"));
    };
    assert_eq!(rt; worker.pc(), 3);
    assert_eq!(rt; worker.number(), 2);
    assert!(rt; worker.was_none());
    assert!(rt; worker.asked().is_some());
    let [number, string, truth] = worker.variables() else {
        return Err(Fail::from("there are three variables"));
    };
    assert_eq!(rt; *number, Value::Int(-1));
    assert!(rt; matches!(string, Value::Str(string) if string.as_bytes() == b"hi".as_slice()));
    assert_eq!(rt; *truth, Value::Bool(true));
    Ok(())
}

/// How many bytes of `WORKER` stand before its state.
const WORKER_HEADER: usize = 80;

/// The header is that of the checkpoint. The state behind it may be cut or be none: it is not looked at.
#[test]
fn header(rt: HostRuntime) -> Result<(), Fail> {
    let ckpt = Ckpt::decode(rt.alloc(), &WORKER)
        .ok()
        .ok_or("the bytes are a checkpoint")?;
    for bytes in [&WORKER[..], &WORKER[..WORKER_HEADER]] {
        let header = CkptHeader::decode(rt.alloc(), bytes)
            .ok()
            .ok_or("the bytes begin with marks")?;
        assert_eq!(rt; header.node(), ckpt.node());
        assert_eq!(rt; header.line_len(), ckpt.line_len());
        assert!(rt; header.sent() == ckpt.sent() && header.received() == ckpt.received());
    }
    for n in 0..WORKER_HEADER {
        assert!(rt; matches!(CkptHeader::decode(rt.alloc(), &WORKER[..n]), Err(CkptError::Cut)));
    }
    Ok(())
}
