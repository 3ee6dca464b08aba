//! Replays whose reader never comes to its end or gives too much, and whose writer never gets on.

use crate::streams::replayed;
use kt_scene::{MAX_TEXT, Outcome, ReplayFault, SceneError, Sink, Source, replay};
use kt_store::MemStore;
use kt_streams::{Drain, Feed, Never, empty, fails_with, whole};
use std::io::{ErrorKind, Read};
use std::test::Fail;

const TEXT: &[u8] =
    b"linda-kt 1\nshards 1\nworker\nout (1)\nsteps\nissue w1\ndeliver w1 s1\nserve s1 w1 0\nend\n";

const REPORT: &[u8] = b"survivors 1\nw1.1 out (1) done\nlost 0\nspace 1\n(1)\npermanent 0\n";

/// How a reader or a writer fails, and after how many calls a reader that always does is given up.
const KINDS: [(ErrorKind, u32); 5] = [
    (ErrorKind::Interrupted, 2_000_000),
    (ErrorKind::WouldBlock, 1),
    (ErrorKind::TimedOut, 1),
    (ErrorKind::UnexpectedEof, 1),
    (ErrorKind::Other, 1),
];

/// A reader that gives neither bytes nor an end is given up after 2,000,000 calls where it says that it was
/// interrupted, and else after one. Nothing is written.
#[test]
fn a_reader_without_bytes_or_end(rt: HostRuntime) {
    let alloc = rt.alloc();
    for (kind, calls) in KINDS {
        let (mut source, mut sink) = (Source::new(fails_with(kind)), Sink::new(empty(alloc)));
        let answer = replay(alloc, &mut source, &mut sink, MemStore::new(alloc));
        assert_eq!(rt; answer, Err(ReplayFault::Read), "{kind:?}");
        assert_eq!(rt;
            (source.calls(), source.outcome()),
            (calls, Outcome::Failed),
            "{kind:?}"
        );
        assert_eq!(rt; source.into_inner().calls, calls, "{kind:?}");
        assert_eq!(rt; sink.into_inner().bytes.len(), 0, "{kind:?}");
    }
}

/// A writer that takes nothing and fails is not called again, and one that takes no bytes is none that was interrupted.
#[test]
fn a_writer_that_takes_nothing(rt: HostRuntime) {
    let alloc = rt.alloc();
    for (kind, calls) in KINDS {
        // One that is always interrupted is called for ever.
        if calls == 1 {
            let (mut source, mut sink) = (Source::new(TEXT), Sink::new(fails_with(kind)));
            let answer = replay(alloc, &mut source, &mut sink, MemStore::new(alloc));
            assert_eq!(rt; answer, Err(ReplayFault::Write), "{kind:?}");
            assert_eq!(rt; sink.into_inner().calls, 1, "{kind:?}");
        }
    }
    let drain = Drain {
        at_once: 0,
        ..empty(alloc)
    };
    let (answer, left) = replayed(alloc, whole(TEXT), drain);
    assert_eq!(rt; answer, Err(ReplayFault::Write));
    assert_eq!(rt; (left.bytes.len(), left.passed_on), (0, 0));
}

/// A writer of some bytes a call that fails at any call has just what it took, and has passed on nothing.
#[test]
fn writers_of_some_bytes_a_call(rt: HostRuntime) -> Result<(), Fail> {
    let alloc = rt.alloc();
    for at_once in [1, 2, 7, 50, REPORT.len()] {
        let calls = REPORT.len().div_ceil(at_once);
        // The last of the calls passes on what was written.
        for good in 0..=calls + 1 {
            let drain = Drain {
                at_once,
                good,
                ..empty(alloc)
            };
            let (answer, left) = replayed(alloc, whole(TEXT), drain);
            let is_whole = good > calls;
            let front = if is_whole {
                REPORT.len()
            } else {
                REPORT.len().min(good * at_once)
            };
            let expected = if is_whole {
                Ok(())
            } else {
                Err(ReplayFault::Write)
            };
            assert_eq!(rt; answer, expected, "{at_once} {good}");
            assert_eq!(rt;
                left.bytes.as_slice(),
                REPORT.get(..front).ok_or("a front")?
            );
            assert_eq!(rt;
                left.passed_on,
                if is_whole { front } else { 0 },
                "{at_once} {good}"
            );
        }
    }
    Ok(())
}

/// Some bytes, and then it fails for ever.
#[derive(Drop)]
struct Broken<'a> {
    feed: Feed<'a>,
    then: Never,
}

impl Read for Broken<'_> {
    fn read(&mut self, buf: &mut [u8]) -> std::io::Result<usize> {
        if self.feed.bytes.is_empty() {
            return self.then.read(buf);
        }
        self.feed.read(buf)
    }
}

/// A text that is too long is refused by the byte that is too many, however many a call gives; what comes behind it is
/// not asked for. A reader that fails where the longest text ends is refused as such.
#[test]
fn one_byte_too_many(rt: HostRuntime) -> Result<(), Fail> {
    let alloc = rt.alloc();
    let long = Vec::from_elem(alloc, b'#', MAX_TEXT + 1)?;
    assert_eq!(rt; long.len(), 1_048_577);
    let limit = ReplayFault::Scene {
        line: 1,
        cause: SceneError::Limit,
    };
    for at_once in [1000, 1_000_000] {
        for (bytes, fault) in [(long.as_slice(), limit), (&long[1..], ReplayFault::Read)] {
            let feed = Feed {
                at_once,
                ..whole(bytes)
            };
            let then = fails_with(ErrorKind::Other);
            let (mut source, mut sink) = (
                Source::new(Broken { feed, then }),
                Sink::new(empty(alloc)),
            );
            let store = MemStore::new(alloc);
            let answer = replay(alloc, &mut source, &mut sink, store);
            assert_eq!(rt; answer, Err(fault), "{at_once}");
            let asked = u32::from(fault == ReplayFault::Read);
            assert_eq!(rt; source.into_inner().then.calls, asked, "{at_once}");
            assert_eq!(rt; sink.into_inner().bytes.len(), 0);
        }
    }
    Ok(())
}
