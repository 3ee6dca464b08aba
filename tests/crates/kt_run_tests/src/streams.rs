//! Runs whose reader gives a little at a time, fails or never ends, and whose writer fails.

use kt_run::{Output, RunTextFault, run_text};
use kt_scene::{MAX_TEXT, ReplayFault, SceneError, Sink, Source};
use kt_stage::OpenGate;
use kt_store::MemStore;
use kt_streams::{Drain, Feed, empty, fails_with, whole};
use std::alloc::Global;
use std::io::ErrorKind;
use std::sync::Wait;
use std::test::Fail;
use std::thread::Threads;

/// In its run each step waits for the one before, so it has one journal.
const TEXT: &[u8] = b"linda-kt 1\nshards 1\nworker\nout (1)\nfaults\nend\n";

/// What is asked for, and what is written then.
const OUTPUTS: [(Output, &[u8]); 2] = [
    (
        Output::Report,
        b"survivors 1\nw1.1 out (1) done\nlost 0\nspace 1\n(1)\npermanent 0\n",
    ),
    (
        Output::Journal,
        b"# survivors 1\n# w1.1 out (1) done\n# lost 0\n# space 1\n# (1)\n# permanent 0\nlinda-kt 1\nshards 1\n\
worker\nout (1)\nsteps\nissue w1\ndeliver w1 s1\nserve s1 w1 0\ndeliver s1 w1\nend\n",
    ),
];

/// How a run ends, and what it leaves of reader and writer.
fn ran<'a, T: Threads + Wait + Sync>(
    rt: &T,
    alloc: Global,
    output: Output,
    feed: Feed<'a>,
    drain: Drain,
) -> (Result<(), RunTextFault>, Feed<'a>, Drain) {
    let (mut source, mut sink) = (Source::new(feed), Sink::new(drain));
    let store = MemStore::new(alloc);
    let answer = run_text(rt, alloc, &mut source, &mut sink, store, output, &OpenGate);
    (answer, source.into_inner(), sink.into_inner())
}

/// A reader of one byte a call that fails at any of them, the one for the end too, leaves nothing written.
#[test]
fn a_reader_that_fails_at_any_call(rt: HostRuntime) {
    let alloc = rt.alloc();
    for (output, _) in OUTPUTS {
        for good in 0..=TEXT.len() {
            let feed = Feed {
                at_once: 1,
                good,
                ..whole(TEXT)
            };
            let (answer, feed, drain) = ran(&rt, alloc, output, feed, empty(alloc));
            assert_eq!(rt;
                answer,
                Err(RunTextFault::Text(ReplayFault::Read)),
                "{good}"
            );
            assert_eq!(rt; feed.calls as usize, good + 1);
            assert_eq!(rt; drain.bytes.len(), 0, "{good}");
        }
    }
}

/// Bytes one at a time, with calls that are interrupted, make no difference.
#[test]
fn one_byte_a_call(rt: HostRuntime) {
    let alloc = rt.alloc();
    for (output, expected) in OUTPUTS {
        let feed = Feed {
            at_once: 1,
            interrupted: 9,
            ..whole(TEXT)
        };
        let drain = Drain {
            at_once: 1,
            interrupted: 9,
            ..empty(alloc)
        };
        let (answer, feed, drain) = ran(&rt, alloc, output, feed, drain);
        assert!(rt; answer == Ok(()), "{answer:?}");
        assert_eq!(rt; feed.calls as usize, TEXT.len() + 10);
        assert_eq!(rt; drain.bytes.as_slice(), expected);
        assert_eq!(rt; drain.passed_on, expected.len());
    }
}

/// A writer of some bytes a call that fails at any of them has just what it took, and has passed on nothing.
#[test]
fn a_writer_that_fails_at_any_call(rt: HostRuntime) -> Result<(), Fail> {
    let alloc = rt.alloc();
    for (output, expected) in OUTPUTS {
        for at_once in [1, 7] {
            // The last of the calls passes on what was written.
            for good in 0..=expected.len().div_ceil(at_once) {
                let drain = Drain {
                    at_once,
                    good,
                    ..empty(alloc)
                };
                let (answer, _, drain) = ran(&rt, alloc, output, whole(TEXT), drain);
                let front = expected.len().min(good * at_once);
                assert_eq!(rt;
                    answer,
                    Err(RunTextFault::Text(ReplayFault::Write)),
                    "{good}"
                );
                assert_eq!(rt;
                    drain.bytes.as_slice(),
                    expected.get(..front).ok_or("a front")?
                );
                assert_eq!(rt; drain.passed_on, 0, "{good}");
            }
        }
    }
    Ok(())
}

/// A reader that gives neither bytes nor an end is given up.
#[test]
fn a_reader_without_bytes_or_end(rt: HostRuntime) {
    let alloc = rt.alloc();
    for (kind, calls) in [
        (ErrorKind::Interrupted, 2_000_000),
        (ErrorKind::WouldBlock, 1),
    ] {
        let (mut source, mut sink) = (Source::new(fails_with(kind)), Sink::new(empty(alloc)));
        let (store, output) = (MemStore::new(alloc), Output::Journal);
        let answer = run_text(&rt, alloc, &mut source, &mut sink, store, output, &OpenGate);
        assert_eq!(rt;
            answer,
            Err(RunTextFault::Text(ReplayFault::Read)),
            "{kind:?}"
        );
        assert_eq!(rt; source.into_inner().calls, calls, "{kind:?}");
        assert_eq!(rt; sink.into_inner().bytes.len(), 0, "{kind:?}");
    }
}

/// A text that is too long is refused, and one that is just not ends as its lines do.
#[test]
fn long_texts(rt: HostRuntime) -> Result<(), Fail> {
    let alloc = rt.alloc();
    let long = Vec::from_elem(alloc, b'#', MAX_TEXT + 1)?;
    for (bytes, cause) in [
        (long.as_slice(), SceneError::Limit),
        (&long[1..], SceneError::End),
    ] {
        let (answer, _, drain) = ran(&rt, alloc, Output::Report, whole(bytes), empty(alloc));
        let fault = ReplayFault::Scene { line: 1, cause };
        assert_eq!(rt; answer, Err(RunTextFault::Text(fault)));
        assert_eq!(rt; drain.bytes.len(), 0);
    }
    Ok(())
}
