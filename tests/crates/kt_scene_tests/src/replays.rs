//! From bytes to bytes, over readers and writers in memory.

use crate::streams::replayed;
use kt_scene::{
    MAX_TEXT, OpenError, Outcome, ReplayFault, SceneError, SceneFault, Source, StepError,
    read_text, replay_world,
};
use kt_store::{MemStore, StoreError};
use kt_streams::{Drain, Feed, empty, whole};
use std::alloc::Global;
use std::process::Abort;
use std::test::Fail;

type Row = (&'static [u8], &'static [u8], Result<(), ReplayFault>);

/// A scenario, its report, and the fault with which it ends.
const ROWS: [Row; 17] = [
    // put_and_take
    (
        b"linda-kt 1\nshards 1\nworker\nout (\"a\", 1)\nin (\"a\", ?int x)\nsteps\nissue w1\ndeliver w1 s1\n\
serve s1 w1 0\ndeliver s1 w1\nissue w1\ndeliver w1 s1\nserve s1 w1 0\nend\n",
        b"survivors 2\nw1.1 out (\"a\", 1) done\nw1.2 in (\"a\", ?int) got (\"a\", 1)\nlost 0\nspace 0\npermanent 0\n",
        Ok(()),
    ),
    // no_steps
    (
        b"linda-kt 1\nshards 1\nworker\nout (\"a\", 1)\nsteps\nend\n",
        b"survivors 0\nlost 0\nspace 0\npermanent 0\n",
        Ok(()),
    ),
    // two_takers
    (
        b"linda-kt 1\nshards 1\nworker\nin (\"t\")\nworker\nin (\"t\")\nworker\nout (\"t\")\nsteps\n\
issue w1\ndeliver w1 s1\nissue w2\ndeliver w2 s1\nissue w3\ndeliver w3 s1\nserve s1 w3 0\nserve s1 w2 0\n\
end\n",
        b"survivors 2\nw3.1 out (\"t\") done\nw2.1 in (\"t\") got (\"t\")\nlost 0\nspace 0\npermanent 0\n",
        Ok(()),
    ),
    // two_takers, with a ninth step that is refused
    (
        b"linda-kt 1\nshards 1\nworker\nin (\"t\")\nworker\nin (\"t\")\nworker\nout (\"t\")\nsteps\n\
issue w1\ndeliver w1 s1\nissue w2\ndeliver w2 s1\nissue w3\ndeliver w3 s1\nserve s1 w3 0\nserve s1 w2 0\n\
serve s1 w1 0\nend\n",
        b"",
        Err(ReplayFault::Step {
            at: 9,
            cause: StepError::NoSuchMatch,
        }),
    ),
    // tuples in rising order of their text's bytes, equal ones repeated
    (
        b"linda-kt 1\nshards 1\nworker\nout (\"b\")\nworker\nout (10)\nworker\nout (\"b\")\nworker\n\
out (2)\nworker\nout (\"\\\"\")\nsteps\nissue w1\nissue w2\nissue w3\nissue w4\nissue w5\ndeliver w1 s1\n\
deliver w2 s1\ndeliver w3 s1\ndeliver w4 s1\ndeliver w5 s1\nserve s1 w4 0\nserve s1 w1 0\nserve s1 w5 0\n\
serve s1 w2 0\nserve s1 w3 0\nend\n",
        b"survivors 5\nw4.1 out (2) done\nw1.1 out (\"b\") done\nw5.1 out (\"\\\"\") done\n\
w2.1 out (10) done\nw3.1 out (\"b\") done\nlost 0\nspace 5\n(\"\\\"\")\n(\"b\")\n(\"b\")\n(10)\n(2)\n\
permanent 0\n",
        Ok(()),
    ),
    // unless_skips
    (
        b"linda-kt 1\nshards 1\nworker\ninp (\"a\")\nunless 2\nout (\"b\")\nout (\"c\")\nout (\"d\")\n\
worker\nout (\"a\")\nout (\"a\")\nout (\"a\")\nrdp (\"a\")\nsteps\nissue w1\ndeliver w1 s1\nserve s1 w1 0\n\
deliver s1 w1\nissue w1\ndeliver w1 s1\nserve s1 w1 0\nissue w2\ndeliver w2 s1\nserve s1 w2 0\n\
deliver s1 w2\nissue w2\ndeliver w2 s1\nserve s1 w2 0\ndeliver s1 w2\nissue w2\ndeliver w2 s1\n\
serve s1 w2 0\ndeliver s1 w2\nissue w2\ndeliver w2 s1\nserve s1 w2 2\nend\n",
        b"survivors 6\nw1.1 inp (\"a\") none\nw1.2 out (\"d\") done\nw2.1 out (\"a\") done\n\
w2.2 out (\"a\") done\nw2.3 out (\"a\") done\nw2.4 rdp (\"a\") got (\"a\")\nlost 0\nspace 4\n(\"a\")\n\
(\"a\")\n(\"a\")\n(\"d\")\npermanent 0\n",
        Ok(()),
    ),
    // bools: the two tuples are of other shards
    (
        b"linda-kt 1\nshards 2\nworker\nout (true, 1)\nin (?bool b, 1)\nout (b)\nsteps\nissue w1\n\
deliver w1 s1\nserve s1 w1 0\ndeliver s1 w1\nissue w1\ndeliver w1 s1\nserve s1 w1 0\ndeliver s1 w1\n\
issue w1\ndeliver w1 s2\nserve s2 w1 0\nend\n",
        b"survivors 3\nw1.1 out (true, 1) done\nw1.2 in (?bool, 1) got (true, 1)\nw1.3 out (true) done\nlost 0\n\
space 1\n(true)\npermanent 0\n",
        Ok(()),
    ),
    // saturating_set
    (
        b"linda-kt 1\nshards 1\nworker\nout (9223372036854775807)\nin (?int x)\nset y = x + 1\nout (y)\n\
steps\nissue w1\ndeliver w1 s1\nserve s1 w1 0\ndeliver s1 w1\nissue w1\ndeliver w1 s1\nserve s1 w1 0\n\
deliver s1 w1\nissue w1\ndeliver w1 s1\nserve s1 w1 0\nend\n",
        b"survivors 3\nw1.1 out (9223372036854775807) done\nw1.2 in (?int) got (9223372036854775807)\n\
w1.3 out (9223372036854775807) done\nlost 0\nspace 1\n(9223372036854775807)\npermanent 0\n",
        Ok(()),
    ),
    // saturating_set, with a use before the binding
    (
        b"linda-kt 1\nshards 1\nworker\nset x = x + 1\nout (9223372036854775807)\nsteps\nissue w1\nend\n",
        b"",
        Err(ReplayFault::Scene {
            line: 4,
            cause: SceneError::Variable,
        }),
    ),
    // answered_again
    (
        b"linda-kt 1\nshards 1\nworker\nout (\"a\", 1)\nsteps\nissue w1\ndeliver w1 s1\nserve s1 w1 0\n\
repeat w1\ndeliver w1 s1\ndeliver s1 w1\ndeliver s1 w1\nend\n",
        b"survivors 1\nw1.1 out (\"a\", 1) done\nlost 0\nspace 1\n(\"a\", 1)\npermanent 0\n",
        Ok(()),
    ),
    // answered_again, with a repeat of what is answered
    (
        b"linda-kt 1\nshards 1\nworker\nout (\"a\", 1)\nsteps\nissue w1\ndeliver w1 s1\nserve s1 w1 0\n\
repeat w1\ndeliver w1 s1\ndeliver s1 w1\ndeliver s1 w1\nrepeat w1\nend\n",
        b"",
        Err(ReplayFault::Step {
            at: 8,
            cause: StepError::NothingThere,
        }),
    ),
    // shard_of_signature
    (
        b"linda-kt 1\nshards 2\nworker\nout (\"a\", 1)\nworker\nout (\"a\")\nworker\nout (1, 2)\nsteps\n\
issue w1\nissue w2\nissue w3\ndeliver w1 s2\ndeliver w2 s1\ndeliver w3 s1\nserve s2 w1 0\nserve s1 w3 0\n\
serve s1 w2 0\ndeliver s2 w1\ndeliver s1 w2\ndeliver s1 w3\nend\n",
        b"survivors 3\nw1.1 out (\"a\", 1) done\nw3.1 out (1, 2) done\nw2.1 out (\"a\") done\nlost 0\n\
space 3\n(\"a\")\n(\"a\", 1)\n(1, 2)\npermanent 0\n",
        Ok(()),
    ),
    // shard_of_signature, with a delivery to the other shard
    (
        b"linda-kt 1\nshards 2\nworker\nout (\"a\", 1)\nsteps\nissue w1\ndeliver w1 s1\nend\n",
        b"",
        Err(ReplayFault::Step {
            at: 2,
            cause: StepError::NothingThere,
        }),
    ),
    // a node that is not in the scene
    (
        b"linda-kt 1\nshards 1\nworker\nout (1)\nsteps\nissue w1\nissue w2\nend\n",
        b"",
        Err(ReplayFault::Step {
            at: 2,
            cause: StepError::NoNode,
        }),
    ),
    // nothing is delivered twice
    (
        b"linda-kt 1\nshards 1\nworker\nout (1)\nsteps\nissue w1\ndeliver w1 s1\ndeliver w1 s1\nend\n",
        b"",
        Err(ReplayFault::Step {
            at: 3,
            cause: StepError::NothingThere,
        }),
    ),
    // a last line with no line feed
    (
        b"linda-kt 1\nshards 1\nworker\nout (\"a\", 1)\nin (\"a\", ?int x)\nsteps\nissue w",
        b"",
        Err(ReplayFault::Scene {
            line: 7,
            cause: SceneError::End,
        }),
    ),
    // a fault of a later line comes before a step that would be refused
    (
        b"linda-kt 1\nshards 1\nworker\nsteps\nissue w9\nissue w0\nend\n",
        b"",
        Err(ReplayFault::Scene {
            line: 6,
            cause: SceneError::Word,
        }),
    ),
];

/// Each row is replayed as it stands there, so many bytes a call and with so many interrupted calls. What is
/// written is passed on.
fn assert_rows(rt: &impl Abort, alloc: Global, rows: &[Row], at_once: usize, interrupted: u32) {
    for (text, report, expected) in rows {
        let feed = Feed {
            at_once,
            interrupted,
            ..whole(text)
        };
        let drain = Drain {
            at_once,
            interrupted,
            ..empty(alloc)
        };
        let (answer, left) = replayed(alloc, feed, drain);
        assert_eq!(rt; answer, *expected, "{text:?}");
        assert_eq!(rt; left.bytes.as_slice(), *report, "{text:?}");
        assert_eq!(rt; left.passed_on, report.len(), "{text:?}");
    }
}

#[test]
fn rows(rt: HostRuntime) {
    assert_rows(&rt, rt.alloc(), &ROWS, 1_000_000, 0);
}

/// Bytes one at a time, with calls that are interrupted, make no difference.
#[test]
fn one_byte_a_call(rt: HostRuntime) {
    assert_rows(&rt, rt.alloc(), &ROWS, 1, 7);
}

/// A reader that fails at any call leaves nothing written, a writer a front of the report.
fn assert_failures(rt: &impl Abort, alloc: Global, rows: &[Row]) -> Result<(), Fail> {
    for (text, report, _) in rows {
        for good in 0..=text.len() {
            let feed = Feed {
                at_once: 1,
                good,
                ..whole(text)
            };
            let (answer, left) = replayed(alloc, feed, empty(alloc));
            assert_eq!(rt; answer, Err(ReplayFault::Read));
            assert_eq!(rt; left.bytes.len(), 0);
        }
        // The last of the calls passes on what was written.
        for good in 0..=report.len() {
            if report.is_empty() {
                break;
            }
            let drain = Drain {
                at_once: 1,
                good,
                ..empty(alloc)
            };
            let (answer, left) = replayed(alloc, whole(text), drain);
            assert_eq!(rt; answer, Err(ReplayFault::Write));
            assert_eq!(rt; left.bytes.as_slice(), report.get(..good).ok_or("a front")?);
            assert_eq!(rt; left.passed_on, 0);
        }
    }
    Ok(())
}

#[test]
fn failures(rt: HostRuntime) -> Result<(), Fail> {
    assert_failures(&rt, rt.alloc(), &ROWS)
}

/// A reader that never comes to its end is given up after 2,000,000 calls, by its own count, and not before.
#[test]
fn a_reader_has_2000000_calls(rt: HostRuntime) -> Result<(), Fail> {
    let alloc = rt.alloc();
    let (text, _, _) = ROWS.first().ok_or("a row")?;
    for (interrupted, expected) in [(1_999_998, None), (1_999_999, Some(ReplayFault::Read))] {
        let feed = Feed {
            interrupted,
            ..whole(text)
        };
        let mut source = Source::new(feed);
        assert_eq!(rt; read_text(alloc, &mut source).err(), expected);
        assert_eq!(rt; source.calls(), 2_000_000);
        assert_eq!(rt; source.into_inner().calls, 2_000_000);
    }
    Ok(())
}

/// What the calls of a reader came to tells why reading ended.
#[test]
fn what_a_reader_came_to(rt: HostRuntime) -> Result<(), Fail> {
    let alloc = rt.alloc();
    let (text, _, _) = ROWS.first().ok_or("a row")?;
    for (good, outcome) in [(1, Outcome::Failed), (2, Outcome::Done)] {
        let mut source = Source::new(Feed {
            good,
            ..whole(text)
        });
        assert_eq!(rt;
            replay_world(alloc, &mut source, MemStore::new(alloc)).is_ok(),
            good == 2
        );
        assert_eq!(rt; source.outcome(), outcome);
    }
    Ok(())
}

/// A text that is too long is not read to its end.
#[test]
fn long_texts(rt: HostRuntime) -> Result<(), Fail> {
    let alloc = rt.alloc();
    let long = Vec::from_elem(alloc, b'#', MAX_TEXT + 1)?;
    for (bytes, cause) in [
        (long.as_slice(), SceneError::Limit),
        (&long[1..], SceneError::End),
    ] {
        let (answer, left) = replayed(alloc, whole(bytes), empty(alloc));
        assert_eq!(rt; answer, Err(ReplayFault::Scene { line: 1, cause }));
        assert_eq!(rt; left.bytes.len(), 0);
    }
    Ok(())
}

/// What is wrong with a line, and the line that tells of it.
const SCENE_LINES: [(usize, SceneError, &str); 8] = [
    (1, SceneError::Header, "line 1: 1 Header"),
    (7, SceneError::Word, "line 7: 2 Word"),
    (20, SceneError::Tuple, "line 20: 3 Tuple"),
    (4, SceneError::Variable, "line 4: 4 Variable"),
    (2, SceneError::Limit, "line 2: 5 Limit"),
    (9, SceneError::Node, "line 9: 6 Node"),
    (100, SceneError::End, "line 100: 7 End"),
    (3, SceneError::OutOfMemory, "memory"),
];

/// Why a step is refused, and the line that tells of it.
const STEP_LINES: [(usize, StepError, &str); 10] = [
    (1, StepError::NoNode, "step 1: 1 NoNode"),
    (2, StepError::WrongMode, "step 2: 2 WrongMode"),
    (3, StepError::NothingThere, "step 3: 3 NothingThere"),
    (9, StepError::NoSuchMatch, "step 9: 4 NoSuchMatch"),
    (6, StepError::NotDecided, "step 6: 5 NotDecided"),
    (8, StepError::Unresolved, "step 8: 6 Unresolved"),
    (100_001, StepError::StepLimit, "step 100001: 7 StepLimit"),
    (7, StepError::Store(StoreError::Device), "store: Device"),
    (4, StepError::Store(StoreError::Memory), "store: Memory"),
    (5, StepError::OutOfMemory, "memory"),
];

/// The other faults and their lines.
const OTHER_LINES: [(ReplayFault, &str); 9] = [
    (ReplayFault::Open(OpenError::NotFresh), "store: NotFresh"),
    (
        ReplayFault::Open(OpenError::Store(StoreError::Damaged)),
        "store: Damaged",
    ),
    (ReplayFault::Open(OpenError::OutOfMemory), "memory"),
    (ReplayFault::Report(StoreError::Device), "store: Device"),
    (ReplayFault::Report(StoreError::Memory), "store: Memory"),
    (ReplayFault::Report(StoreError::Full), "store: Full"),
    (ReplayFault::Memory, "memory"),
    (ReplayFault::Read, "read"),
    (ReplayFault::Write, "write"),
];

/// The line that tells of each fault, letter by letter.
#[test]
fn the_line_of_each_fault(rt: HostRuntime) -> Result<(), Fail> {
    let alloc = rt.alloc();
    for (line, cause, told) in &SCENE_LINES {
        let (line, cause) = (*line, *cause);
        let fault = ReplayFault::Scene { line, cause };
        assert_eq!(rt; format!(in alloc; "{fault}")?.as_str(), *told);
        let fault = SceneFault { line, cause };
        assert_eq!(rt; format!(in alloc; "{fault}")?.as_str(), *told);
    }
    for (at, cause, told) in &STEP_LINES {
        let (at, cause) = (*at, *cause);
        let fault = ReplayFault::Step { at, cause };
        assert_eq!(rt; format!(in alloc; "{fault}")?.as_str(), *told);
    }
    for (fault, told) in &OTHER_LINES {
        assert_eq!(rt; format!(in alloc; "{fault}")?.as_str(), *told);
    }
    Ok(())
}
