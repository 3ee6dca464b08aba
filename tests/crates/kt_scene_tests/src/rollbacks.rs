//! Scenarios with checkpoints, failures and rollbacks, over a store in memory and one in SQL, and their reports.

use kt_ckpt_tests::stored::{FIRST_WORKER, SHARD};
use kt_core::{StepError, World};
use kt_history::Note;
use kt_node::Mode;
use kt_scene::{
    Nobody, OpenError, ReplayFault, Sink, Source, Start, replay, replay_returning_store, replay_world,
};
use kt_sql::SqlStore;
use kt_store::{CkptStore, MemStore};
use kt_tuple::{ALL_NODES, NodeId};
use std::alloc::Global;
use std::process::Abort;
use std::test::Fail;

/// The scene of one worker that puts one tuple, and one shard.
const ONE_WORKER: &str = "linda-kt 1\nshards 1\nworker\nout (\"a\", 1)\nsteps\n";

/// The scene of two workers, each of which puts one tuple.
const TWO_WORKERS: &str =
    "linda-kt 1\nshards 1\nworker\nout (\"a\", 1)\nworker\nout (\"b\")\nsteps\n";

/// The scene of three workers and three shards, in which the second worker takes what the first put.
const THREE_SHARDS: &str =
    "linda-kt 1\nshards 3\nworker\nout (1, 2)\nworker\nin (?int x, ?int y)\nout (5)\n\
worker\nout (\"z\")\nsteps\n";

/// The worker puts its tuple and hears that it is there.
const PUT: &str = "issue w1\ndeliver w1 s1\nserve s1 w1 0\ndeliver s1 w1\n";

/// A check of worker and shard, to its end.
const CHECKED: &str =
    "check w1\ndeliver w1 s1\ndeliver s1 w1\ndeliver w1 s1\ndeliver s1 w1\ndecide w1\n\
learn w1\ndeliver w1 s1\ndeliver s1 w1\n";

/// A check with all votes and its verdict, before which the shard fails that it is told.
const AGREED: &str =
    "check w1\ndeliver w1 s1\ndeliver s1 w1\ndeliver w1 s1\ndeliver s1 w1\ndecide w1\n\
fail s1\n";

/// Worker and shard fail with a request on its way, and roll each other back.
const BOTH_UP: &str =
    "issue w1\nfail w1\nfail s1\nrestart w1\nrestart s1\ndeliver w1 s1\ndeliver w1 s1\n\
deliver s1 w1\ndeliver s1 w1\ndecide w1\ndeliver w1 s1\ndecide s1\n";

/// A reply is kept during a check; then the shard fails, and the kept reply is dropped.
const KEPT_DROPPED: &str =
    "issue w1\ndeliver w1 s1\nserve s1 w1 0\ncheck w1\ndeliver s1 w1\nfail s1\n\
restart s1\ndeliver s1 w1\nabandon w1\nlearn w1\n";

/// The second worker has taken what the first put, and goes on with it; then the first worker fails.
const WORK: &str =
    "issue w1\ndeliver w1 s1\nserve s1 w1 0\nissue w2\ndeliver w2 s1\nserve s1 w2 0\n\
deliver s1 w2\nissue w2\ndeliver w2 s2\nserve s2 w2 0\nissue w3\ndeliver w3 s3\n\
serve s3 w3 0\nfail w1\n";

/// The first worker asks for a rollback, which reaches the second worker and what it put.
const ASKED: &str = "restart w1\ndeliver w1 s1\ndeliver w1 s2\ndeliver w1 s3\ndeliver s1 w1\n\
deliver s1 w1\ndeliver s1 w2\ndeliver s1 w3\ndeliver w2 s1\ndeliver w2 s2\n\
deliver w2 s3\ndeliver s2 w1\ndeliver s2 w1\ndeliver s2 w2\ndeliver s2 w2\n\
deliver s2 w3\n";

/// The votes and the verdict.
const VOTED: &str = "deliver w1 s2\ndeliver w2 s2\ndeliver w3 s2\ndeliver s2 w2\ndeliver s1 w2\n\
deliver s3 w2\ndeliver w1 s1\ndeliver w3 s1\ndeliver w2 s1\ndeliver s1 w1\n\
deliver s3 w1\ndecide w1\nlearn s1\nlearn w2\nlearn s2\n";

/// Two checks that overlap, of which none succeeds.
const OVERLAPPING: &str =
    "issue w2\ndeliver w2 s1\nserve s1 w2 0\ndeliver s1 w2\ncheck w1\ncheck w2\n\
deliver w1 s1\ndeliver w2 s1\ndeliver s1 w1\ndeliver s1 w2\ndeliver s1 w2\n\
decide w2\ndeliver w1 s1\ndeliver w2 s1\ndeliver s1 w1\ndecide w1\n\
learn w1\nlearn w2\nlearn s1\n";

/// The shard fails, is rolled back with the worker, and is asked again.
pub(crate) const SHARD_FAILS: &[&str] = &[
    ONE_WORKER,
    PUT,
    "fail s1\nrestart s1\ndeliver s1 w1\ndeliver w1 s1\ndeliver s1 w1\n\
deliver w1 s1\ndecide s1\ndeliver s1 w1\nissue w1\ndeliver w1 s1\n\
deliver w1 s1\nserve s1 w1 0\n",
];

/// The shard fails after a check to its end.
pub(crate) const CHECKPOINT_OF_TWO: &[&str] = &[ONE_WORKER, PUT, CHECKED, "fail s1\n"];

/// The shard fails before it is told of its check's Yes, and learns it.
pub(crate) const FAILS_AFTER_YES: &[&str] = &[ONE_WORKER, PUT, AGREED, "learn s1\nrestart s1\n"];

/// The rollback that the first worker asks for, to its end.
pub(crate) const CASCADE: &[&str] = &[THREE_SHARDS, WORK, ASKED, VOTED];

/// The report where the tuple is there, and nothing permanent.
const ONCE: &str =
    "survivors 1\nw1.1 out (\"a\", 1) done\nlost 0\nspace 1\n(\"a\", 1)\npermanent 0\n";

/// The report where the tuple is permanent too.
const STORED: &str =
    "survivors 1\nw1.1 out (\"a\", 1) done\nlost 0\nspace 1\n(\"a\", 1)\npermanent 1\n\
(\"a\", 1)\n";

/// The report where the service is lost.
const LOST: &str = "survivors 0\nlost 1\nspace 0\npermanent 0\n";

/// The report where nothing was served.
const NOTHING: &str = "survivors 0\nlost 0\nspace 0\npermanent 0\n";

/// The report where the tuple was put anew, after its first service was lost.
const AGAIN: &str =
    "survivors 1\nw1.1 out (\"a\", 1) done\nlost 1\nspace 1\n(\"a\", 1)\npermanent 0\n";

/// The report where the services of the second worker and what they depend on are lost.
const CASCADED: &str =
    "survivors 1\nw3.1 out (\"z\") done\nlost 3\nspace 1\n(\"z\")\npermanent 0\n";

/// The report where both tuples are there, and nothing permanent.
const BOTH: &str = "survivors 2\nw1.1 out (\"a\", 1) done\nw2.1 out (\"b\") done\nlost 0\nspace 2\n\
(\"a\", 1)\n(\"b\")\npermanent 0\n";

/// The parts of a scenario but for its last line, its report, and the fault with which it ends.
pub(crate) type Row = (
    &'static [&'static str],
    &'static str,
    Result<(), ReplayFault>,
);

pub(crate) const ROWS: [Row; 20] = [
    // answered_again
    (
        &[
            ONE_WORKER,
            "issue w1\ndeliver w1 s1\nserve s1 w1 0\nrepeat w1\ndeliver w1 s1\n\
deliver s1 w1\ndeliver s1 w1\n",
        ],
        ONCE,
        Ok(()),
    ),
    // refused_and_late_votes: an abandoned check, whose ask comes after its verdict
    (
        &[
            ONE_WORKER,
            PUT,
            "check w1\nabandon w1\nlearn w1\ndeliver w1 s1\ndeliver s1 w1\n",
        ],
        ONCE,
        Ok(()),
    ),
    // refused_and_late_votes: a reply that is kept during a check, and taken after it
    (
        &[
            ONE_WORKER,
            "issue w1\ndeliver w1 s1\nserve s1 w1 0\ncheck w1\ndeliver s1 w1\ndecide w1\n\
learn w1\ntake w1\n",
        ],
        ONCE,
        Ok(()),
    ),
    // refused_and_late_votes: a decision with a vote missing
    (
        &[ONE_WORKER, PUT, "check w1\ndecide w1\n"],
        "",
        Err(ReplayFault::Step {
            at: 6,
            cause: StepError::NotDecided,
        }),
    ),
    // shard_fails: before anything is asked
    (&[ONE_WORKER, PUT, "fail s1\n"], LOST, Ok(())),
    // shard_fails: rolled back, and asked again
    (SHARD_FAILS, AGAIN, Ok(())),
    // checkpoint_of_two
    (&[ONE_WORKER, PUT, CHECKED], STORED, Ok(())),
    // checkpoint_of_two: and then the shard fails
    (CHECKPOINT_OF_TWO, STORED, Ok(())),
    // abandoned_check
    (
        &[
            ONE_WORKER,
            PUT,
            "check w1\nfail s1\ndeliver w1 s1\nabandon w1\nlearn w1\n",
        ],
        LOST,
        Ok(()),
    ),
    // fails_after_yes
    (&[ONE_WORKER, PUT, AGREED], STORED, Ok(())),
    // fails_after_yes: a restart before the verdict is learned
    (
        &[ONE_WORKER, PUT, AGREED, "restart s1\n"],
        "",
        Err(ReplayFault::Step {
            at: 12,
            cause: StepError::Unresolved,
        }),
    ),
    // fails_after_yes: a restart after it is learned
    (FAILS_AFTER_YES, STORED, Ok(())),
    // cascade: as the first worker fails
    (&[THREE_SHARDS, WORK], CASCADED, Ok(())),
    // cascade: at its end
    (CASCADE, CASCADED, Ok(())),
    // request_in_checkpoint
    (
        &[
            ONE_WORKER,
            "issue w1\ncheck w1\ndecide w1\nlearn w1\ndeliver w1 s1\nserve s1 w1 0\n\
deliver s1 w1\nfail w1\nrestart w1\ndeliver w1 s1\ndeliver s1 w1\n\
decide w1\nrepeat w1\ndeliver w1 s1\ndeliver w1 s1\ndeliver s1 w1\n",
        ],
        ONCE,
        Ok(()),
    ),
    // kept_reply_dropped
    (&[ONE_WORKER, KEPT_DROPPED], LOST, Ok(())),
    // kept_reply_dropped: nothing is left to take
    (
        &[ONE_WORKER, KEPT_DROPPED, "take w1\n"],
        "",
        Err(ReplayFault::Step {
            at: 11,
            cause: StepError::NothingThere,
        }),
    ),
    // both_fail: rolled back
    (&[ONE_WORKER, BOTH_UP], NOTHING, Ok(())),
    // both_fail: and asked again
    (
        &[
            ONE_WORKER,
            BOTH_UP,
            "issue w1\ndeliver w1 s1\ndeliver w1 s1\nserve s1 w1 0\n",
        ],
        ONCE,
        Ok(()),
    ),
    // overlapping_instances
    (&[TWO_WORKERS, PUT, OVERLAPPING], BOTH, Ok(())),
];

/// The parts of a scenario and its last line.
pub(crate) fn text_of(alloc: Global, parts: &[&str]) -> Result<Vec<u8>, Fail> {
    let mut text = Vec::new(alloc);
    for part in parts {
        text.extend_from_slice(part.as_bytes())?;
    }
    text.extend_from_slice(b"end\n")?;
    Ok(text)
}

/// Over this store the scenario ends so, with this report.
fn assert_row<S: CkptStore + Drop>(
    rt: &impl Abort,
    alloc: Global,
    row: &Row,
    store: S,
) -> Result<(), Fail> {
    let (parts, report, expected) = row;
    let text = text_of(alloc, parts)?;
    let (mut source, mut sink) = (Source::new(text.as_slice()), Sink::new(Vec::new(alloc)));
    let answer = replay(alloc, &mut source, &mut sink, store);
    assert_eq!(rt; answer, *expected, "{text:?}");
    assert_eq!(rt; sink.into_inner().as_slice(), report.as_bytes(), "{text:?}");
    Ok(())
}

#[test]
fn rows(rt: HostRuntime) -> Result<(), Fail> {
    let alloc = rt.alloc();
    for row in &ROWS {
        assert_row(&rt, alloc, row, MemStore::new(alloc))?;
    }
    Ok(())
}

#[test]
fn rows_in_sql(rt: HostRuntime) -> Result<(), Fail> {
    let alloc = rt.alloc();
    for row in &ROWS {
        let store = SqlStore::in_memory(alloc).ok().ok_or("a store")?;
        assert_row(&rt, alloc, row, store)?;
    }
    Ok(())
}

/// The world that the scenario leads to.
fn world_of(alloc: Global, parts: &[&str]) -> Result<World<MemStore>, Fail> {
    let text = text_of(alloc, parts)?;
    let mut source = Source::new(text.as_slice());
    replay_world(alloc, &mut source, MemStore::new(alloc)).map_err(|_| Fail::from("no world"))
}

/// The failure of one node cuts those that depend on it, and only those.
#[test]
fn who_is_cut_in_a_cascade(rt: HostRuntime) -> Result<(), Fail> {
    let alloc = rt.alloc();
    let world = world_of(alloc, &[THREE_SHARDS, WORK, ASKED, VOTED])?;
    let mut cut = Vec::new(alloc);
    for note in world.history().notes() {
        if let Note::Cut { node, keep } = note {
            cut.push((*node, *keep))?;
        }
    }
    let expected = [
        (NodeId::Worker(1), 0),
        (NodeId::Shard(1), 0),
        (NodeId::Worker(2), 0),
        (NodeId::Shard(2), 0),
    ];
    assert_eq!(rt; cut.as_slice(), expected.as_slice());
    Ok(())
}

/// A store on which a check was begun is not fresh, and nothing is written.
#[test]
fn a_store_that_was_used(rt: HostRuntime) -> Result<(), Fail> {
    let alloc = rt.alloc();
    let store = world_of(alloc, &[ONE_WORKER, PUT, "check w1\n"])?.into_store();
    let text = text_of(alloc, &[ONE_WORKER])?;
    let (mut source, mut sink) = (Source::new(text.as_slice()), Sink::new(Vec::new(alloc)));
    let answer = replay(alloc, &mut source, &mut sink, store);
    assert_eq!(rt; answer, Err(ReplayFault::Open(OpenError::NotFresh)));
    assert!(rt; sink.into_inner().is_empty());
    Ok(())
}

/// The store is given back with what the steps have left in it, and is not fresh for the next replay, which gives it
/// back too.
#[test]
fn the_store_is_given_back(rt: HostRuntime) -> Result<(), Fail> {
    let alloc = rt.alloc();
    let text = text_of(alloc, &[ONE_WORKER, PUT, "check w1\n"])?;
    let (mut source, mut sink) = (Source::new(text.as_slice()), Sink::new(Vec::new(alloc)));
    let (answer, left) = replay_returning_store(alloc, Start::Open, &mut source, &mut sink, MemStore::new(alloc), &mut Nobody);
    assert_eq!(rt; answer, Ok(()));
    let mut left = left;
    assert!(rt; left.open_of(NodeId::Worker(1)) == Ok(Some(1)));
    let (mut source, mut sink) = (Source::new(text.as_slice()), Sink::new(Vec::new(alloc)));
    let (answer, left) = replay_returning_store(alloc, Start::Open, &mut source, &mut sink, left, &mut Nobody);
    assert_eq!(rt; answer, Err(ReplayFault::Open(OpenError::NotFresh)));
    let mut left = left;
    assert!(rt; left.next_instance() == Ok(2));
    Ok(())
}

/// The bytes of the two checkpoints that a check to its end leaves.
#[test]
fn what_a_check_leaves(rt: HostRuntime) -> Result<(), Fail> {
    let alloc = rt.alloc();
    let mut store = world_of(alloc, CHECKPOINT_OF_TWO)?.into_store();
    for (node, bytes) in [
        (NodeId::Worker(1), FIRST_WORKER.as_slice()),
        (NodeId::Shard(1), &SHARD),
    ] {
        let stored = store.permanent(alloc, node)?.ok_or("a checkpoint")?;
        assert_eq!(rt; stored.encode(alloc)?.as_slice(), bytes, "{node:?}");
    }
    Ok(())
}

/// Scenarios after which all nodes are up, and how many bags and tuples there are then.
const ALL_UP: [(&[&str], usize, usize); 3] = [
    (&[THREE_SHARDS, WORK, ASKED, VOTED], 3, 1),
    (&[ONE_WORKER, BOTH_UP], 1, 0),
    (&[TWO_WORKERS, PUT, OVERLAPPING], 1, 2),
];

#[test]
fn who_is_up_at_the_end(rt: HostRuntime) -> Result<(), Fail> {
    let alloc = rt.alloc();
    for (parts, bags, tuples) in &ALL_UP {
        let world = world_of(alloc, parts)?;
        assert!(rt; world.is_steady());
        for node in ALL_NODES {
            if let Some(mode) = world.mode(node) {
                assert_eq!(rt; mode, Mode::Up, "{node:?}");
            }
        }
        let (mut there, mut held) = (0usize, 0usize);
        for bag in world.bags() {
            if let Some(bag) = bag {
                there = there.saturating_add(1);
                held = held.saturating_add(bag.len());
            }
        }
        assert_eq!(rt; (there, held), (*bags, *tuples));
    }
    Ok(())
}
