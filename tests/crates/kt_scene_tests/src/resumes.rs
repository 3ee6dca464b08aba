//! Scenarios that stop, and go on from what their store holds: over a store in memory and one in SQL.

use crate::rollbacks::text_of;
use kt_core::{ResumeError, Scene, StepError, World};
use kt_history::{Note, What};
use kt_node::Mode;
use kt_scene::{
    Nobody, ReplayFault, Scenario, Sink, Source, Start, WorkKind, read_scene, replay_returning_store, resume_replay,
};
use kt_sql::SqlStore;
use kt_store::{CkptStore, MemStore};
use kt_tuple::NodeId;
use std::alloc::Global;
use std::process::Abort;
use std::test::Fail;

/// The scene of one worker that puts a tuple and takes it again, and one shard.
const PUT_AND_TAKE: &str =
    "linda-kt 1\nshards 1\nworker\nout (\"a\", 1)\nin (\"a\", ?int x)\nsteps\n";

/// The worker puts its tuple and hears that it is there.
const PUT: &str = "issue w1\ndeliver w1 s1\nserve s1 w1 0\ndeliver s1 w1\n";

/// A check with all votes and its verdict, of which nobody is told.
const AGREED: &str =
    "check w1\ndeliver w1 s1\ndeliver s1 w1\ndeliver w1 s1\ndeliver s1 w1\ndecide w1\n";

/// A check that the shard has joined, and no more.
const ASKED: &str = "check w1\ndeliver w1 s1\n";

/// Both learn of the Yes and roll each other back, and the worker goes on.
const GOES_ON: &str =
    "learn w1\nlearn s1\nrestart w1\nrestart s1\ndeliver w1 s1\ndeliver s1 w1\ndeliver s1 w1\n\
decide w1\ndeliver w1 s1\ndecide s1\nissue w1\ndeliver w1 s1\ndeliver w1 s1\nserve s1 w1 0\n";

/// The report where the tuple is there, and permanent too.
const STORED: &str =
    "survivors 1\nw1.1 out (\"a\", 1) done\nlost 0\nspace 1\n(\"a\", 1)\npermanent 1\n\
(\"a\", 1)\n";

/// The report where the tuple that is permanent was taken.
const TAKEN: &str =
    "survivors 2\nw1.1 out (\"a\", 1) done\nw1.2 in (\"a\", ?int) got (\"a\", 1)\nlost 0\n\
space 0\npermanent 1\n(\"a\", 1)\n";

/// The report where nothing was served.
const NOTHING: &str = "survivors 0\nlost 0\nspace 0\npermanent 0\n";

/// What ran until the stop, what runs then, its report, and the fault with which it ends.
type Row = (
    &'static [&'static str],
    &'static [&'static str],
    &'static str,
    Result<(), ReplayFault>,
);

/// By another script the worker does not fit, and where the scene has a worker more the shard does not.
const NO_WORKER: ResumeError = ResumeError::Unfit {
    node: NodeId::Worker(1),
};
const NO_SHARD: ResumeError = ResumeError::Unfit {
    node: NodeId::Shard(1),
};

const ROWS: [Row; 13] = [
    // resumed: as it was stopped
    (&[PUT_AND_TAKE, PUT, AGREED], &[PUT_AND_TAKE], STORED, Ok(())),
    // resumed: and goes on
    (
        &[PUT_AND_TAKE, PUT, AGREED],
        &[PUT_AND_TAKE, GOES_ON],
        TAKEN,
        Ok(()),
    ),
    // resumed: by another script
    (
        &[PUT_AND_TAKE, PUT, AGREED],
        &["linda-kt 1\nshards 1\nworker\nout (\"b\")\nsteps\n"],
        "",
        Err(ReplayFault::Resume(NO_WORKER)),
    ),
    // stopped_between_votes: as it was stopped
    (&[PUT_AND_TAKE, PUT, ASKED], &[PUT_AND_TAKE], NOTHING, Ok(())),
    // stopped_between_votes: the verdict is open
    (
        &[PUT_AND_TAKE, PUT, ASKED],
        &[PUT_AND_TAKE, "learn s1\n"],
        "",
        Err(ReplayFault::Step {
            at: 1,
            cause: StepError::NotDecided,
        }),
    ),
    // stopped_between_votes: nothing is known yet of the tentative checkpoint
    (
        &[PUT_AND_TAKE, PUT, ASKED],
        &[PUT_AND_TAKE, "restart w1\n"],
        "",
        Err(ReplayFault::Step {
            at: 1,
            cause: StepError::Unresolved,
        }),
    ),
    // stopped_between_votes: the check is given up
    (
        &[PUT_AND_TAKE, PUT, ASKED],
        &[PUT_AND_TAKE, "abandon w1\nlearn w1\nlearn s1\n"],
        NOTHING,
        Ok(()),
    ),
    // nothing was stored: each node begins again from its beginning, once it is restarted
    (&[PUT_AND_TAKE, PUT], &[PUT_AND_TAKE], NOTHING, Ok(())),
    (
        &[PUT_AND_TAKE, PUT],
        &[PUT_AND_TAKE, "issue w1\n"],
        "",
        Err(ReplayFault::Step {
            at: 1,
            cause: StepError::WrongMode,
        }),
    ),
    // a scene with a worker or a shard more has other neighbours
    (
        &[PUT_AND_TAKE, PUT, AGREED],
        &["linda-kt 1\nshards 2\nworker\nout (\"a\", 1)\nin (\"a\", ?int x)\nsteps\n"],
        "",
        Err(ReplayFault::Resume(NO_WORKER)),
    ),
    (
        &[PUT_AND_TAKE, PUT, AGREED],
        &["linda-kt 1\nshards 1\nworker\nout (\"a\", 1)\nin (\"a\", ?int x)\nworker\nout (1)\nsteps\n"],
        "",
        Err(ReplayFault::Resume(NO_SHARD)),
    ),
    // what the scripts ask behind what is stored may be another thing
    (
        &[PUT_AND_TAKE, PUT, AGREED],
        &["linda-kt 1\nshards 1\nworker\nout (\"a\", 1)\nrd (\"a\", ?int x)\nsteps\n"],
        STORED,
        Ok(()),
    ),
    // a fault of the scenario comes first
    (
        &[PUT_AND_TAKE, PUT, AGREED],
        &["linda-kt 1\nshards 1\nworker\nout (\"b\")\nsteps\nwalk w1\n"],
        "",
        Err(ReplayFault::Scene {
            line: 6,
            cause: kt_scene::SceneError::Word,
        }),
    ),
];

/// How the scenario ends that begins so over the store, what it writes, and the store then.
fn replayed<S: CkptStore + Drop>(
    alloc: Global,
    start: Start,
    parts: &[&str],
    store: S,
) -> Result<(Result<(), ReplayFault>, Vec<u8>, S), Fail> {
    let text = text_of(alloc, parts)?;
    let (mut source, mut sink) = (Source::new(text.as_slice()), Sink::new(Vec::new(alloc)));
    let (answer, left) = replay_returning_store(alloc, start, &mut source, &mut sink, store, &mut Nobody);
    Ok((answer, sink.into_inner(), left))
}

/// The store as the scenario leaves it, which ends with no fault.
fn stopped<S: CkptStore + Drop>(alloc: Global, parts: &[&str], store: S) -> Result<S, Fail> {
    match replayed(alloc, Start::Open, parts, store)? {
        (Ok(()), _, left) => Ok(left),
        _ => Err(Fail::from("a scenario that does not end well")),
    }
}

/// The row's second scenario goes on from the first, and once more from a store that nothing was written to.
fn assert_row<S: CkptStore + Drop>(
    rt: &impl Abort,
    alloc: Global,
    row: &Row,
    store: S,
) -> Result<(), Fail> {
    let (before, parts, report, expected) = row;
    let store = stopped(alloc, before, store)?;
    let (answer, written, _) = replayed(alloc, Start::Resume, parts, store)?;
    assert_eq!(rt; answer, *expected, "{parts:?}");
    assert_eq!(rt; written.as_slice(), report.as_bytes(), "{parts:?}");
    Ok(())
}

#[test]
fn rows(rt: HostRuntime) -> Result<(), Fail> {
    let alloc = rt.alloc();
    for row in &ROWS {
        assert_row(&rt, alloc, row, MemStore::new(alloc))?;
    }
    Ok(())
}

#[test]
fn rows_in_sql(rt: HostRuntime) -> Result<(), Fail> {
    let alloc = rt.alloc();
    for row in &ROWS {
        let store = SqlStore::in_memory(alloc).ok().ok_or("a store")?;
        assert_row(&rt, alloc, row, store)?;
    }
    Ok(())
}

/// The scene of the scenario.
fn scene_of(alloc: Global, parts: &[&str]) -> Result<Scene, Fail> {
    let text = text_of(alloc, parts)?;
    let Scenario { scene, .. } =
        read_scene(alloc, &text, WorkKind::Steps).map_err(|_| Fail::from("no scene"))?;
    Ok(scene)
}

/// What happened are the acts of the permanent checkpoints; all nodes are down, no step was made, and nothing is on its
/// way.
#[test]
fn how_a_resumed_world_stands(rt: HostRuntime) -> Result<(), Fail> {
    let alloc = rt.alloc();
    let store = stopped(alloc, &[PUT_AND_TAKE, PUT, AGREED], MemStore::new(alloc))?;
    let scene = scene_of(alloc, &[PUT_AND_TAKE])?;
    let world = World::resume(alloc, scene, store).ok().ok_or("a world")?;
    let (worker, shard) = (NodeId::Worker(1), NodeId::Shard(1));
    let mut made = Vec::new(alloc);
    for note in world.history().notes() {
        if let Note::Act(act) = note {
            made.push((act.node, act.by))?;
        }
    }
    assert_eq!(rt; made.as_slice(), [(worker, 0), (shard, 1), (shard, 1), (worker, 3)].as_slice());
    let first = &world.history().notes()[1];
    assert!(rt; matches!(first, Note::Act(act) if act.what == What::Heard));
    assert_eq!(rt; (world.made(), world.steps_of(worker), world.steps_of(shard)), (0, 0, 0));
    assert_eq!(rt; (world.mode(worker), world.mode(shard)), (Some(Mode::Down), Some(Mode::Down)));
    assert_eq!(rt; (world.link_len(worker, shard), world.link_len(shard, worker)), (0, 0));
    assert!(rt; !world.is_steady());
    Ok(())
}

/// Where a world is not resumed, scene and store come back as they were, so that the right scene can go on.
#[test]
fn what_comes_back(rt: HostRuntime) -> Result<(), Fail> {
    let alloc = rt.alloc();
    let store = stopped(alloc, &[PUT_AND_TAKE, PUT, AGREED], MemStore::new(alloc))?;
    let scene = scene_of(alloc, &["linda-kt 1\nshards 1\nworker\nout (\"b\")\nsteps\n"])?;
    let refused = World::resume(alloc, scene, store).err().ok_or("a refusal")?;
    let node = NodeId::Worker(1);
    assert_eq!(rt; refused.cause, ResumeError::Unfit { node });
    assert_eq!(rt; refused.scene.scripts().len(), 1);
    let (answer, written, _) = replayed(alloc, Start::Resume, &[PUT_AND_TAKE], refused.store)?;
    assert_eq!(rt; answer, Ok(()));
    assert_eq!(rt; written.as_slice(), STORED.as_bytes());
    Ok(())
}

/// What goes on can be stopped again, at whatever step, and goes on once more.
#[test]
fn it_is_stopped_again(rt: HostRuntime) -> Result<(), Fail> {
    let alloc = rt.alloc();
    let steps = GOES_ON.lines().count();
    for count in 0..=steps {
        let mut part = String::new(alloc);
        for line in GOES_ON.lines().take(count) {
            part.push_str(line)?;
            part.push('\n')?;
        }
        let store = stopped(alloc, &[PUT_AND_TAKE, PUT, AGREED], MemStore::new(alloc))?;
        let parts = [PUT_AND_TAKE, part.as_str()];
        let (answer, _, left) = replayed(alloc, Start::Resume, &parts, store)?;
        assert_eq!(rt; answer, Ok(()), "{count}");
        let text = text_of(alloc, &[PUT_AND_TAKE])?;
        let (mut source, mut sink) = (Source::new(text.as_slice()), Sink::new(Vec::new(alloc)));
        let answer = resume_replay(alloc, &mut source, &mut sink, left);
        assert_eq!(rt; answer, Ok(()), "{count}");
        assert_eq!(rt; sink.into_inner().as_slice(), STORED.as_bytes(), "{count}");
    }
    Ok(())
}

/// The line that tells of a world that was not resumed.
#[test]
fn what_is_told(rt: HostRuntime) -> Result<(), Fail> {
    let alloc = rt.alloc();
    let told = [
        (ResumeError::Unfit { node: NodeId::Shard(2) }, "store: Unfit"),
        (ResumeError::Store(kt_store::StoreError::Damaged), "store: Damaged"),
        (ResumeError::Store(kt_store::StoreError::Memory), "store: Memory"),
        (ResumeError::OutOfMemory, "memory"),
    ];
    for (cause, line) in told {
        let text = ReplayFault::Resume(cause).to_string(alloc)?;
        assert_eq!(rt; text.as_str(), line);
    }
    Ok(())
}
