//! The text of a journal, and what a replay of it writes.

use crate::streams::replayed;
use kt_core::{Step, World};
use kt_scene::{ReplayFault, Sink, WorkKind, read_scene, write_journal, write_report};
use kt_store::MemStore;
use kt_streams::{empty, whole};
use kt_tuple::NodeId;
use std::alloc::Global;
use std::process::Abort;
use std::test::Fail;

const WORKER: NodeId = NodeId::Worker(1);

const SHARD: NodeId = NodeId::Shard(1);

const SCENE: &[u8] =
    b"# two of a kind\nlinda-kt 1\nshards 1\nworker\nout (\"a\", 1)\nfaults\nfail s1 after 9\nend\n";

const STEPS: [Step; 3] = [
    Step::Issue { node: WORKER },
    Step::Deliver {
        from: WORKER,
        to: SHARD,
    },
    Step::Serve {
        shard: SHARD,
        worker: WORKER,
        place: 0,
    },
];

/// The world after these steps.
fn world_after(alloc: Global, steps: &[Step]) -> Result<World<MemStore>, Fail> {
    let scenario = read_scene(alloc, SCENE, WorkKind::Faults)?;
    let mut world = World::open(alloc, scenario.scene, MemStore::new(alloc)).map_err(|_| {
        Fail::from("no world")
    })?;
    for step in steps {
        world.step(alloc, *step).map_err(|_| Fail::from("refused"))?;
    }
    Ok(world)
}

/// What is written of the world and these steps, as a journal and as a report.
fn texts_after(rt: &impl Abort, alloc: Global, steps: &[Step]) -> Result<(Vec<u8>, Vec<u8>), Fail> {
    let mut world = world_after(alloc, steps)?;
    let mut report = Sink::new(Vec::new(alloc));
    assert_eq!(rt; write_report(alloc, &mut world, &mut report), Ok(()));
    let mut journal = Sink::new(Vec::new(alloc));
    assert_eq!(rt;
        write_journal(alloc, &mut world, steps, &mut journal),
        Ok(())
    );
    Ok((journal.into_inner(), report.into_inner()))
}

#[test]
fn a_journal(rt: HostRuntime) -> Result<(), Fail> {
    let (journal, _) = texts_after(&rt, rt.alloc(), &STEPS)?;
    let expected =
        b"# survivors 1\n# w1.1 out (\"a\", 1) done\n# lost 0\n# space 1\n# (\"a\", 1)\n# permanent 0\n\
linda-kt 1\nshards 1\nworker\nout (\"a\", 1)\nsteps\nissue w1\ndeliver w1 s1\nserve s1 w1 0\nend\n";
    assert_eq!(rt; journal.as_slice(), expected.as_slice());
    Ok(())
}

/// A replay of what is written as a journal writes the report.
#[test]
fn journals_are_replayed(rt: HostRuntime) -> Result<(), Fail> {
    for count in 0..4usize {
        let steps = STEPS.get(..count).ok_or("so many steps")?;
        let (journal, report) = texts_after(&rt, rt.alloc(), steps)?;
        let (answer, left) = replayed(rt.alloc(), whole(&journal), empty(rt.alloc()));
        assert_eq!(rt; answer, Ok(()));
        assert_eq!(rt; left.bytes.as_slice(), report.as_slice());
    }
    Ok(())
}

/// A writer that fails has a front of the journal.
#[test]
fn a_journal_is_cut_short(rt: HostRuntime) -> Result<(), Fail> {
    let (journal, _) = texts_after(&rt, rt.alloc(), &STEPS)?;
    let mut world = world_after(rt.alloc(), &STEPS)?;
    let mut drain = empty(rt.alloc());
    drain.at_once = 30;
    drain.good = 3;
    let mut sink = Sink::new(drain);
    let answer = write_journal(rt.alloc(), &mut world, &STEPS, &mut sink);
    assert_eq!(rt; answer, Err(ReplayFault::Write));
    let left = sink.into_inner();
    assert_eq!(rt; left.bytes.as_slice(), journal.get(..90).ok_or("a front")?);
    Ok(())
}
