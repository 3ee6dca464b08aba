//! A world over a file, and a world that goes on from it.

use kt_core::{Faults, Scene, World};
use kt_scene::{Scenario, Sink, Work, WorkKind, read_scene, write_report};
use kt_sql::SqlStore;
use kt_stage::settle;
use kt_store::CkptStore;
use std::alloc::Global;
use std::test::Fail;

/// A worker puts two tuples, and begins a check after the first; the second is never saved.
const FIRST: &[u8] =
    b"linda-kt 1\nshards 1\nworker\nout (1)\nout (2)\nfaults\ncheck w1 after 2\nend\n";

/// The same scene, with no fault lines.
const THEN: &[u8] = b"linda-kt 1\nshards 1\nworker\nout (1)\nout (2)\nfaults\nend\n";

fn read(alloc: Global, text: &[u8]) -> Result<(Scene, Faults), Fail> {
    let Scenario { scene, work } = read_scene(alloc, text, WorkKind::Faults)?;
    match work {
        Work::Faults(faults) => Ok((scene, faults)),
        Work::Steps(_) => Err(Fail::from("fault lines")),
    }
}

fn report<S: CkptStore>(alloc: Global, world: &mut World<S>) -> Result<Vec<u8>, Fail> {
    let mut sink = Sink::new(Vec::new(alloc));
    write_report(alloc, world, &mut sink)?;
    Ok(sink.into_inner())
}

/// Opens a world over a fresh file at the path, and lets it go on until nobody has a next step. Then the world is
/// dropped. Gives its report at the stop.
pub(crate) fn begin(rt: &HostRuntime, path: &str) -> Result<Vec<u8>, Fail> {
    let alloc = rt.alloc();
    let (scene, mut faults) = read(alloc, FIRST)?;
    let world = World::open(alloc, scene, SqlStore::open(rt, path)?);
    let mut world = world.ok().ok_or("a world")?;
    settle(alloc, &mut world, &mut faults)?;
    report(alloc, &mut world)
}

/// Goes on from the file: every node is down, and what happened is what the checkpoints hold. What was not saved is
/// done again. Gives the report of the world as it is resumed, and the one in the end.
pub(crate) fn go_on(rt: &HostRuntime, path: &str) -> Result<(Vec<u8>, Vec<u8>), Fail> {
    let alloc = rt.alloc();
    let (scene, mut faults) = read(alloc, THEN)?;
    let world = World::resume(alloc, scene, SqlStore::open(rt, path)?);
    let mut world = world.ok().ok_or("a world")?;
    let resumed = report(alloc, &mut world)?;
    settle(alloc, &mut world, &mut faults)?;
    Ok((resumed, report(alloc, &mut world)?))
}
