//! Worked scenarios that stop at each call on a disk, and go on from what the disk holds then.

use crate::stops::{Image, connected, on_disk};
use kt_core::World;
use kt_scene::{Sink, write_report};
use kt_sql::SqlStore;
use kt_store::{CkptStore, MemStore};
use kt_walk::worked::{
    CASCADE, CHECKPOINT_OF_TWO, FAILS_AFTER_YES, OVERLAPPING_INSTANCES, Scenario,
};
use sqlite_disk::{Fuse, Memory};
use std::alloc::Global;
use std::process::Abort;
use std::test::Fail;

/// The report of the scenario's scene that goes on from the store, with no step.
fn resumed<S: CkptStore + Drop>(
    alloc: Global,
    scenario: &Scenario,
    store: S,
) -> Result<Vec<u8>, Fail> {
    let mut world = match World::resume(alloc, scenario.scene(alloc)?, store) {
        Ok(world) => world,
        Err(refused) => return Err(Fail::from(format!(in alloc; "{:?}", refused.cause)?)),
    };
    let mut sink = Sink::new(Vec::new(alloc));
    match write_report(alloc, &mut world, &mut sink) {
        Ok(()) => Ok(sink.into_inner()),
        Err(_) => Err(Fail::from("no report")),
    }
}

/// What goes on from the scenario's first so many steps, over a store in memory.
fn expected(alloc: Global, scenario: &Scenario, count: usize) -> Result<Vec<u8>, Fail> {
    let world = World::open(alloc, scenario.scene(alloc)?, MemStore::new(alloc));
    let mut world = world.ok().ok_or("a world")?;
    for step in &scenario.first(alloc, count)? {
        if world.step(alloc, *step).is_err() {
            return Err(Fail::from("a step was refused"));
        }
    }
    resumed(alloc, scenario, world.into_store())
}

/// The same after each number of steps.
fn all_expected(alloc: Global, scenario: &Scenario) -> Result<Vec<Vec<u8>>, Fail> {
    let mut reports = Vec::new(alloc);
    for count in 0..=scenario.steps.len() {
        reports.push(expected(alloc, scenario, count)?)?;
    }
    Ok(reports)
}

/// The store of a disk.
type OnFuse = SqlStore<sqlite::FileStore<Fuse<Memory>>>;

/// Makes the scenario's steps over the store until one is refused: how many were made, and the store then.
fn played(alloc: Global, scenario: &Scenario, store: OnFuse) -> Result<(usize, OnFuse), Fail> {
    let mut made = 0;
    let mut world = match World::open(alloc, scenario.scene(alloc)?, store) {
        Ok(world) => world,
        Err(refused) => return Ok((made, refused.store)),
    };
    for step in &scenario.first(alloc, scenario.steps.len())? {
        if world.step(alloc, *step).is_err() {
            break;
        }
        made += 1;
    }
    Ok((made, world.into_store()))
}

/// Plays the scenario over new files, each of which fails from some call on: how many steps were made, and the files
/// then; nothing where they did not even open.
fn stopped(
    alloc: Global,
    scenario: &Scenario,
    log: u64,
    db: u64,
) -> Result<Option<(usize, Image)>, Fail> {
    let log = Fuse::new(Memory::new(alloc), log);
    let db = Fuse::new(Memory::new(alloc), db);
    let Some(conn) = connected(alloc, log, db) else {
        return Ok(None);
    };
    let (made, conn) = match SqlStore::adopt(alloc, conn) {
        Ok(store) => {
            let (made, left) = played(alloc, scenario, store)?;
            (made, left.into_connection())
        }
        Err((_, conn)) => (0, conn),
    };
    let files = conn.into_store().close();
    let image = Image {
        log: Vec::from_slice(alloc, files.log.inner().bytes())?,
        db: Vec::from_slice(alloc, files.db.inner().bytes())?,
    };
    Ok(Some((made, image)))
}

/// What goes on from these files.
fn from_image(alloc: Global, scenario: &Scenario, image: &Image) -> Result<Vec<u8>, Fail> {
    let (log, db) = (on_disk(alloc, &image.log)?, on_disk(alloc, &image.db)?);
    let conn = connected(alloc, log, db).ok_or("it opens again")?;
    match SqlStore::adopt(alloc, conn) {
        Ok(store) => resumed(alloc, scenario, store),
        Err(_) => Err(Fail::from("no store")),
    }
}

/// One file fails from each call on in turn, until none does. What goes on then is what goes on before the stopped
/// step, or after it.
fn at_each_call(
    rt: &impl Abort,
    alloc: Global,
    scenario: &Scenario,
    is_log: bool,
) -> Result<(), Fail> {
    let expected = all_expected(alloc, scenario)?;
    for calls in 0..2000u64 {
        let (log, db) = if is_log {
            (calls, u64::MAX)
        } else {
            (u64::MAX, calls)
        };
        let Some((made, image)) = stopped(alloc, scenario, log, db)? else {
            continue;
        };
        let found = from_image(alloc, scenario, &image)?;
        let is_before = found.as_slice() == expected[made].as_slice();
        let is_after = match expected.get(made + 1) {
            Some(report) => found.as_slice() == report.as_slice(),
            None => false,
        };
        assert!(rt; is_before || is_after, "{calls}, after {made} steps");
        if made == scenario.steps.len() {
            return Ok(());
        }
    }
    Err(Fail::from("it comes to its end at last"))
}

const SCENARIOS: [&Scenario; 4] = [
    &CHECKPOINT_OF_TWO,
    &FAILS_AFTER_YES,
    &CASCADE,
    &OVERLAPPING_INSTANCES,
];

#[test]
fn at_each_call_on_the_log(rt: HostRuntime) -> Result<(), Fail> {
    for scenario in SCENARIOS {
        at_each_call(&rt, rt.alloc(), scenario, true)?;
    }
    Ok(())
}

#[test]
fn at_each_call_on_the_database(rt: HostRuntime) -> Result<(), Fail> {
    for scenario in SCENARIOS {
        at_each_call(&rt, rt.alloc(), scenario, false)?;
    }
    Ok(())
}

/// Once the verdict is written, what goes on has what the check saved, though nobody was told.
#[test]
fn what_a_verdict_saves(rt: HostRuntime) -> Result<(), Fail> {
    let alloc = rt.alloc();
    let nothing = b"survivors 0\nlost 0\nspace 0\npermanent 0\n";
    let saved = b"survivors 1\nw1.1 out (\"a\", 1) done\nlost 0\nspace 1\n(\"a\", 1)\npermanent 1\n(\"a\", 1)\n";
    let decided = CHECKPOINT_OF_TWO.steps.iter().position(|step| *step == "decide w1");
    let decided = decided.ok_or("a verdict")?;
    for (made, report) in all_expected(alloc, &CHECKPOINT_OF_TWO)?.iter().enumerate() {
        let wanted = if made <= decided {
            nothing.as_slice()
        } else {
            saved.as_slice()
        };
        assert!(rt; report.as_slice() == wanted, "{made}");
    }
    Ok(())
}
