//! Steps that a world refuses, with what is said of them. What it says to write is written: no step is refused then.

use crate::recovery::{OF_CHECKS, OF_FAILURES};
use crate::rows::{OF_ONE_SHARD, OF_TWO_SHARDS, Row};
use kt_core::{Step, StepError, World};
use kt_reasons::explain_step;
use kt_store::MemStore;
use kt_text::{Scenario, WorkKind, read_scene};
use std::alloc::Global;
use std::process::Abort;
use std::test::Fail;

/// One worker that puts and takes at one shard, and a second that takes at once.
const ONE_SHARD: &str =
    "linda-kt 1\nshards 1\nworker\nout (\"a\", 1)\nin (\"a\", ?int x)\nworker\nin (\"b\", ?int x)\n# no step\nsteps\n";

/// One worker that asks the second of two shards, puts two equal tuples and looks for a third.
const TWO_SHARDS: &str =
    "linda-kt 1\nshards 2\nworker\nout (\"a\", 1)\nout (\"a\", 1)\nin (\"a\", 1)\ninp (\"b\", 1)\nsteps\n";

/// The text with these steps behind the scene.
fn text_of(alloc: Global, scene: &str, steps: &[&str]) -> Result<String, Fail> {
    let mut text = String::from_str(alloc, scene)?;
    for lines in steps {
        text.push_str(lines)?;
    }
    text.push_str("end\n")?;
    Ok(text)
}

/// The first step that the world refuses, with what is said of it; `None` where all are made.
fn refused(alloc: Global, text: &str) -> Result<Option<Vec<u8>>, Fail> {
    let Scenario { scene, work } = read_scene(alloc, text.as_bytes(), WorkKind::Steps)?;
    let steps: &[Step] = work.steps();
    let opened = World::open(alloc, scene, MemStore::new(alloc));
    let mut world = opened.ok().ok_or("a world")?;
    let mut at = 0usize;
    for step in steps {
        at = at.saturating_add(1);
        let made: Result<(), StepError> = world.step(alloc, *step);
        if let Err(cause) = made {
            let said = explain_step(alloc, text.as_bytes(), &world, steps, at, cause)?;
            return Ok(Some(said));
        }
    }
    Ok(None)
}

/// How many lines the text has.
fn lines_of(text: &str) -> usize {
    text.as_bytes().iter().filter(|c| **c == b'\n').count()
}

/// Of each refused step it is said what its row says; and what that says to write is not refused.
fn assert_rows(
    rt: &impl Abort,
    alloc: Global,
    scene: &str,
    rows: &[Row],
) -> Result<(), Fail> {
    for (before, step, expected, cure) in rows {
        let text = text_of(alloc, scene, &[*before, *step, "\n"])?;
        let said = refused(alloc, &text)?.ok_or("a step that is refused")?;
        let number = lines_of(scene).saturating_add(lines_of(before)).saturating_add(1);
        let wanted = format!(in alloc; "  line {number}: {step}\n  {expected}\n")?;
        assert_eq!(rt; str::from_utf8(&said)?, wanted.as_str());
        let cured = text_of(alloc, scene, &[*before, *cure])?;
        let again = refused(alloc, &cured)?;
        assert!(rt; again.is_none(), "{cured}: {again:?}");
    }
    Ok(())
}

#[test]
fn steps_at_one_shard(rt: HostRuntime) -> Result<(), Fail> {
    assert_rows(&rt, rt.alloc(), ONE_SHARD, OF_ONE_SHARD)
}

#[test]
fn steps_at_two_shards(rt: HostRuntime) -> Result<(), Fail> {
    assert_rows(&rt, rt.alloc(), TWO_SHARDS, OF_TWO_SHARDS)
}

#[test]
fn steps_of_nodes_that_failed(rt: HostRuntime) -> Result<(), Fail> {
    assert_rows(&rt, rt.alloc(), ONE_SHARD, OF_FAILURES)
}

#[test]
fn steps_of_checks(rt: HostRuntime) -> Result<(), Fail> {
    assert_rows(&rt, rt.alloc(), ONE_SHARD, OF_CHECKS)
}
