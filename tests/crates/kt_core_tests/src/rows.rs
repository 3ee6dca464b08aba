//! Scenes in rows: each step with what comes of it, and how the world stands then.

use crate::making::{opened, scripts};
use crate::texts::{note_text, service_texts, space_texts};
use kt_core::Step;
use kt_history::Note;
use kt_node::Mode;
use kt_tuple::NodeId;
use kt_walk::lines::step;
use kt_walk::scenes::Game;
use std::alloc::Global;
use std::process::Abort;
use std::test::Fail;

/// A step, and what comes of it: its note, or the name of its refusal.
pub(crate) type Row = (&'static str, &'static str);

/// Steps, and how the world stands when they were made.
#[derive(Clone, Copy)]
pub(crate) struct Stage {
    pub(crate) rows: &'static [Row],
    /// What survives, in the order made. Nothing is lost.
    pub(crate) survivors: &'static [&'static str],
    /// The tuples that are left, in rising order.
    pub(crate) tuples: &'static [&'static str],
    /// How many notes there are.
    pub(crate) notes: usize,
    /// How many steps each node made. No other nodes are there.
    pub(crate) made: &'static [(NodeId, u64)],
}

/// A scene that is played.
#[derive(Clone, Copy)]
pub(crate) struct Played {
    pub(crate) shards: u8,
    /// The commands of each worker.
    pub(crate) workers: &'static [&'static [&'static str]],
    pub(crate) stages: &'static [Stage],
}

/// Plays the scenes.
pub(crate) fn play_all(rt: &impl Abort, alloc: Global, scenes: &[Played]) -> Result<(), Fail> {
    for scene in scenes {
        let mut world = opened(alloc, scene.shards, scripts(alloc, scene.workers)?)?;
        play(rt, alloc, &mut world, scene.stages)?;
    }
    Ok(())
}

/// Plays the stages one after the other.
pub(crate) fn play(
    rt: &impl Abort,
    alloc: Global,
    world: &mut Game,
    stages: &[Stage],
) -> Result<(), Fail> {
    for stage in stages {
        play_rows(rt, alloc, world, stage.rows)?;
        assert!(rt; world.history().notes().len() == stage.notes);
        leaves(rt, alloc, world, stage.survivors, stage.tuples)?;
        made(rt, world, stage.made);
    }
    Ok(())
}

fn play_rows(rt: &impl Abort, alloc: Global, world: &mut Game, rows: &[Row]) -> Result<(), Fail> {
    for (line, expected) in rows {
        let found = comes_of(rt, alloc, world, step(line)?)?;
        assert_eq!(rt; found.as_str(), *expected, "{line}");
    }
    Ok(())
}

/// Makes the step, and tells its one note, or why it was refused and changed nothing.
fn comes_of(rt: &impl Abort, alloc: Global, world: &mut Game, step: Step) -> Result<String, Fail> {
    let (notes, own) = counts(world, step.owner());
    let answer = world.step(alloc, step);
    let more = u8::from(answer.is_ok());
    let expected = (
        notes.saturating_add(usize::from(more)),
        own.saturating_add(u64::from(more)),
    );
    assert_eq!(rt; counts(world, step.owner()), expected, "{step:?}");
    match answer {
        Ok(()) => last_text(alloc, world.history().notes()),
        Err(refusal) => Ok(refusal.to_string(alloc)?),
    }
}

fn last_text(alloc: Global, notes: &[Note]) -> Result<String, Fail> {
    note_text(alloc, notes.last().ok_or("a note")?)
}

/// How many notes there are, and how many steps the node made.
pub(crate) fn counts(world: &Game, node: NodeId) -> (usize, u64) {
    (world.history().notes().len(), world.steps_of(node))
}

/// What survives, in the order made, and the tuples that are left; nothing is lost.
pub(crate) fn leaves(
    rt: &impl Abort,
    alloc: Global,
    world: &Game,
    survivors: &[&str],
    tuples: &[&str],
) -> Result<(), Fail> {
    assert_eq!(rt; world.history().lost_count(), 0);
    assert_eq!(rt; (world.faults(), world.wants()), (0, 0));
    are_texts(rt, &service_texts(alloc, world)?, survivors);
    are_texts(rt, &space_texts(alloc, world)?, tuples);
    Ok(())
}

fn are_texts(rt: &impl Abort, found: &[String], expected: &[&str]) {
    assert_eq!(rt; found.len(), expected.len());
    for (found, expected) in found.iter().zip(expected) {
        assert_eq!(rt; found.as_str(), *expected);
    }
}

/// How many steps each node made, that those and no others are there, and that the world made as many together.
pub(crate) fn made(rt: &impl Abort, world: &Game, counts: &[(NodeId, u64)]) {
    let together = counts.iter().fold(0, |sum, (_, count)| sum + *count);
    assert_eq!(rt; world.made(), together);
    for number in 0..=u8::MAX {
        made_by(rt, world, counts, NodeId::Worker(number));
        made_by(rt, world, counts, NodeId::Shard(number));
    }
}

fn made_by(rt: &impl Abort, world: &Game, counts: &[(NodeId, u64)], node: NodeId) {
    let expected = match counts.iter().find(|(other, _)| *other == node) {
        Some((_, count)) => (Some(Mode::Up), *count),
        None => (None, 0),
    };
    let found = (world.mode(node), world.steps_of(node));
    assert!(rt; found == expected, "{node:?}");
}
