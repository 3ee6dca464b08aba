//! Scenes, fault lines, and the reports and journals of worlds.

use kt_core::{Fault, FaultKind, Faults, Scene, Step, World};
use kt_scene::{Sink, Source, replay, write_journal, write_report};
use kt_script::{Actual, Actuals, Command, Name, Operation, Pattern, Script, Slot};
use kt_store::{CkptStore, MemStore};
use kt_tuple::{Kind, NodeId, Str, Value};
use kt_walk::lines::step;
use kt_walk::scenes::Game;
use kt_walk::scripts;
use std::alloc::Global;
use std::test::Fail;

pub(crate) const WORKER_1: NodeId = NodeId::Worker(1);

pub(crate) const WORKER_2: NodeId = NodeId::Worker(2);

pub(crate) const SHARD_1: NodeId = NodeId::Shard(1);

/// How many shards there are, and the commands of each worker.
pub(crate) type SceneRow = (u8, &'static [&'static [&'static str]]);

/// A line: a kind, a node, and so many steps of its own.
pub(crate) type Line = (FaultKind, NodeId, u64);

fn x() -> Result<Name, Fail> {
    Ok(Name::new(b"x").ok_or("a name")?)
}

fn text(text: &[u8]) -> Result<Actual, Fail> {
    let text = Str::new(text).ok_or("a text")?;
    Ok(Actual::Literal(Value::Str(text)))
}

/// `in ("k", ?int x)`
fn takes_x(alloc: Global) -> Result<Command, Fail> {
    let mut slots = Vec::new(alloc);
    slots.push(Slot::Actual(text(b"k")?))?;
    slots.push(Slot::Formal(Kind::Int, Some(x()?)))?;
    let pattern = Pattern::new(slots).ok_or("a pattern")?;
    Ok(Command::Ask(Operation::In(pattern)))
}

/// `out ("done", x)`
fn puts_x(alloc: Global) -> Result<Command, Fail> {
    let mut actuals = Vec::new(alloc);
    actuals.push(text(b"done")?)?;
    actuals.push(Actual::Variable(x()?))?;
    let actuals = Actuals::new(actuals).ok_or("actuals")?;
    Ok(Command::Ask(Operation::Out(actuals)))
}

fn command(alloc: Global, text: &str) -> Result<Command, Fail> {
    match text {
        "in (\"k\", ?int x)" => takes_x(alloc),
        "out (\"done\", x)" => puts_x(alloc),
        _ => Ok(scripts::command(alloc, text)?),
    }
}

fn script(alloc: Global, texts: &[&str]) -> Result<Script, Fail> {
    let mut script = Script::new(alloc);
    for text in texts {
        let command = command(alloc, text)?;
        script.push(command).ok().ok_or("a command")?;
    }
    Ok(script)
}

pub(crate) fn scene(alloc: Global, (shards, workers): SceneRow) -> Result<Scene, Fail> {
    let mut scripts = Vec::new(alloc);
    for texts in workers {
        scripts.push(script(alloc, texts)?)?;
    }
    Ok(Scene::new(shards, scripts).ok_or("a scene")?)
}

pub(crate) fn faults(alloc: Global, lines: &[Line]) -> Result<Faults, Fail> {
    let mut faults = Faults::new(alloc);
    for (kind, node, after) in lines {
        faults.push(Fault {
            kind: *kind,
            node: *node,
            after: *after,
        })?;
    }
    Ok(faults)
}

pub(crate) fn opened(alloc: Global, scene: Scene) -> Result<Game, Fail> {
    let world = World::open(alloc, scene, MemStore::new(alloc));
    Ok(world.ok().ok_or("a world")?)
}

/// Makes the steps.
pub(crate) fn make_all(alloc: Global, world: &mut Game, steps: &[Step]) -> Result<(), Fail> {
    for step in steps {
        world.step(alloc, *step).ok().ok_or("a step")?;
    }
    Ok(())
}

/// Makes the steps of this text, which has commas between them.
pub(crate) fn make_lines(alloc: Global, world: &mut Game, lines: &str) -> Result<(), Fail> {
    for line in lines.split(", ").filter(|line| !line.is_empty()) {
        world.step(alloc, step(line)?).ok().ok_or("a step")?;
    }
    Ok(())
}

pub(crate) fn report<S: CkptStore>(alloc: Global, world: &mut World<S>) -> Result<Vec<u8>, Fail> {
    let mut sink = Sink::new(Vec::new(alloc));
    write_report(alloc, world, &mut sink)
        .ok()
        .ok_or("a report")?;
    Ok(sink.into_inner())
}

/// The text of a journal of these steps, which led to the world.
pub(crate) fn journal_of<S: CkptStore>(
    alloc: Global,
    world: &mut World<S>,
    steps: &[Step],
) -> Result<Vec<u8>, Fail> {
    let mut sink = Sink::new(Vec::new(alloc));
    write_journal(alloc, world, steps, &mut sink)
        .ok()
        .ok_or("a journal")?;
    Ok(sink.into_inner())
}

/// What a replay of the text writes.
pub(crate) fn replayed(alloc: Global, text: &[u8]) -> Result<Vec<u8>, Fail> {
    let (mut source, mut sink) = (Source::new(text), Sink::new(Vec::new(alloc)));
    replay(alloc, &mut source, &mut sink, MemStore::new(alloc))
        .ok()
        .ok_or("a replay")?;
    Ok(sink.into_inner())
}
