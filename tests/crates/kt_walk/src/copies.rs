//! A scene once more, so that what was done in it can be done anew.

use crate::finding::Finding;
use kt_core::Scene;
use kt_script::{Actual, Actuals, Command, Operation, Pattern, Script, Slot};
use std::alloc::Global;

const NOT_MADE: Finding = Finding::NotMade("a scene once more");

fn actuals(alloc: Global, from: &Actuals) -> Result<Actuals, Finding> {
    let mut actuals = Vec::new(alloc);
    for actual in from.as_slice() {
        actuals.push(actual.copy()).ok().ok_or(NOT_MADE)?;
    }
    Actuals::new(actuals).ok_or(NOT_MADE)
}

fn slot(from: &Slot) -> Slot {
    match from {
        Slot::Actual(actual) => Slot::Actual(actual.copy()),
        Slot::Formal(kind, None) => Slot::Formal(*kind, None),
        Slot::Formal(kind, Some(name)) => Slot::Formal(*kind, Some(name.copy())),
    }
}

fn pattern(alloc: Global, from: &Pattern) -> Result<Pattern, Finding> {
    let mut slots = Vec::new(alloc);
    for it in from.as_slice() {
        slots.push(slot(it)).ok().ok_or(NOT_MADE)?;
    }
    Pattern::new(slots).ok_or(NOT_MADE)
}

fn operation(alloc: Global, from: &Operation) -> Result<Operation, Finding> {
    Ok(match from {
        Operation::Out(it) => Operation::Out(actuals(alloc, it)?),
        Operation::In(it) => Operation::In(pattern(alloc, it)?),
        Operation::Rd(it) => Operation::Rd(pattern(alloc, it)?),
        Operation::Inp(it) => Operation::Inp(pattern(alloc, it)?),
        Operation::Rdp(it) => Operation::Rdp(pattern(alloc, it)?),
    })
}

fn command(alloc: Global, from: &Command) -> Result<Command, Finding> {
    Ok(match from {
        Command::Ask(it) => Command::Ask(operation(alloc, it)?),
        Command::Set {
            variable,
            source,
            plus,
        } => Command::Set {
            variable: variable.copy(),
            source: source.copy(),
            plus: *plus,
        },
        Command::Unless(count) => Command::Unless(*count),
    })
}

fn script(alloc: Global, from: &Script) -> Result<Script, Finding> {
    let mut script = Script::new(alloc);
    for it in from.commands() {
        let command = command(alloc, it)?;
        script.push(command).ok().ok_or(NOT_MADE)?;
    }
    Ok(script)
}

/// The same scene.
pub fn copy_of(alloc: Global, scene: &Scene) -> Result<Scene, Finding> {
    let mut scripts = Vec::new(alloc);
    for it in scene.scripts() {
        scripts.push(script(alloc, it)?)?;
    }
    Scene::new(scene.shards(), scripts).ok_or(NOT_MADE)
}
