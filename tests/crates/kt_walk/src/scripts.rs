//! Scripts, made of the texts of their commands.

use crate::finding::Finding;
use kt_script::{Actual, Actuals, Command, Operation, Pattern, Script, Slot};
use kt_tuple::{Place, Template, Tuple};
use std::alloc::Global;

const NO_TUPLE: Finding = Finding::NotMade("a tuple");

const NO_TEMPLATE: Finding = Finding::NotMade("a template");

const NO_COMMAND: Finding = Finding::NotMade("a command");

/// The values of a tuple.
fn actuals(alloc: Global, text: &str) -> Result<Actuals, Finding> {
    let tuple = Tuple::parse(alloc, text.as_bytes()).ok().ok_or(NO_TUPLE)?;
    let mut actuals = Vec::new(alloc);
    for value in tuple.values() {
        let actual = Actual::Literal(value.copy());
        actuals.push(actual).ok().ok_or(NO_TUPLE)?;
    }
    Actuals::new(actuals).ok_or(NO_TUPLE)
}

/// The place of a command at which nothing is bound.
fn slot(place: &Place) -> Slot {
    match place {
        Place::Actual(value) => Slot::Actual(Actual::Literal(value.copy())),
        Place::Formal(kind) => Slot::Formal(*kind, None),
    }
}

/// The places of a template.
fn pattern(alloc: Global, text: &str) -> Result<Pattern, Finding> {
    let template = Template::parse(alloc, text.as_bytes())
        .ok()
        .ok_or(NO_TEMPLATE)?;
    let mut slots = Vec::new(alloc);
    for place in template.places() {
        slots.push(slot(place)).ok().ok_or(NO_TEMPLATE)?;
    }
    Pattern::new(slots).ok_or(NO_TEMPLATE)
}

/// The operation of this word.
fn operation(alloc: Global, word: &str, text: &str) -> Result<Operation, Finding> {
    if word == "out" {
        return Ok(Operation::Out(actuals(alloc, text)?));
    }
    let pattern = pattern(alloc, text)?;
    match word {
        "in" => Ok(Operation::In(pattern)),
        "rd" => Ok(Operation::Rd(pattern)),
        "inp" => Ok(Operation::Inp(pattern)),
        "rdp" => Ok(Operation::Rdp(pattern)),
        _ => Err(NO_COMMAND),
    }
}

/// The command of this text: an operation without variables, or `unless`.
pub fn command(alloc: Global, text: &str) -> Result<Command, Finding> {
    let (word, rest) = text.split_once(' ').ok_or(NO_COMMAND)?;
    if word == "unless" {
        let skipped = rest.parse::<u8>().ok().ok_or(NO_COMMAND)?;
        return Ok(Command::Unless(skipped));
    }
    Ok(Command::Ask(operation(alloc, word, rest)?))
}

/// The script of these commands.
pub fn script(alloc: Global, texts: &[&str]) -> Result<Script, Finding> {
    let mut script = Script::new(alloc);
    for text in texts {
        let command = command(alloc, text)?;
        script.push(command).ok().ok_or(NO_COMMAND)?;
    }
    Ok(script)
}
