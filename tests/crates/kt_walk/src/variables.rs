//! Commands with a variable.

use crate::finding::Finding;
use kt_script::{Actual, Actuals, Command, Name, Operation, Pattern, Slot};
use kt_tuple::{Kind, Str, Value};
use std::alloc::Global;

const NOT_MADE: Finding = Finding::NotMade("a command with a variable");

/// The variable `x`, which stands for ints.
fn x() -> Result<Name, Finding> {
    Name::new(b"x").ok_or(NOT_MADE)
}

/// The variable `truth`, which stands for bools.
fn truth() -> Result<Name, Finding> {
    Name::new(b"truth").ok_or(NOT_MADE)
}

fn a() -> Result<Actual, Finding> {
    let text = Str::new(b"a").ok_or(NOT_MADE)?;
    Ok(Actual::Literal(Value::Str(text)))
}

/// A formal of the kind, which binds the name.
fn one_place(alloc: Global, kind: Kind, name: Name) -> Result<Pattern, Finding> {
    let mut slots = Vec::new(alloc);
    slots
        .push(Slot::Formal(kind, Some(name)))
        .ok()
        .ok_or(NOT_MADE)?;
    Pattern::new(slots).ok_or(NOT_MADE)
}

/// `("a", ?int x)`
fn two_places(alloc: Global) -> Result<Pattern, Finding> {
    let (a, x) = (a()?, x()?);
    let mut slots = Vec::new(alloc);
    slots.push(Slot::Actual(a)).ok().ok_or(NOT_MADE)?;
    slots
        .push(Slot::Formal(Kind::Int, Some(x)))
        .ok()
        .ok_or(NOT_MADE)?;
    Pattern::new(slots).ok_or(NOT_MADE)
}

/// What the name stands for, alone.
fn one_value(alloc: Global, name: Name) -> Result<Actuals, Finding> {
    let mut actuals = Vec::new(alloc);
    actuals.push(Actual::Variable(name)).ok().ok_or(NOT_MADE)?;
    Actuals::new(actuals).ok_or(NOT_MADE)
}

/// `("a", x)`
fn two_values(alloc: Global) -> Result<Actuals, Finding> {
    let (a, x) = (a()?, x()?);
    let mut actuals = Vec::new(alloc);
    actuals.push(a).ok().ok_or(NOT_MADE)?;
    actuals.push(Actual::Variable(x)).ok().ok_or(NOT_MADE)?;
    Actuals::new(actuals).ok_or(NOT_MADE)
}

/// How many commands with a variable there are.
pub(crate) const WITH_VARIABLE: u64 = 6;

/// `in (?int x)`, `rdp ("a", ?int x)`, `out (x)`, `out ("a", x)`, `in (?bool truth)` or `out (truth)`.
pub(crate) fn with_variable(alloc: Global, number: u64) -> Result<Command, Finding> {
    let operation = match number {
        0 => Operation::In(one_place(alloc, Kind::Int, x()?)?),
        1 => Operation::Rdp(two_places(alloc)?),
        2 => Operation::Out(one_value(alloc, x()?)?),
        3 => Operation::Out(two_values(alloc)?),
        4 => Operation::In(one_place(alloc, Kind::Bool, truth()?)?),
        _ => Operation::Out(one_value(alloc, truth()?)?),
    };
    Ok(Command::Ask(operation))
}
