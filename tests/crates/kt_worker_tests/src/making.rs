//! Scripts, and what a worker asks as a text.

use kt_script::{Actual, Actuals, Command, Name, Operation, Pattern, Script, Slot};
use kt_tuple::{Kind, Op, Value};
use kt_worker::Worker;
use std::alloc::Global;
use std::test::Fail;

fn out(alloc: Global, actual: Actual) -> Result<Command, Fail> {
    let mut actuals = Vec::new(alloc);
    actuals.push(actual)?;
    let actuals = Actuals::new(actuals).ok_or("no tuple")?;
    Ok(Command::Ask(Operation::Out(actuals)))
}

fn pattern(alloc: Global, first: Slot, second: Option<Slot>) -> Result<Pattern, Fail> {
    let mut slots = Vec::new(alloc);
    slots.push(first)?;
    if let Some(second) = second {
        slots.push(second)?;
    }
    Ok(Pattern::new(slots).ok_or("no template")?)
}

fn number(n: i64) -> Actual {
    Actual::Literal(Value::Int(n))
}

/// `inp (1)`, `unless 1`, `out (2)`, `out (2)`.
pub(crate) fn skipping_script(alloc: Global) -> Result<Script, Fail> {
    let mut script = Script::new(alloc);
    let one = pattern(alloc, Slot::Actual(number(1)), None)?;
    script.push(Command::Ask(Operation::Inp(one)))?;
    script.push(Command::Unless(1))?;
    script.push(out(alloc, number(2))?)?;
    script.push(out(alloc, number(2))?)?;
    Ok(script)
}

fn formal(kind: Kind, name: &[u8]) -> Result<Slot, Fail> {
    let name = Name::new(name).ok_or("no name")?;
    Ok(Slot::Formal(kind, Some(name)))
}

/// `in (?int x, ?str y)`, `out (y)`.
pub(crate) fn binding_script(alloc: Global) -> Result<Script, Fail> {
    let mut script = Script::new(alloc);
    let (x, y) = (formal(Kind::Int, b"x")?, formal(Kind::Str, b"y")?);
    let both = pattern(alloc, x, Some(y))?;
    script.push(Command::Ask(Operation::In(both)))?;
    let y = Name::new(b"y").ok_or("no name")?;
    script.push(out(alloc, Actual::Variable(y))?)?;
    Ok(script)
}

/// A request, as `1 inp (1)`.
fn request_text(alloc: Global, number: u64, op: &Op) -> Result<String, Fail> {
    let mut text = number.to_string(alloc)?.into_bytes();
    text.push(b' ')?;
    op.write_to(&mut text)?;
    String::from_utf8(text).map_err(|_| Fail::from("no text"))
}

/// What the worker asks next; nothing where it asks nothing.
pub(crate) fn issued(alloc: Global, worker: &mut Worker, script: &Script) -> Result<String, Fail> {
    match worker.issue(alloc, script)? {
        Some((number, op)) => request_text(alloc, number, &op),
        None => Ok(String::new(alloc)),
    }
}

/// What the worker asks once more; nothing where nothing is unanswered.
pub(crate) fn repeated(alloc: Global, worker: &Worker) -> Result<String, Fail> {
    match worker.again() {
        Some((number, op)) => request_text(alloc, number, op),
        None => Ok(String::new(alloc)),
    }
}
