//! What a script asks next, worked out from all the answers since its beginning.

use crate::finding::{Finding, holds};
use crate::slowly::{note_at, served};
use kt_history::Note;
use kt_script::{Actual, Command, Name, Operation, Pattern, Script, Slot};
use kt_tuple::{Answer, Kind, Op, Place, Str, Template, Tuple, Value};
use std::alloc::{AllocError, Global};

const NOT_MADE: Finding = Finding::NotMade("what a script asks");

/// What was bound, the last behind all others.
type Bound = Vec<(Name, Value)>;

/// What the name stands for: 0, the empty text or false, until it is bound.
fn meaning(script: &Script, bound: &Bound, name: &Name) -> Result<Value, Finding> {
    if let Some((_, value)) = bound.iter().rev().find(|it| it.0 == *name) {
        return Ok(value.copy());
    }
    match script.kind_of(name) {
        Some(Kind::Int) | None => Ok(Value::Int(0)),
        Some(Kind::Str) => Ok(Value::Str(Str::new(b"").ok_or(NOT_MADE)?)),
        Some(Kind::Bool) => Ok(Value::Bool(false)),
    }
}

fn value_of(script: &Script, bound: &Bound, actual: &Actual) -> Result<Value, Finding> {
    match actual {
        Actual::Literal(value) => Ok(value.copy()),
        Actual::Variable(name) => meaning(script, bound, name),
    }
}

fn place_of(script: &Script, bound: &Bound, slot: &Slot) -> Result<Place, Finding> {
    Ok(match slot {
        Slot::Actual(actual) => Place::Actual(value_of(script, bound, actual)?),
        Slot::Formal(kind, _) => Place::Formal(*kind),
    })
}

fn template_of(
    alloc: Global,
    script: &Script,
    bound: &Bound,
    pattern: &Pattern,
) -> Result<Template, Finding> {
    let mut places = Vec::new(alloc);
    for slot in pattern.as_slice() {
        let place = place_of(script, bound, slot)?;
        places.push(place).ok().ok_or(NOT_MADE)?;
    }
    Template::new(alloc, places)?.ok_or(NOT_MADE)
}

/// The operation as it is sent.
fn op_of(
    alloc: Global,
    script: &Script,
    bound: &Bound,
    operation: &Operation,
) -> Result<Op, Finding> {
    Ok(match operation {
        Operation::Out(actuals) => {
            let mut values = Vec::new(alloc);
            for actual in actuals.as_slice() {
                let value = value_of(script, bound, actual)?;
                values.push(value).ok().ok_or(NOT_MADE)?;
            }
            Op::Out(Tuple::new(alloc, values)?.ok_or(NOT_MADE)?)
        }
        Operation::In(pattern) => Op::In(template_of(alloc, script, bound, pattern)?),
        Operation::Rd(pattern) => Op::Rd(template_of(alloc, script, bound, pattern)?),
        Operation::Inp(pattern) => Op::Inp(template_of(alloc, script, bound, pattern)?),
        Operation::Rdp(pattern) => Op::Rdp(template_of(alloc, script, bound, pattern)?),
    })
}

/// A tuple that was got binds the names of the operation's places.
fn bind(bound: &mut Bound, operation: &Operation, answer: &Answer) -> Result<(), AllocError> {
    if let Answer::Got(tuple) = answer {
        for (slot, value) in operation.slots().iter().zip(tuple.values()) {
            if let Slot::Formal(_, Some(name)) = slot {
                bound
                    .push((name.copy(), value.copy()))
                    .map_err(|_| AllocError)?;
            }
        }
    }
    Ok(())
}

/// `set`: the sum is held at the ends of 64 bits.
fn assign(
    script: &Script,
    bound: &mut Bound,
    variable: &Name,
    source: &Name,
    plus: i64,
) -> Result<(), Finding> {
    let sum = match meaning(script, bound, source)? {
        Value::Int(number) => number.saturating_add(plus),
        Value::Str(_) | Value::Bool(_) => plus,
    };
    let value = Value::Int(sum);
    bound.push((variable.copy(), value)).ok().ok_or(NOT_MADE)
}

/// The operation that the script asks next after these answers.
pub fn asks(alloc: Global, script: &Script, answers: &[Answer]) -> Result<Option<Op>, Finding> {
    let mut bound = Vec::new(alloc);
    let mut left = answers.iter();
    let mut was_none = false;
    let mut skipped = 0u8;
    for command in script.commands() {
        if skipped > 0 {
            skipped = skipped.saturating_sub(1);
            continue;
        }
        match command {
            Command::Set {
                variable,
                source,
                plus,
            } => assign(script, &mut bound, variable, source, *plus)?,
            Command::Unless(count) => {
                if was_none {
                    skipped = *count;
                }
            }
            Command::Ask(operation) => {
                let Some(answer) = left.next() else {
                    return Ok(Some(op_of(alloc, script, &bound, operation)?));
                };
                bind(&mut bound, operation, answer)?;
                was_none = *answer == Answer::None;
            }
        }
    }
    Ok(None)
}

/// Of these services those of the worker are what its script asks, one after the other.
fn follows_script(
    alloc: Global,
    script: &Script,
    worker: u8,
    notes: &[Note],
    services: &[usize],
) -> Result<(), Finding> {
    let mut answers = Vec::new(alloc);
    for number in services {
        if let Some((act, answer)) = note_at(notes, *number).and_then(served) {
            if act.worker == worker {
                let asked = asks(alloc, script, &answers)?;
                holds(asked.as_ref() == Some(&act.op), "what a script asks")?;
                answers.push(answer.copy(alloc)?)?;
            }
        }
    }
    Ok(())
}

/// Of these services those of each worker are what its script asks, one after the other.
pub fn follow_scripts(
    alloc: Global,
    scripts: &[Script],
    notes: &[Note],
    services: &[usize],
) -> Result<(), Finding> {
    let mut worker = 0u8;
    for script in scripts {
        worker = worker.saturating_add(1);
        follows_script(alloc, script, worker, notes, services)?;
    }
    Ok(())
}
