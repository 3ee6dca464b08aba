//! A first use of kt_script.

use kt_script::{Command, Env, Operation, Pattern, Script, Slot};
use kt_tuple::{Kind, Op};
use std::alloc::Global;
use std::test::Fail;

/// What the script `in (?int)` asks for first.
pub(crate) fn first_request(alloc: Global) -> Result<Op, Fail> {
    let mut places = Vec::new(alloc);
    places.push(Slot::Formal(Kind::Int, None))?;
    let any_int = Pattern::new(places).ok_or("a template")?;
    let mut script = Script::new(alloc);
    script.push(Command::Ask(Operation::In(any_int)))?;
    let variables = Env::new(alloc, &script)?;
    let next = script.next(alloc, 0, &variables)?.ok_or("an operation")?;
    Ok(next.op)
}
