//! Scripts at their limits, and what they ask.

use kt_script::{
    Actual, Actuals, Command, Env, Name, Operation, Pattern, Script, ScriptError, Slot, is_name,
    is_name_character,
};
use kt_tuple::{Answer, Kind, Op, Tuple, Value};
use std::alloc::Global;
use std::test::Fail;

fn name(text: &str) -> Result<Name, Fail> {
    Ok(Name::new(text.as_bytes()).ok_or("no name")?)
}

fn string(text: &str) -> Result<Actual, Fail> {
    let text = kt_tuple::Str::new(text.as_bytes());
    Ok(Actual::Literal(Value::Str(text.ok_or("no string")?)))
}

fn out(alloc: Global, actual: Actual) -> Result<Command, Fail> {
    let mut actuals = Vec::new(alloc);
    actuals.push(actual)?;
    let actuals = Actuals::new(actuals);
    Ok(Command::Ask(Operation::Out(actuals.ok_or("no tuple")?)))
}

fn out_variable(alloc: Global, text: &str) -> Result<Command, Fail> {
    out(alloc, Actual::Variable(name(text)?))
}

fn formal(text: &str) -> Result<Slot, Fail> {
    Ok(Slot::Formal(Kind::Int, Some(name(text)?)))
}

fn pattern(alloc: Global, first: Slot, second: Option<Slot>) -> Result<Pattern, Fail> {
    let mut slots = Vec::new(alloc);
    slots.push(first)?;
    if let Some(second) = second {
        slots.push(second)?;
    }
    Ok(Pattern::new(slots).ok_or("no template")?)
}

fn add_one(to: &str, from: &str) -> Result<Command, Fail> {
    Ok(Command::Set {
        variable: name(to)?,
        source: name(from)?,
        plus: 1,
    })
}

fn got(alloc: Global, text: &str) -> Result<Answer, Fail> {
    Ok(Answer::Got(Tuple::parse(alloc, text.as_bytes())?))
}

/// What the script asks after the answers.
fn asked(alloc: Global, script: &Script, answers: &[Answer]) -> Result<Option<Op>, Fail> {
    let mut pc = 0;
    let mut env = Env::new(alloc, script)?;
    for answer in answers {
        let Some(next) = script.next(alloc, pc, &env)? else {
            return Ok(None);
        };
        pc = next.pc;
        env = next.env.bind(alloc, script, pc, answer)?;
    }
    Ok(script.next(alloc, pc, &env)?.map(|next| next.op))
}

/// Whether the script asks for `out` of this tuple after one answer.
fn puts(alloc: Global, script: &Script, answer: Answer, text: &str) -> Result<bool, Fail> {
    let op = asked(alloc, script, &[answer])?;
    Ok(op == Some(Op::Out(Tuple::parse(alloc, text.as_bytes())?)))
}

/// `inp ("a")`, `unless 2`, `out ("b")`, `out ("c")`, `out ("d")`.
fn unless_script(alloc: Global) -> Result<Script, Fail> {
    let mut script = Script::new(alloc);
    let a = pattern(alloc, Slot::Actual(string("a")?), None)?;
    script.push(Command::Ask(Operation::Inp(a)))?;
    script.push(Command::Unless(2))?;
    for text in ["b", "c", "d"] {
        script.push(out(alloc, string(text)?)?)?;
    }
    Ok(script)
}

#[test]
fn unless_skips(rt: HostRuntime) -> Result<(), Fail> {
    let script = unless_script(rt.alloc())?;
    assert!(rt; puts(rt.alloc(), &script, Answer::None, "(\"d\")")?);
    let found = got(rt.alloc(), "(\"a\")")?;
    assert!(rt; puts(rt.alloc(), &script, found, "(\"b\")")?);
    let before = Env::new(rt.alloc(), &script)?;
    assert!(rt; !before.was_none());
    let after = before.bind(rt.alloc(), &script, 1, &Answer::None)?;
    assert!(rt; after.was_none());
    Ok(())
}

/// `in (?int x)`, `set y = x + 1`, `out (y)`.
fn set_script(alloc: Global) -> Result<Script, Fail> {
    let mut script = Script::new(alloc);
    let x = pattern(alloc, formal("x")?, None)?;
    script.push(Command::Ask(Operation::In(x)))?;
    script.push(add_one("y", "x")?)?;
    script.push(out_variable(alloc, "y")?)?;
    Ok(script)
}

#[test]
fn saturating_set(rt: HostRuntime) -> Result<(), Fail> {
    let script = set_script(rt.alloc())?;
    let greatest = got(rt.alloc(), "(9223372036854775807)")?;
    assert!(rt; puts(rt.alloc(), &script, greatest, "(9223372036854775807)")?);
    Ok(())
}

/// `in (?int x, ?int x)`, `out (x)`.
fn twice_script(alloc: Global) -> Result<Script, Fail> {
    let mut script = Script::new(alloc);
    let twice = pattern(alloc, formal("x")?, Some(formal("x")?))?;
    script.push(Command::Ask(Operation::In(twice)))?;
    script.push(out_variable(alloc, "x")?)?;
    Ok(script)
}

#[test]
fn binds_from_left_to_right(rt: HostRuntime) -> Result<(), Fail> {
    let script = twice_script(rt.alloc())?;
    assert_eq!(rt; script.names().len(), 1);
    assert!(rt; puts(rt.alloc(), &script, got(rt.alloc(), "(1, 2)")?, "(2)")?);
    assert!(rt; puts(rt.alloc(), &script, got(rt.alloc(), "(1)")?, "(0)")?);
    Ok(())
}

/// `inp (?bool b)`, `out (b)`.
fn truth_script(alloc: Global) -> Result<Script, Fail> {
    let mut script = Script::new(alloc);
    let b = pattern(alloc, Slot::Formal(Kind::Bool, Some(name("b")?)), None)?;
    script.push(Command::Ask(Operation::Inp(b)))?;
    script.push(out_variable(alloc, "b")?)?;
    Ok(script)
}

/// A variable of kind bool is false until it is bound, and no tuple of another kind binds it.
#[test]
fn a_truth_begins_as_false(rt: HostRuntime) -> Result<(), Fail> {
    let alloc = rt.alloc();
    let script = truth_script(alloc)?;
    assert!(rt; script.kind_of(&name("b")?) == Some(Kind::Bool));
    assert!(rt; puts(alloc, &script, Answer::None, "(false)")?);
    assert!(rt; puts(alloc, &script, got(alloc, "(true)")?, "(true)")?);
    assert!(rt; puts(alloc, &script, got(alloc, "(false)")?, "(false)")?);
    assert!(rt; puts(alloc, &script, got(alloc, "(1)")?, "(false)")?);
    assert!(rt; puts(alloc, &script, got(alloc, "(\"true\")")?, "(false)")?);
    Ok(())
}

/// `set` adds to ints and binds ints: a truth is neither of its sides.
#[test]
fn no_sum_of_truths(rt: HostRuntime) -> Result<(), Fail> {
    let mut script = truth_script(rt.alloc())?;
    assert_eq!(rt; script.push(add_one("n", "b")?), Err(ScriptError::Variable));
    let n = pattern(rt.alloc(), formal("n")?, None)?;
    script.push(Command::Ask(Operation::In(n)))?;
    assert_eq!(rt; script.push(add_one("b", "n")?), Err(ScriptError::Variable));
    assert_eq!(rt; script.push(add_one("n", "n")?), Ok(()));
    Ok(())
}

#[test]
fn refuses_use_before_binding(rt: HostRuntime) -> Result<(), Fail> {
    let mut script = Script::new(rt.alloc());
    let refused = script.push(add_one("x", "x")?);
    assert_eq!(rt; refused, Err(ScriptError::Variable));
    assert_eq!(rt; script.push(Command::Unless(0)), Err(ScriptError::Limit));
    Ok(())
}

/// What may name a variable.
#[test]
fn names(rt: HostRuntime) -> Result<(), Fail> {
    assert!(rt; is_name(b"task_1"));
    assert!(rt; is_name(b"aaaaaaaaaaaaaaaa"));
    assert!(rt; !is_name(b"aaaaaaaaaaaaaaaaa"));
    assert!(rt; !is_name(b"1x"));
    assert!(rt; !is_name(b"bool"));
    assert!(rt; is_name_character(b'_'));
    assert!(rt; !is_name_character(b'-'));
    Ok(())
}

/// A command is judged without being put in.
#[test]
fn judges(rt: HostRuntime) -> Result<(), Fail> {
    let mut script = Script::new(rt.alloc());
    assert_eq!(rt;
        script.refusal_of(&out_variable(rt.alloc(), "x")?),
        Some(ScriptError::Variable)
    );
    let x = pattern(rt.alloc(), formal("x")?, None)?;
    script.push(Command::Ask(Operation::In(x)))?;
    assert_eq!(rt; script.refusal_of(&out_variable(rt.alloc(), "x")?), None);
    assert_eq!(rt;
        script.refusal_of(&Command::Unless(201)),
        Some(ScriptError::Limit)
    );
    assert_eq!(rt; script.commands().len(), 1);
    Ok(())
}
