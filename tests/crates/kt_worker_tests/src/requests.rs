//! What a worker asks and accepts, one call after the other.

use crate::making::{binding_script, issued, repeated, skipping_script};
use crate::parts::made_again;
use kt_script::Script;
use kt_tuple::{Answer, Op, Template, Tuple};
use kt_worker::Worker;
use std::alloc::Global;
use std::process::Abort;
use std::test::Fail;

/// A call, and what it gives.
#[derive(Clone, Copy)]
enum Row {
    /// The next request.
    Issues(&'static str),
    /// The unanswered request once more.
    Repeats(&'static str),
    /// Whether none is accepted as the answer to `inp (1)` with this number.
    HearsNone(u64, bool),
    /// Whether this tuple is accepted as the answer to `in (?int, ?str)` with this number.
    HearsGot(u64, &'static str, bool),
    /// Whether an operation is left, and whether the worker is done.
    Left(bool, bool),
    /// The number of the last request.
    Number(u64),
}

fn hears_none(
    alloc: Global,
    script: &Script,
    worker: &mut Worker,
    number: u64,
) -> Result<bool, Fail> {
    let op = Op::Inp(Template::parse(alloc, b"(1)")?);
    Ok(worker.hear(alloc, script, number, &op, &Answer::None)?)
}

fn hears_got(
    alloc: Global,
    script: &Script,
    worker: &mut Worker,
    number: u64,
    tuple: &str,
) -> Result<bool, Fail> {
    let answer = Answer::Got(Tuple::parse(alloc, tuple.as_bytes())?);
    let op = Op::In(Template::parse(alloc, b"(?int, ?str)")?);
    Ok(worker.hear(alloc, script, number, &op, &answer)?)
}

fn assert_row(
    rt: &impl Abort,
    alloc: Global,
    script: &Script,
    worker: &mut Worker,
    row: Row,
) -> Result<(), Fail> {
    match row {
        Row::Issues(text) => assert_eq!(rt; issued(alloc, worker, script)?.as_str(), text),
        Row::Repeats(text) => {
            assert_eq!(rt; repeated(alloc, worker)?.as_str(), text);
            assert_eq!(rt; worker.asked().is_some(), !text.is_empty());
        }
        Row::HearsNone(number, is_accepted) => {
            assert_eq!(rt; hears_none(alloc, script, worker, number)?, is_accepted);
        }
        Row::HearsGot(number, tuple, is_accepted) => {
            assert_eq!(rt;
                hears_got(alloc, script, worker, number, tuple)?,
                is_accepted
            );
        }
        Row::Left(is_left, is_done) => {
            assert_eq!(rt; worker.has_next(script), is_left);
            assert_eq!(rt; worker.is_done(script), is_done);
        }
        Row::Number(number) => assert_eq!(rt; worker.number(), number),
    }
    Ok(())
}

/// Makes the calls of a new worker, which after each is copied and made again of its parts.
fn assert_rows(rt: &impl Abort, alloc: Global, script: &Script, rows: &[Row]) -> Result<(), Fail> {
    let mut worker = Worker::new(alloc, script)?;
    for row in rows {
        assert_row(rt, alloc, script, &mut worker, *row)?;
        worker = made_again(alloc, script, &worker)?;
    }
    Ok(())
}

const SKIPPING: [Row; 17] = [
    Row::Repeats(""),
    Row::Left(true, false),
    Row::Issues("1 inp (1)"),
    Row::Left(true, false),
    Row::Issues(""),
    Row::Repeats("1 inp (1)"),
    Row::HearsNone(2, false),
    Row::Repeats("1 inp (1)"),
    Row::HearsNone(1, true),
    Row::Repeats(""),
    // What was none skips the first of two.
    Row::Issues("2 out (2)"),
    Row::Number(2),
    Row::HearsNone(1, false),
    Row::HearsNone(2, false),
    Row::Repeats("2 out (2)"),
    Row::Issues(""),
    Row::Left(true, false),
];

#[test]
fn asks_one_after_the_other(rt: HostRuntime) -> Result<(), Fail> {
    let script = skipping_script(rt.alloc())?;
    assert_rows(&rt, rt.alloc(), &script, &SKIPPING)
}

const BINDING: [Row; 8] = [
    Row::Issues("1 in (?int, ?str)"),
    Row::Repeats("1 in (?int, ?str)"),
    Row::HearsGot(0, "(7, \"a\")", false),
    Row::HearsGot(1, "(7, \"a\")", true),
    Row::HearsGot(1, "(7, \"a\")", false),
    Row::Left(true, false),
    Row::Issues("2 out (\"a\")"),
    Row::Repeats("2 out (\"a\")"),
];

#[test]
fn keeps_its_variables(rt: HostRuntime) -> Result<(), Fail> {
    let script = binding_script(rt.alloc())?;
    assert_rows(&rt, rt.alloc(), &script, &BINDING)
}
