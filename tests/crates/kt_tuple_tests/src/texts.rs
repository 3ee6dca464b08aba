//! The text of tuples and templates, against texts worked out by hand from the grammar.

use kt_tuple::reading::{after_place, int_at, int_of, value_at, value_of, word_at};
use kt_tuple::{Answer, Kind, NodeId, Op, ParseError, Place, Service, Str, Template, Tuple, Value};
use std::alloc::Global;
use std::process::Abort;
use std::test::Fail;

/// A text and what its parser answers.
type Row = (&'static [u8], Result<(), ParseError>);

/// Ints of tuples.
const INTS: [Row; 16] = [
    (b"(-9223372036854775808, \"\")", Ok(())),
    (b"(9223372036854775807)", Ok(())),
    (b"(9223372036854775808)", Err(ParseError::Range { at: 1 })),
    (b"(-9223372036854775809)", Err(ParseError::Range { at: 1 })),
    (
        b"(1, -9223372036854775809)",
        Err(ParseError::Range { at: 4 }),
    ),
    (
        b"(99999999999999999999999999)",
        Err(ParseError::Range { at: 1 }),
    ),
    (b"(-0)", Err(ParseError::Syntax { at: 2 })),
    (b"(01)", Err(ParseError::Syntax { at: 2 })),
    (b"(00)", Err(ParseError::Syntax { at: 2 })),
    (b"(-01)", Err(ParseError::Syntax { at: 2 })),
    (b"(--1)", Err(ParseError::Syntax { at: 2 })),
    (b"(+1)", Err(ParseError::Syntax { at: 1 })),
    (b"(1.5)", Err(ParseError::Syntax { at: 2 })),
    (b"(1a)", Err(ParseError::Syntax { at: 2 })),
    (b"(-)", Err(ParseError::Syntax { at: 2 })),
    (b"(0, -1, 10, -10)", Ok(())),
];

/// Strings of tuples.
const STRINGS: [Row; 18] = [
    (b"(\"\")", Ok(())),
    (b"(\"a\", 1)", Ok(())),
    (b"(\" ~\")", Ok(())),
    (b"(\"(1, 2)\")", Ok(())),
    (b"(\"\\\"\")", Ok(())),
    (b"(\"\\\\\")", Ok(())),
    (b"(\"\\\\\\\"\", 0)", Ok(())),
    (b"(\"", Err(ParseError::Syntax { at: 2 })),
    (b"(\"\"", Err(ParseError::Syntax { at: 3 })),
    (b"(\"a)", Err(ParseError::Syntax { at: 4 })),
    (b"(\"\\)", Err(ParseError::Syntax { at: 3 })),
    (b"(\"\\\"", Err(ParseError::Syntax { at: 4 })),
    (b"(\"\\n\")", Err(ParseError::Syntax { at: 3 })),
    (b"(\"a\tb\")", Err(ParseError::Syntax { at: 3 })),
    (b"(\"a\nb\")", Err(ParseError::Syntax { at: 3 })),
    (b"(\"\x7f\")", Err(ParseError::Syntax { at: 2 })),
    (b"(\"\xc3\xa9\")", Err(ParseError::Syntax { at: 2 })),
    (b"(\"\x1f\")", Err(ParseError::Syntax { at: 2 })),
];

/// Truths of tuples: each word is read from its first byte on, and breaks off where it is another one.
const TRUTHS: [Row; 18] = [
    (b"(true)", Ok(())),
    (b"(false)", Ok(())),
    (b"(true, false, 1, \"true\")", Ok(())),
    (b"(t)", Err(ParseError::Syntax { at: 2 })),
    (b"(f", Err(ParseError::Syntax { at: 2 })),
    (b"(tru)", Err(ParseError::Syntax { at: 4 })),
    (b"(fals)", Err(ParseError::Syntax { at: 5 })),
    (b"(true", Err(ParseError::Syntax { at: 5 })),
    (b"(truex)", Err(ParseError::Syntax { at: 5 })),
    (b"(trueish)", Err(ParseError::Syntax { at: 5 })),
    (b"(falsey)", Err(ParseError::Syntax { at: 6 })),
    (b"(true1)", Err(ParseError::Syntax { at: 5 })),
    (b"(true true)", Err(ParseError::Syntax { at: 5 })),
    (b"(tfalse)", Err(ParseError::Syntax { at: 2 })),
    (b"(True)", Err(ParseError::Syntax { at: 1 })),
    (b"(-true)", Err(ParseError::Syntax { at: 2 })),
    (b"(1, ?bool)", Err(ParseError::Syntax { at: 4 })),
    (
        b"(false, 9223372036854775808)",
        Err(ParseError::Range { at: 8 }),
    ),
];

/// What is no value.
const NO_VALUES: [Row; 6] = [
    (b"('a')", Err(ParseError::Syntax { at: 1 })),
    (b"(\"a\"\"b\")", Err(ParseError::Syntax { at: 4 })),
    (b"(\"a\" )", Err(ParseError::Syntax { at: 4 })),
    (b"(?int)", Err(ParseError::Syntax { at: 1 })),
    (b"(1, ?int)", Err(ParseError::Syntax { at: 4 })),
    (b"(x)", Err(ParseError::Syntax { at: 1 })),
];

/// Parentheses, commas and spaces.
const SHAPES: [Row; 20] = [
    (b"()", Err(ParseError::Syntax { at: 1 })),
    (b"", Err(ParseError::Syntax { at: 0 })),
    (b"(", Err(ParseError::Syntax { at: 1 })),
    (b"1", Err(ParseError::Syntax { at: 0 })),
    (b" (1)", Err(ParseError::Syntax { at: 0 })),
    (b"( 1)", Err(ParseError::Syntax { at: 1 })),
    (b"(1 )", Err(ParseError::Syntax { at: 2 })),
    (b"(1) ", Err(ParseError::Syntax { at: 3 })),
    (b"(1)(2)", Err(ParseError::Syntax { at: 3 })),
    (b"(1))", Err(ParseError::Syntax { at: 3 })),
    (b"(1", Err(ParseError::Syntax { at: 2 })),
    (b"(1,", Err(ParseError::Syntax { at: 3 })),
    (b"(1, ", Err(ParseError::Syntax { at: 4 })),
    (b"(1, )", Err(ParseError::Syntax { at: 4 })),
    (b"(, 1)", Err(ParseError::Syntax { at: 1 })),
    (b"(1,2)", Err(ParseError::Syntax { at: 3 })),
    (b"(1,  2)", Err(ParseError::Syntax { at: 4 })),
    (b"(1 , 2)", Err(ParseError::Syntax { at: 2 })),
    (b"(1, 2]", Err(ParseError::Syntax { at: 5 })),
    (b"((1))", Err(ParseError::Syntax { at: 1 })),
];

/// Too many places, too many characters, and the faults that come before.
const LIMITS: [Row; 12] = [
    (b"(9223372036854775808", Err(ParseError::Syntax { at: 20 })),
    (
        b"(9223372036854775808, x)",
        Err(ParseError::Syntax { at: 22 }),
    ),
    // 16 and 17 places
    (b"(1, 1, 1, 1, 1, 1, 1, 1, 1, 1, 1, 1, 1, 1, 1, 1)", Ok(())),
    (
        b"(1, 1, 1, 1, 1, 1, 1, 1, 1, 1, 1, 1, 1, 1, 1, 1, 1)",
        Err(ParseError::TooLong),
    ),
    (
        b"(false, 1, 1, 1, 1, 1, 1, 1, 1, 1, 1, 1, 1, 1, 1, true)",
        Ok(()),
    ),
    (
        b"(true, 1, 1, 1, 1, 1, 1, 1, 1, 1, 1, 1, 1, 1, 1, 1, false)",
        Err(ParseError::TooLong),
    ),
    (
        b"(1, 1, 1, 1, 1, 1, 1, 1, 1, 1, 1, 1, 1, 1, 1, 1, 1",
        Err(ParseError::Syntax { at: 50 }),
    ),
    (
        b"(1, 1, 1, 1, 1, 1, 1, 1, 1, 1, 1, 1, 1, 1, 1, 1, 9223372036854775808)",
        Err(ParseError::Range { at: 49 }),
    ),
    // 64 and 65 characters
    (
        b"(\"0123456789012345678901234567890123456789012345678901234567890123\")",
        Ok(()),
    ),
    (
        b"(\"01234567890123456789012345678901234567890123456789012345678901234\")",
        Err(ParseError::TooLong),
    ),
    // 64 characters, of which one is behind a backslash
    (
        b"(\"\\\"123456789012345678901234567890123456789012345678901234567890123\")",
        Ok(()),
    ),
    (
        b"(\"01234567890123456789012345678901234567890123456789012345678901234\", 9223372036854775808)",
        Err(ParseError::Range { at: 70 }),
    ),
];

/// Texts of templates and what `Template::parse` answers.
const TEMPLATES: [Row; 29] = [
    (b"(?int)", Ok(())),
    (b"(?str)", Ok(())),
    (b"(\"a\", ?int)", Ok(())),
    (b"(?int, ?str, 1, \"\")", Ok(())),
    (b"(1)", Ok(())),
    (b"()", Err(ParseError::Syntax { at: 1 })),
    (b"(?)", Err(ParseError::Syntax { at: 2 })),
    (b"(?", Err(ParseError::Syntax { at: 2 })),
    (b"(?i)", Err(ParseError::Syntax { at: 3 })),
    (b"(?in", Err(ParseError::Syntax { at: 4 })),
    (b"(?ins)", Err(ParseError::Syntax { at: 4 })),
    (b"(?st)", Err(ParseError::Syntax { at: 4 })),
    (b"(?bool)", Ok(())),
    (b"(true, ?bool, false, ?int)", Ok(())),
    (b"(?b", Err(ParseError::Syntax { at: 3 })),
    (b"(?b)", Err(ParseError::Syntax { at: 3 })),
    (b"(?boo)", Err(ParseError::Syntax { at: 5 })),
    (b"(?boolx)", Err(ParseError::Syntax { at: 6 })),
    (b"(?bool x)", Err(ParseError::Syntax { at: 6 })),
    (b"(?true)", Err(ParseError::Syntax { at: 2 })),
    (b"(?bstr)", Err(ParseError::Syntax { at: 3 })),
    (b"(? int)", Err(ParseError::Syntax { at: 2 })),
    (b"(?int x)", Err(ParseError::Syntax { at: 5 })),
    (b"(?intx)", Err(ParseError::Syntax { at: 5 })),
    (b"(?int,?int)", Err(ParseError::Syntax { at: 6 })),
    (b"(??int)", Err(ParseError::Syntax { at: 2 })),
    (
        b"(?int, ?int, ?int, ?int, ?int, ?int, ?int, ?int, ?int, ?int, ?int, ?int, ?int, ?int, ?int, ?int)",
        Ok(()),
    ),
    (
        b"(?int, ?int, ?int, ?int, ?int, ?int, ?int, ?int, ?int, ?int, ?int, ?int, ?int, ?int, ?int, ?int, ?int)",
        Err(ParseError::TooLong),
    ),
    (
        b"(?int, 9223372036854775808)",
        Err(ParseError::Range { at: 7 }),
    ),
];

/// Each text is answered as the grammar says, and one that is read is written back.
fn assert_answers(rt: &impl Abort, alloc: Global, rows: &[Row]) -> Result<(), Fail> {
    for (text, expected) in rows {
        match Tuple::parse(alloc, text) {
            Ok(tuple) => {
                assert!(rt; expected.is_ok(), "{text:?} is read");
                let mut written = Vec::new(alloc);
                tuple.write_to(&mut written)?;
                assert_eq!(rt; written.as_slice(), *text);
            }
            Err(error) => assert_eq!(rt; Err(error), *expected, "at {text:?}"),
        }
    }
    Ok(())
}

#[test]
fn ints(rt: HostRuntime) -> Result<(), Fail> {
    assert_answers(&rt, rt.alloc(), &INTS)
}

#[test]
fn strings(rt: HostRuntime) -> Result<(), Fail> {
    assert_answers(&rt, rt.alloc(), &STRINGS)
}

#[test]
fn truths(rt: HostRuntime) -> Result<(), Fail> {
    assert_answers(&rt, rt.alloc(), &TRUTHS)
}

#[test]
fn no_values(rt: HostRuntime) -> Result<(), Fail> {
    assert_answers(&rt, rt.alloc(), &NO_VALUES)
}

#[test]
fn shapes(rt: HostRuntime) -> Result<(), Fail> {
    assert_answers(&rt, rt.alloc(), &SHAPES)
}

#[test]
fn limits(rt: HostRuntime) -> Result<(), Fail> {
    assert_answers(&rt, rt.alloc(), &LIMITS)
}

#[test]
fn template_texts(rt: HostRuntime) -> Result<(), Fail> {
    assert_templates(&rt, rt.alloc(), &TEMPLATES)
}

fn assert_templates(rt: &impl Abort, alloc: Global, rows: &[Row]) -> Result<(), Fail> {
    for (text, expected) in rows {
        match Template::parse(alloc, text) {
            Ok(template) => {
                assert!(rt; expected.is_ok(), "{text:?} is read");
                let mut written = Vec::new(alloc);
                template.write_to(&mut written)?;
                assert_eq!(rt; written.as_slice(), *text);
            }
            Err(error) => assert_eq!(rt; Err(error), *expected, "at {text:?}"),
        }
    }
    Ok(())
}

/// The value that is read, and not only its text.
#[test]
fn values_are_read(rt: HostRuntime) -> Result<(), Fail> {
    let tuple = Tuple::parse(rt.alloc(), b"(-12, \"a\\\\\\\"b\", 0)")
        .ok()
        .ok_or("a tuple")?;
    match tuple.values() {
        [Value::Int(first), Value::Str(second), Value::Int(third)] => {
            assert_eq!(rt; *first, -12);
            assert_eq!(rt; second.as_bytes(), b"a\\\"b".as_slice());
            assert_eq!(rt; *third, 0);
        }
        _ => assert!(rt; false, "three values"),
    }
    Ok(())
}

/// The truth that is read, and not only its text; and the kind of a formal.
#[test]
fn truths_are_read(rt: HostRuntime) -> Result<(), Fail> {
    let tuple = Tuple::parse(rt.alloc(), b"(true, false)")?;
    assert!(rt; tuple.values() == [Value::Bool(true), Value::Bool(false)].as_slice());
    let template = Template::parse(rt.alloc(), b"(?bool, false)")?;
    let places = [Place::Formal(Kind::Bool), Place::Actual(Value::Bool(false))];
    assert!(rt; template.places() == places.as_slice());
    Ok(())
}

/// Operations as a report shows them.
#[test]
fn operations(rt: HostRuntime) -> Result<(), Fail> {
    let alloc = rt.alloc();
    assert_op(&rt, alloc, &Op::Out(tuple(alloc)?), b"out (\"a\", 1)")?;
    assert_op(&rt, alloc, &Op::In(template(alloc)?), b"in (\"a\", ?int)")?;
    assert_op(&rt, alloc, &Op::Rd(template(alloc)?), b"rd (\"a\", ?int)")?;
    assert_op(&rt, alloc, &Op::Inp(template(alloc)?), b"inp (\"a\", ?int)")?;
    assert_op(&rt, alloc, &Op::Rdp(template(alloc)?), b"rdp (\"a\", ?int)")
}

fn tuple(alloc: Global) -> Result<Tuple, ParseError> {
    Tuple::parse(alloc, b"(\"a\", 1)")
}

fn template(alloc: Global) -> Result<Template, ParseError> {
    Template::parse(alloc, b"(\"a\", ?int)")
}

fn assert_op(rt: &impl Abort, alloc: Global, op: &Op, text: &[u8]) -> Result<(), Fail> {
    let mut written = Vec::new(alloc);
    op.write_to(&mut written)?;
    assert_eq!(rt; written.as_slice(), text);
    Ok(())
}

/// Answers as a report shows them.
#[test]
fn answers(rt: HostRuntime) -> Result<(), Fail> {
    let alloc = rt.alloc();
    assert_answer(&rt, alloc, &Answer::Done, b"done")?;
    assert_answer(&rt, alloc, &Answer::Got(tuple(alloc)?), b"got (\"a\", 1)")?;
    assert_answer(&rt, alloc, &Answer::None, b"none")
}

fn assert_answer(rt: &impl Abort, alloc: Global, answer: &Answer, text: &[u8]) -> Result<(), Fail> {
    let mut written = Vec::new(alloc);
    answer.write_to(&mut written)?;
    assert_eq!(rt; written.as_slice(), text);
    Ok(())
}

/// A front of a text and what is behind it, or from where on no text goes on.
type Front = Result<(&'static [u8], &'static [u8]), &'static [u8]>;

/// What stands in front of a text and what is behind it; where nothing does, what could not be read.
#[test]
fn fronts(rt: HostRuntime) {
    assert_front(&rt, int_at(b"-12, 3)"), Ok((b"-12", b", 3)")));
    assert_front(&rt, value_at(b"\"a\\\"b\")"), Ok((b"\"a\\\"b\"", b")")));
    assert_front(&rt, value_at(b"truex)"), Ok((b"true", b"x)")));
    assert_front(&rt, value_at(b"fault"), Err(b"ult"));
    assert_front(&rt, int_at(b"--1"), Err(b"-1"));
}

fn assert_front(rt: &impl Abort, read: Front, expected: Front) {
    assert_eq!(rt; read, expected);
}

/// What stands behind a word, or from where on the text is not that word.
#[test]
fn words(rt: HostRuntime) {
    assert_rest(&rt, word_at(b"unless 3", b"unless "), Ok(b"3"));
    assert_rest(&rt, word_at(b"unlit", b"unless "), Err(b"it"));
}

fn assert_rest(
    rt: &impl Abort,
    read: Result<&'static [u8], &'static [u8]>,
    expected: Result<&'static [u8], &'static [u8]>,
) {
    assert_eq!(rt; read, expected);
}

/// What may stand behind a place: the end, or a comma, a space and another place.
#[test]
fn behind_places(rt: HostRuntime) {
    assert_next(&rt, after_place(b", 3)"), Ok(Some(b"3)")));
    assert_next(&rt, after_place(b")"), Ok(None));
    assert_next(&rt, after_place(b") "), Err(b" "));
    assert_next(&rt, after_place(b",3"), Err(b"3"));
}

fn assert_next(
    rt: &impl Abort,
    read: Result<Option<&'static [u8]>, &'static [u8]>,
    expected: Result<Option<&'static [u8]>, &'static [u8]>,
) {
    assert_eq!(rt; read, expected);
}

/// What spellings spell.
#[test]
fn spellings(rt: HostRuntime) {
    assert_eq!(rt; int_of(b"-9223372036854775808"), Some(i64::MIN));
    assert_eq!(rt; int_of(b"9223372036854775808"), None);
    assert!(rt; value_of(b"7") == Some(Value::Int(7)));
    assert!(rt; value_of(b"true") == Some(Value::Bool(true)));
    assert!(rt; value_of(b"false") == Some(Value::Bool(false)));
    assert!(rt; value_of(b"\"a\"") == Str::new(b"a").map(Value::Str));
}

/// Nodes and services as a report shows them.
#[test]
fn services(rt: HostRuntime) -> Result<(), Fail> {
    let mut written = Vec::new(rt.alloc());
    NodeId::Shard(12).write_to(&mut written)?;
    written.push(b' ')?;
    let service = Service {
        worker: 1,
        number: 20,
        op: Op::In(template(rt.alloc())?),
        answer: Answer::Got(tuple(rt.alloc())?),
    };
    service.write_to(&mut written)?;
    assert_eq!(rt;
        written.as_slice(),
        b"s12 w1.20 in (\"a\", ?int) got (\"a\", 1)".as_slice()
    );
    Ok(())
}
