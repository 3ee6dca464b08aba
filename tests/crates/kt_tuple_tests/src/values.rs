//! Each public call on its happy path, the makers at their limits, and examples worked out by hand.

use kt_tuple::{Answer, Kind, NodeId, Op, ParseError, Place, Str, Template, Tuple, Value};
use std::alloc::Global;
use std::process::Abort;
use std::test::Fail;

/// A string is made of 0 to 64 characters from the space to the tilde.
#[test]
fn strings(rt: HostRuntime) -> Result<(), Fail> {
    assert_strings(&rt, rt.alloc(), &STRINGS)
}

/// A character, how often it stands, and whether a string is made of that.
const STRINGS: [(u8, usize, bool); 7] = [
    (b'a', 0, true),
    (b'a', 64, true),
    (b'a', 65, false),
    (b' ', 1, true),
    (b'~', 1, true),
    (31, 1, false),
    (127, 1, false),
];

fn assert_strings(rt: &impl Abort, alloc: Global, rows: &[(u8, usize, bool)]) -> Result<(), Fail> {
    for (character, count, is_made) in rows {
        match Str::new(&vec![in alloc; *character; *count]?) {
            Some(string) => {
                assert!(rt; *is_made, "{count} times {character} is made");
                assert_eq!(rt; string.as_bytes().len(), *count);
                assert!(rt; string.copy() == string);
            }
            None => assert!(rt; !*is_made, "{count} times {character} is not made"),
        }
    }
    Ok(())
}

/// A tuple and a template are made of 1 to 16 places.
#[test]
fn places(rt: HostRuntime) -> Result<(), Fail> {
    for (count, is_made) in [(0, false), (1, true), (9, true), (16, true), (17, false)] {
        let mut values = Vec::new(rt.alloc());
        let mut places = Vec::new(rt.alloc());
        for _ in 0..count {
            values.push(Value::Int(7))?;
            places.push(Place::Formal(Kind::Int))?;
        }
        let tuple = Tuple::new(rt.alloc(), values)?;
        let template = Template::new(rt.alloc(), places)?;
        assert_eq!(rt; tuple.is_some(), is_made, "a tuple of {count}");
        assert_eq!(rt; template.is_some(), is_made, "a template of {count}");
        if let (Some(tuple), Some(template)) = (tuple, template) {
            assert_eq!(rt; tuple.values().len(), count);
            assert_eq!(rt; template.places().len(), count);
            assert!(rt; template.matches(&tuple));
        }
    }
    Ok(())
}

/// Which values a place admits.
#[test]
fn admitted_values(rt: HostRuntime) -> Result<(), Fail> {
    let template = Template::parse(rt.alloc(), b"(?int, ?str, ?bool, 1, \"1\", true, false)")?;
    let tuple = Tuple::parse(rt.alloc(), b"(1, -1, \"1\", \"true\", true, false)")?;
    let expected = [
        (Kind::Int, [true, true, false, false, false, false]),
        (Kind::Str, [false, false, true, true, false, false]),
        (Kind::Bool, [false, false, false, false, true, true]),
        (Kind::Int, [true, false, false, false, false, false]),
        (Kind::Str, [false, false, true, false, false, false]),
        (Kind::Bool, [false, false, false, false, true, false]),
        (Kind::Bool, [false, false, false, false, false, true]),
    ];
    for (place, (kind, admitted)) in template.places().iter().zip(expected) {
        assert_eq!(rt; place.kind(), kind);
        for (value, is_admitted) in tuple.values().iter().zip(admitted) {
            assert!(rt; value.copy() == *value);
            assert_eq!(rt; place.admits(value), is_admitted, "{place:?} and {value:?}");
        }
    }
    Ok(())
}

/// A template, a tuple, and whether they match.
type Pair = (&'static [u8], &'static [u8], bool);

const PAIRS: [Pair; 15] = [
    (b"(\"a\", ?int)", b"(\"a\", 1)", true),
    (b"(\"a\", ?int)", b"(\"b\", 1)", false),
    (b"(\"a\", ?int)", b"(\"a\", \"1\")", false),
    (b"(\"a\", ?int)", b"(\"a\", 1, 2)", false),
    (b"(\"a\", ?int)", b"(\"a\")", false),
    (b"(?str, ?int)", b"(\"\", -1)", true),
    (b"(?int, ?str)", b"(\"\", -1)", false),
    (b"(1)", b"(1)", true),
    (b"(1)", b"(2)", false),
    (b"(1)", b"(\"1\")", false),
    (b"(true, ?bool)", b"(true, false)", true),
    (b"(true, ?bool)", b"(false, false)", false),
    (b"(true, ?bool)", b"(true, 1)", false),
    (b"(?int)", b"(true)", false),
    (b"(\"true\")", b"(true)", false),
];

#[test]
fn matching(rt: HostRuntime) -> Result<(), Fail> {
    assert_matches(&rt, rt.alloc(), &PAIRS)
}

fn assert_matches(rt: &impl Abort, alloc: Global, rows: &[Pair]) -> Result<(), Fail> {
    for (template, tuple, do_match) in rows {
        let template = Template::parse(alloc, template)?;
        let tuple = Tuple::parse(alloc, tuple)?;
        assert_eq!(rt; template.copy(alloc)?, template);
        assert_eq!(rt; tuple.copy(alloc)?, tuple);
        assert_eq!(rt;
            template.matches(&tuple),
            *do_match,
            "{template:?} and {tuple:?}"
        );
        if *do_match {
            assert_eq!(rt; template.signature(), tuple.signature());
        }
    }
    Ok(())
}

/// The template of a tuple has its values as actuals.
#[test]
fn templates_of_tuples(rt: HostRuntime) -> Result<(), Fail> {
    for text in [
        b"(1)".as_slice(),
        b"(\"\")",
        b"(true, 1, 1, 1, 1, 1, 1, 1, 1, 1, 1, 1, 1, 1, 1, \"1\")",
    ] {
        assert!(rt; is_told_so(rt.alloc(), text)?);
    }
    Ok(())
}

fn is_told_so(alloc: Global, text: &[u8]) -> Result<bool, Fail> {
    let tuple = Tuple::parse(alloc, text)?;
    Ok(Template::of(alloc, &tuple)? == Template::parse(alloc, text)?)
}

/// The number of a signature, and its shard where there are two.
#[test]
fn shard_of_signature(rt: HostRuntime) -> Result<(), Fail> {
    for (text, number, shard) in [
        (b"(\"a\", 1)".as_slice(), 11, 2),
        (b"(\"a\")", 2, 1),
        (b"(1, 2)", 6, 1),
        (b"(true)", 3, 2),
        (b"(true, 1)", 16, 1),
        (b"(1, false)", 8, 1),
    ] {
        let op = Op::Out(Tuple::parse(rt.alloc(), text)?);
        assert_eq!(rt; op.signature().number(), number, "of {op:?}");
        assert_eq!(rt; op.signature().shard_of(2), shard, "of {op:?}");
    }
    Ok(())
}

/// Operations, no two of them equal.
fn ops(alloc: Global) -> Result<[Op; 10], ParseError> {
    let template = || Template::parse(alloc, b"(1)");
    Ok([
        Op::Out(Tuple::parse(alloc, b"(1)")?),
        Op::Out(Tuple::parse(alloc, b"(1, 1)")?),
        Op::Out(Tuple::parse(alloc, b"(true)")?),
        Op::Out(Tuple::parse(alloc, b"(false)")?),
        Op::In(template()?),
        Op::Rd(template()?),
        Op::Inp(template()?),
        Op::Rdp(template()?),
        Op::Rdp(Template::parse(alloc, b"(?int)")?),
        Op::Rdp(Template::parse(alloc, b"(?bool)")?),
    ])
}

/// Answers, no two of them equal.
fn answers(alloc: Global) -> Result<[Answer; 4], ParseError> {
    Ok([
        Answer::Done,
        Answer::None,
        Answer::Got(Tuple::parse(alloc, b"(1)")?),
        Answer::Got(Tuple::parse(alloc, b"(2)")?),
    ])
}

/// A copy equals what was copied and nothing else.
#[test]
fn copies(rt: HostRuntime) -> Result<(), Fail> {
    assert_ops(&rt, rt.alloc(), &ops(rt.alloc())?)?;
    assert_given(&rt, rt.alloc(), &answers(rt.alloc())?)
}

fn assert_ops(rt: &impl Abort, alloc: Global, ops: &[Op]) -> Result<(), Fail> {
    for (i, op) in ops.iter().enumerate() {
        for (j, other) in ops.iter().enumerate() {
            assert_eq!(rt; op.copy(alloc)? == *other, i == j, "{op:?} and {other:?}");
        }
    }
    Ok(())
}

fn assert_given(rt: &impl Abort, alloc: Global, answers: &[Answer]) -> Result<(), Fail> {
    for (i, answer) in answers.iter().enumerate() {
        for (j, other) in answers.iter().enumerate() {
            assert_eq!(rt;
                answer.copy(alloc)? == *other,
                i == j,
                "{answer:?} and {other:?}"
            );
        }
    }
    Ok(())
}

/// Each node has a place of its own in a table of all nodes.
#[test]
fn node_numbers(rt: HostRuntime) {
    for (node, number) in [
        (NodeId::Worker(0), 0),
        (NodeId::Shard(0), 1),
        (NodeId::Worker(1), 2),
        (NodeId::Shard(255), 511),
    ] {
        assert_eq!(rt; node.index(), number, "of {node:?}");
    }
}
