//! The words of a step.

use kt_link::Label;
use kt_tuple::{Answer, NodeId, Op, Template, Tuple};
use std::alloc::Global;
use std::test::Fail;

/// The text before and behind the first space.
pub(crate) fn first_word(text: &str) -> Result<(&str, &str), Fail> {
    Ok(text.split_once(' ').ok_or("two words")?)
}

pub(crate) fn small(text: &str) -> Result<u8, Fail> {
    Ok(text.parse::<u8>().ok().ok_or("a small number")?)
}

pub(crate) fn number(text: &str) -> Result<u64, Fail> {
    Ok(text.parse::<u64>().ok().ok_or("a number")?)
}

/// A node, as `w1` or `s2`.
pub(crate) fn node(text: &str) -> Result<NodeId, Fail> {
    if let Some(rest) = text.strip_prefix('w') {
        return Ok(NodeId::Worker(small(rest)?));
    }
    let rest = text.strip_prefix('s').ok_or("a node")?;
    Ok(NodeId::Shard(small(rest)?))
}

/// A label, as `2.1`: incarnation and count.
pub(crate) fn label(text: &str) -> Result<Label, Fail> {
    let (incarnation, count) = text.split_once('.').ok_or("a label")?;
    Ok(Label {
        incarnation: number(incarnation)?,
        count: number(count)?,
    })
}

pub(crate) fn is_yes(text: &str) -> Result<bool, Fail> {
    match text {
        "yes" => Ok(true),
        "no" => Ok(false),
        _ => Err(Fail::from("yes or no")),
    }
}

/// An operation, as `in (?int)`.
pub(crate) fn op(alloc: Global, text: &str) -> Result<Op, Fail> {
    let (word, rest) = first_word(text)?;
    if word == "out" {
        return Ok(Op::Out(Tuple::parse(alloc, rest.as_bytes())?));
    }
    let template = Template::parse(alloc, rest.as_bytes())?;
    match word {
        "in" => Ok(Op::In(template)),
        "rd" => Ok(Op::Rd(template)),
        "inp" => Ok(Op::Inp(template)),
        "rdp" => Ok(Op::Rdp(template)),
        _ => Err(Fail::from("another operation")),
    }
}

/// An answer, as `done`, `none` or `got (1)`.
pub(crate) fn answer(alloc: Global, text: &str) -> Result<Answer, Fail> {
    match text {
        "done" => Ok(Answer::Done),
        "none" => Ok(Answer::None),
        _ => {
            let tuple = text.strip_prefix("got ").ok_or("an answer")?;
            Ok(Answer::Got(Tuple::parse(alloc, tuple.as_bytes())?))
        }
    }
}
