//! Scripts and steps, made of their texts.

use crate::words::{answer, first_word, is_yes, label, node, number, op, small};
use kt_node::{Ask, AppMessage, Talk};
use kt_script::{Actual, Actuals, Command, Operation, Pattern, Script, Slot};
use kt_shard::Request;
use kt_tuple::{NodeId, Place, Template, Tuple};
use kt_vote::Vote;
use std::alloc::Global;
use std::test::Fail;

/// The values of a tuple.
fn actuals(alloc: Global, text: &str) -> Result<Actuals, Fail> {
    let mut actuals = Vec::new(alloc);
    for value in Tuple::parse(alloc, text.as_bytes())?.values() {
        let actual = Actual::Literal(value.copy());
        actuals.push(actual)?;
    }
    Ok(Actuals::new(actuals).ok_or("a tuple")?)
}

/// The place of a command at which nothing is bound.
fn slot(place: &Place) -> Slot {
    match place {
        Place::Actual(value) => Slot::Actual(Actual::Literal(value.copy())),
        Place::Formal(kind) => Slot::Formal(*kind, None),
    }
}

/// The places of a template.
fn pattern(alloc: Global, text: &str) -> Result<Pattern, Fail> {
    let mut slots = Vec::new(alloc);
    for place in Template::parse(alloc, text.as_bytes())?.places() {
        slots.push(slot(place))?;
    }
    Ok(Pattern::new(slots).ok_or("a template")?)
}

/// The operation of this text, without variables.
fn operation(alloc: Global, text: &str) -> Result<Operation, Fail> {
    let (word, rest) = first_word(text)?;
    if word == "out" {
        return Ok(Operation::Out(actuals(alloc, rest)?));
    }
    Ok(Operation::In(pattern(alloc, rest)?))
}

/// The script of these commands, each `out` or `in`.
pub(crate) fn script(alloc: Global, texts: &[&str]) -> Result<Script, Fail> {
    let mut script = Script::new(alloc);
    for text in texts {
        script.push(Command::Ask(operation(alloc, text)?))?;
    }
    Ok(script)
}

/// What a node does, or hears of another one.
#[derive(Debug, Drop)]
pub(crate) enum Call {
    Issue,
    Repeat,
    Take,
    Serve { worker: u8, place: u64, by: u64 },
    Check,
    Decide,
    Abandon,
    Learn,
    Fail,
    Restart,
    AppMessage(NodeId, AppMessage),
    CheckAsk(NodeId, Ask),
    RollAsk(NodeId, Ask),
    Vote(NodeId, Vote),
    Verdict { instance: u64, yes: bool },
}

/// The call of this text: a step, or what a node sends.
pub(crate) fn call_of(alloc: Global, text: &str) -> Result<Call, Fail> {
    match text.split_once(": ") {
        Some((from, message)) => arrival(alloc, node(from)?, message),
        None => step(text),
    }
}

fn step(text: &str) -> Result<Call, Fail> {
    match text {
        "issue" => Ok(Call::Issue),
        "repeat" => Ok(Call::Repeat),
        "take" => Ok(Call::Take),
        "check" => Ok(Call::Check),
        "decide" => Ok(Call::Decide),
        "abandon" => Ok(Call::Abandon),
        "learn" => Ok(Call::Learn),
        "fail" => Ok(Call::Fail),
        "restart" => Ok(Call::Restart),
        _ => serve(text.strip_prefix("serve w").ok_or("another step")?),
    }
}

/// `serve w1 0 by 3`.
fn serve(text: &str) -> Result<Call, Fail> {
    let (worker, rest) = first_word(text)?;
    let (place, by) = rest.split_once(" by ").ok_or("a cause")?;
    Ok(Call::Serve {
        worker: small(worker)?,
        place: number(place)?,
        by: number(by)?,
    })
}

fn arrival(alloc: Global, from: NodeId, text: &str) -> Result<Call, Fail> {
    let (word, rest) = first_word(text)?;
    match word {
        "request" => Ok(Call::AppMessage(from, request(alloc, rest)?)),
        "reply" => Ok(Call::AppMessage(from, reply(alloc, rest)?)),
        "check-ask" => Ok(Call::CheckAsk(from, ask(rest)?)),
        "roll-ask" => Ok(Call::RollAsk(from, ask(rest)?)),
        "vote" => Ok(Call::Vote(from, vote(rest)?)),
        "verdict" => verdict(rest),
        _ => Err(Fail::from("another message")),
    }
}

/// `1 1.1 by 1 out (1)`: the number of the request, the label, the cause, what is asked.
fn request(alloc: Global, text: &str) -> Result<AppMessage, Fail> {
    let (front, rest) = text.split_once(" by ").ok_or("a cause")?;
    let (by, asked) = first_word(rest)?;
    let (count, sent) = first_word(front)?;
    let number_asked = number(count)?;
    let talk = Talk::Request(Request {
        number: number_asked,
        op: op(alloc, asked)?,
    });
    app(talk, sent, by)
}

/// `1 1.1 by 3 done to out (1)`: the number of the request, the label, the cause, the answer, what was asked.
fn reply(alloc: Global, text: &str) -> Result<AppMessage, Fail> {
    let (front, rest) = text.split_once(" by ").ok_or("a cause")?;
    let (by, rest) = first_word(rest)?;
    let (said, asked) = rest.split_once(" to ").ok_or("what was asked")?;
    let (count, sent) = first_word(front)?;
    app(reply_of(alloc, count, said, asked)?, sent, by)
}

fn reply_of(alloc: Global, count: &str, said: &str, asked: &str) -> Result<Talk, Fail> {
    let number = number(count)?;
    let answer = answer(alloc, said)?;
    let op = op(alloc, asked)?;
    Ok(Talk::Reply {
        request: Request { number, op },
        answer,
    })
}

fn app(talk: Talk, sent: &str, by: &str) -> Result<AppMessage, Fail> {
    let label = label(sent)?;
    let by = number(by)?;
    Ok(AppMessage { talk, label, by })
}

/// `7 1.1 1`: the instance, the label, the incarnation.
fn ask(text: &str) -> Result<Ask, Fail> {
    let (instance, rest) = first_word(text)?;
    let (sent, incarnation) = first_word(rest)?;
    Ok(Ask {
        instance: number(instance)?,
        label: label(sent)?,
        incarnation: number(incarnation)?,
    })
}

/// `7 1 yes`: the instance, the incarnation, the vote.
fn vote(text: &str) -> Result<Vote, Fail> {
    let (instance, rest) = first_word(text)?;
    let (incarnation, yes) = first_word(rest)?;
    Ok(Vote {
        instance: number(instance)?,
        incarnation: number(incarnation)?,
        yes: is_yes(yes)?,
    })
}

/// `7 yes`.
fn verdict(text: &str) -> Result<Call, Fail> {
    let (instance, yes) = first_word(text)?;
    Ok(Call::Verdict {
        instance: number(instance)?,
        yes: is_yes(yes)?,
    })
}
