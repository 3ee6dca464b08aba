//! Notes, services and tuples as texts.

use kt_history::{Act, Note, Service, What, space_of};
use kt_tuple::{Answer, NodeId, Tuple};
use kt_walk::scenes::Game;
use std::alloc::Global;
use std::test::Fail;

/// What the node did, as `s1 by 3: w1.2 in ("a", ?int) served got ("a", 1)`.
pub(crate) fn note_text(alloc: Global, note: &Note) -> Result<String, Fail> {
    match note {
        Note::Act(act) => act_text(alloc, act),
        Note::Cut { .. } => Err(Fail::from("a cut")),
    }
}

fn act_text(alloc: Global, act: &Act) -> Result<String, Fail> {
    let mut text = front_text(alloc, act)?.into_bytes();
    act.op.write_to(&mut text)?;
    let (what, answer) = what_text(&act.what);
    text.extend_from_slice(what.as_bytes())?;
    if let Some(answer) = answer {
        answer.write_to(&mut text)?;
    }
    text_of(text)
}

fn front_text(alloc: Global, act: &Act) -> Result<String, Fail> {
    let (kind, number) = match act.node {
        NodeId::Worker(number) => ('w', number),
        NodeId::Shard(number) => ('s', number),
    };
    let (by, worker, request) = (act.by, act.worker, act.number);
    Ok(format!(in alloc; "{kind}{number} by {by}: w{worker}.{request} ")?)
}

/// What was done, and the answer that it was done with.
fn what_text(what: &What) -> (&'static str, Option<&Answer>) {
    match what {
        What::Issue => (" issue", None),
        What::Repeat => (" repeat", None),
        What::Heard => (" heard", None),
        What::Served(answer) => (" served ", Some(answer)),
        What::Again(answer) => (" again ", Some(answer)),
        What::Accepted(answer) => (" accepted ", Some(answer)),
        What::Ignored(None) => (" ignored", None),
        What::Ignored(Some(answer)) => (" ignored ", Some(answer)),
    }
}

/// The service as a report has it.
fn service_text(alloc: Global, service: &Service) -> Result<String, Fail> {
    let (worker, request) = (service.worker, service.number);
    let front = format!(in alloc; "w{worker}.{request} ")?;
    let mut text = front.into_bytes();
    service.op.write_to(&mut text)?;
    text.push(b' ')?;
    service.answer.write_to(&mut text)?;
    text_of(text)
}

fn text_of(bytes: Vec<u8>) -> Result<String, Fail> {
    String::from_utf8(bytes).map_err(|_| Fail::from("no text"))
}

/// The texts of the tuples, in rising order.
pub(crate) fn sorted_texts(alloc: Global, tuples: &[Tuple]) -> Result<Vec<String>, Fail> {
    let mut texts = Vec::new(alloc);
    for tuple in tuples {
        texts.push(tuple_text(alloc, tuple)?)?;
    }
    texts.sort()?;
    Ok(texts)
}

fn tuple_text(alloc: Global, tuple: &Tuple) -> Result<String, Fail> {
    let mut text = Vec::new(alloc);
    tuple.write_to(&mut text)?;
    text_of(text)
}

/// The surviving services, in the order made.
pub(crate) fn service_texts(alloc: Global, world: &Game) -> Result<Vec<String>, Fail> {
    let mut texts = Vec::new(alloc);
    for service in &world.history().survivors(alloc)? {
        texts.push(service_text(alloc, service)?)?;
    }
    Ok(texts)
}

/// The texts of the tuples to which the surviving services lead, in rising order.
pub(crate) fn space_texts(alloc: Global, world: &Game) -> Result<Vec<String>, Fail> {
    let services = world.history().survivors(alloc)?;
    let bag = space_of(alloc, &services)?;
    sorted_texts(alloc, &bag.to_vec(alloc)?)
}
