//! Nodes and steps of their texts.

use crate::finding::Finding;
use kt_core::Step;
use kt_tuple::NodeId;

const NO_STEP: Finding = Finding::NotMade("a step");

fn number(text: &str) -> Result<u8, Finding> {
    text.parse::<u8>().ok().ok_or(NO_STEP)
}

/// The node of this name.
pub fn node(name: &str) -> Result<NodeId, Finding> {
    if let Some(text) = name.strip_prefix('w') {
        return Ok(NodeId::Worker(number(text)?));
    }
    let text = name.strip_prefix('s').ok_or(NO_STEP)?;
    Ok(NodeId::Shard(number(text)?))
}

/// The step of this line, as a scenario has it.
pub fn step(line: &str) -> Result<Step, Finding> {
    let (word, names) = line.split_once(' ').ok_or(NO_STEP)?;
    match word {
        "issue" => Ok(Step::Issue { node: node(names)? }),
        "repeat" => Ok(Step::Repeat { node: node(names)? }),
        "deliver" => delivery(names),
        "serve" => service(names),
        _ => own_step(word, node(names)?),
    }
}

/// The step of this word that is a node's own.
fn own_step(word: &str, node: NodeId) -> Result<Step, Finding> {
    match word {
        "take" => Ok(Step::Take { node }),
        "check" => Ok(Step::Check { node }),
        "decide" => Ok(Step::Decide { node }),
        "abandon" => Ok(Step::Abandon { node }),
        "learn" => Ok(Step::Learn { node }),
        "fail" => Ok(Step::Fail { node }),
        "restart" => Ok(Step::Restart { node }),
        _ => Err(NO_STEP),
    }
}

fn delivery(names: &str) -> Result<Step, Finding> {
    let (from, to) = names.split_once(' ').ok_or(NO_STEP)?;
    let from = node(from)?;
    let to = node(to)?;
    Ok(Step::Deliver { from, to })
}

fn service(names: &str) -> Result<Step, Finding> {
    let (shard, rest) = names.split_once(' ').ok_or(NO_STEP)?;
    let (worker, place) = rest.split_once(' ').ok_or(NO_STEP)?;
    let shard = node(shard)?;
    let worker = node(worker)?;
    let place = place.parse::<u64>().ok().ok_or(NO_STEP)?;
    Ok(Step::Serve {
        shard,
        worker,
        place,
    })
}
