//! Whether a note makes sense after those before it.

use crate::slowly::{line_after, note_at};
use kt_history::{Act, Note, What};
use kt_tuple::{Answer, NodeId};
use std::alloc::{AllocError, Global};

/// The act of this number.
fn act_at(notes: &[Note], number: u64) -> Option<&Act> {
    match note_at(notes, number as usize) {
        Some(Note::Act(act)) => Some(act),
        _ => None,
    }
}

fn is_shard(node: NodeId) -> bool {
    matches!(node, NodeId::Shard(_))
}

/// Whether both are about one request.
fn is_same(act: &Act, other: &Act) -> bool {
    act.worker == other.worker && act.number == other.number && act.op == other.op
}

/// Whether the act's cause asked for the request of the act.
fn heard_request(earlier: &[Note], act: &Act) -> bool {
    act_at(earlier, act.by).is_some_and(|cause| {
        matches!(cause.what, What::Issue | What::Repeat) && is_same(act, cause)
    })
}

/// Whether the act's cause is one of a shard that answered the request of the act so.
fn heard_reply(earlier: &[Note], act: &Act, answer: &Answer) -> bool {
    act_at(earlier, act.by).is_some_and(|cause| {
        let is_answering = match &cause.what {
            What::Served(given) | What::Again(given) => *given == *answer,
            _ => false,
        };
        is_answering && is_shard(cause.node) && is_same(act, cause)
    })
}

/// Whether the request of the act was served so before, in the log of its node.
fn was_served(
    alloc: Global,
    earlier: &[Note],
    act: &Act,
    answer: &Answer,
) -> Result<bool, AllocError> {
    let line = line_after(alloc, earlier, act.node)?;
    Ok(
        line.iter().any(|number| {
            act_at(earlier, *number as u64).is_some_and(|other| match &other.what {
                What::Served(given) => *given == *answer && is_same(act, other),
                _ => false,
            })
        }),
    )
}

fn act_fits(alloc: Global, earlier: &[Note], act: &Act) -> Result<bool, AllocError> {
    Ok(match &act.what {
        What::Issue | What::Repeat => act.by == 0,
        What::Heard | What::Served(_) => heard_request(earlier, act),
        What::Again(answer) => {
            heard_request(earlier, act) && was_served(alloc, earlier, act, answer)?
        }
        What::Accepted(answer) => heard_reply(earlier, act, answer),
        What::Ignored(None) => is_shard(act.node) && heard_request(earlier, act),
        What::Ignored(Some(answer)) => !is_shard(act.node) && heard_reply(earlier, act, answer),
    })
}

/// Whether the note makes sense after these: its cause is an earlier act that sent what was heard, and a cut keeps no
/// more than the log has.
pub fn fits(alloc: Global, earlier: &[Note], note: &Note) -> Result<bool, AllocError> {
    match note {
        Note::Act(act) => act_fits(alloc, earlier, act),
        Note::Cut { node, keep } => Ok(*keep <= line_after(alloc, earlier, *node)?.len() as u64),
    }
}
