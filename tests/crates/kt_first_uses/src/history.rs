//! A first use of kt_history.

use kt_history::{Act, History, Note, What};
use kt_tuple::{Answer, NodeId, Op, Tuple};
use std::alloc::Global;
use std::test::Fail;

const WORKER: NodeId = NodeId::Worker(1);

const SHARD: NodeId = NodeId::Shard(1);

/// An act about the first request of the worker, `out (7)`, and the number of the act that caused it.
fn act(alloc: Global, node: NodeId, by: u64, what: What) -> Result<Note, Fail> {
    let op = Op::Out(Tuple::parse(alloc, b"(7)")?);
    let (worker, number) = (1, 1);
    Ok(Note::Act(Act {
        node,
        by,
        worker,
        number,
        op,
        what,
    }))
}

/// How many services are lost where a worker asks, a shard hears it and serves it, and then fails with nothing saved.
pub(crate) fn lost_by_a_failure(alloc: Global) -> Result<u64, Fail> {
    let mut history = History::new(alloc);
    let notes = [
        act(alloc, WORKER, 0, What::Issue)?,
        act(alloc, SHARD, 1, What::Heard)?,
        act(alloc, SHARD, 1, What::Served(Answer::Done))?,
        Note::Cut {
            node: SHARD,
            keep: 0,
        },
    ];
    for note in notes {
        if history.may_follow(&note) {
            history.push(note)?;
        }
    }
    Ok(history.lost_count())
}
