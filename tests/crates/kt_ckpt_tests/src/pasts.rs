//! Pasts that look random: the acts of a log are those that the notes say, whatever was gathered when.

use kt_ckpt::{Acts, LogAct, Past};
use kt_draws::Draws;
use kt_history::{Act, Note, What};
use kt_tuple::{Answer, NodeId, Op, Tuple, Value};
use std::alloc::{AllocError, Global};
use std::test::*;

const NODES: [NodeId; 4] = [
    NodeId::Worker(1),
    NodeId::Worker(2),
    NodeId::Shard(1),
    NodeId::Shard(2),
];

/// How many acts the node remembered once the note of this number had come.
fn place(notes: &[Note], node: NodeId, number: u64) -> u64 {
    let mut place = 0u64;
    for note in notes.iter().take(number as usize) {
        match note {
            Note::Act(act) if act.node == node => place = place.saturating_add(1),
            Note::Cut { node: cut, keep } if *cut == node => place = *keep,
            _ => {}
        }
    }
    place
}

/// Whether the log has the act of this number in this form.
fn is_said(past: &Past, number: u64, said: &LogAct) -> bool {
    let history = past.history();
    let Some(act) = history.act(number) else {
        return false;
    };
    let by = history.act(act.by).map(|cause| cause.node);
    let by = by.map(|node| (node, place(history.notes(), node, act.by)));
    let is_same = said.by == by && said.worker == act.worker && said.number == act.number;
    is_same && said.op == act.op && said.what == act.what
}

/// Whether the acts of this number may stand in the node's log: none is served or heard of itself.
fn fits(past: &Past, numbers: &[u64]) -> bool {
    numbers.iter().all(|number| match past.history().act(*number) {
        Some(act) => matches!(act.what, What::Issue) == (act.by == 0),
        None => false,
    })
}

/// Whether these are the acts of the node's log, where each may stand in it, and none are given where one may not.
fn are_said(
    alloc: Global,
    past: &Past,
    node: NodeId,
    acts: Option<Acts>,
) -> Result<bool, AllocError> {
    let line = past.history().line(node);
    let Some(acts) = acts else {
        return Ok(!fits(past, line));
    };
    let said = acts.listed(alloc)?;
    let are_same = line
        .iter()
        .zip(&said)
        .all(|(number, said)| is_said(past, *number, said));
    Ok(are_same && said.len() == line.len() && acts.len() == line.len() as u64 && fits(past, line))
}

/// What the node may have heard: an act of the other kind, and of a shard one of this worker.
fn cause(past: &Past, draws: &mut Draws, node: NodeId, worker: u8) -> u64 {
    let notes = past.history().notes().len() as u64;
    for _ in 0..20u8 {
        let number = draws.below(notes + 1);
        match (node, past.history().act(number).map(|act| act.node)) {
            (NodeId::Worker(_), Some(NodeId::Shard(_))) => return number,
            (NodeId::Shard(_), Some(NodeId::Worker(sender))) if sender == worker => return number,
            _ => {}
        }
    }
    0
}

/// What the node does next; one time in a hundred a shard serves what it did not hear.
fn act(alloc: Global, past: &Past, draws: &mut Draws, node: NodeId) -> Result<Act, Fail> {
    let worker = match node {
        NodeId::Worker(own) => own,
        NodeId::Shard(_) => draws.byte(1, 2),
    };
    let mut by = cause(past, draws, node, worker);
    if matches!(node, NodeId::Worker(_)) && draws.below(2) == 0 || draws.below(100) == 0 {
        by = 0;
    }
    let what = match (node, by) {
        (NodeId::Worker(_), 0) => What::Issue,
        (NodeId::Worker(_), _) => What::Accepted(Answer::Done),
        (NodeId::Shard(_), _) if draws.below(2) == 0 => What::Heard,
        (NodeId::Shard(_), _) => What::Served(Answer::Done),
    };
    let number = draws.below(9);
    let values = vec![in alloc; Value::Int(number as i64)]?;
    Ok(Act {
        node,
        by,
        worker,
        number,
        op: Op::Out(Tuple::new(alloc, values)?.ok_or("a tuple")?),
        what,
    })
}

/// What comes next: an act, or one time in twenty a cut.
fn note(alloc: Global, past: &Past, draws: &mut Draws) -> Result<Note, Fail> {
    let node = NODES[draws.below(4) as usize];
    let line = past.history().line(node).len() as u64;
    if draws.below(20) > 0 {
        return Ok(Note::Act(act(alloc, past, draws, node)?));
    }
    // Mostly what is new goes.
    let most = if draws.below(4) == 0 {
        line
    } else {
        line.min(6)
    };
    let keep = line.saturating_sub(draws.below(most + 1));
    Ok(Note::Cut { node, keep })
}

#[test]
fn acts_are_those_of_the_lines(rt: HostRuntime) -> Result<(), Fail> {
    let alloc = rt.alloc();
    let mut draws = Draws(47);
    let mut past = Past::new(alloc);
    let (mut given, mut kept_back) = (0u32, 0u32);
    for _ in 0..1_500u32 {
        let next = note(alloc, &past, &mut draws)?;
        past.make_room(next.node())?;
        past.add(next);
        let node = NODES[draws.below(4) as usize];
        if draws.below(3) == 0 {
            past.gather(alloc, node)?;
        }
        if draws.below(4) == 0 {
            let acts = past.acts(alloc, node)?;
            if acts.is_some() {
                given += 1;
            } else {
                kept_back += 1;
            }
            assert!(rt; are_said(alloc, &past, node, acts)?);
        }
    }
    assert!(rt; given > 50 && kept_back > 5, "{given} {kept_back}");
    Ok(())
}

/// What was shared stays as it was, whatever happens then.
#[test]
fn shared_acts_stay(rt: HostRuntime) -> Result<(), Fail> {
    let alloc = rt.alloc();
    let mut draws = Draws(48);
    let mut past = Past::new(alloc);
    let node = NODES[0];
    let mut shared = Vec::new(alloc);
    for round in 0..60u64 {
        for _ in 0..draws.below(5) {
            let next = Note::Act(act(alloc, &past, &mut draws, node)?);
            past.make_room(node)?;
            past.add(next);
        }
        past.gather(alloc, node)?;
        let acts = past.acts(alloc, node)?.ok_or("acts")?;
        shared.push((format!(in alloc; "{acts:?}")?, acts))?;
        if round % 4 == 3 {
            let line = past.history().line(node).len() as u64;
            past.make_room(node)?;
            past.add(Note::Cut {
                node,
                keep: line.saturating_sub(draws.below(7)),
            });
        }
    }
    for (text, acts) in &shared {
        assert!(rt; format!(in alloc; "{acts:?}")?.as_str() == text.as_str());
    }
    Ok(())
}

/// There may be a block for each checkpoint: none of them takes a call of its own when they are dropped.
#[test]
fn a_long_chain_is_dropped(rt: HostRuntime) -> Result<(), Fail> {
    let alloc = rt.alloc();
    let mut draws = Draws(49);
    let past = Past::new(alloc);
    let first = act(alloc, &past, &mut draws, NODES[0])?;
    let mut acts = Acts::none();
    for number in 0..100_000u64 {
        let act = LogAct {
            by: None,
            worker: first.worker,
            number,
            op: first.op.copy(alloc)?,
            what: What::Issue,
        };
        acts = acts.with(alloc, vec![in alloc; act]?)?;
    }
    assert_eq!(rt; acts.len(), 100_000);
    assert_eq!(rt; acts.first(7)?.listed(alloc)?.len(), 7);
    Ok(())
}
