//! What a stored checkpoint must hold: the acts of its node's log up to its length, and what they make of a node,
//! worked out act by act.

use kt_ckpt::{Ckpt, LogAct, ShardState, State, WorkerState};
use kt_history::{Act, Note, What};
use kt_script::Script;
use kt_shard::{CachedReply, Request};
use kt_store::{CkptStore, MemStore, Verdict};
use kt_tuple::{Answer, MAX_WORKERS, NodeId};
use kt_walk::scene_size::SceneSize;
use kt_walk::finding::{Finding, holds};
use kt_walk::runs::{are_same, space_after};
use kt_walk::slowly::{line_after, note_at};
use kt_worker::Worker;
use std::alloc::Global;

/// The act of this number.
fn act_at(notes: &[Note], number: usize) -> Option<&Act> {
    match note_at(notes, number) {
        Some(Note::Act(act)) => Some(act),
        _ => None,
    }
}

/// The worker asks, or hears what it accepts.
fn follow(alloc: Global, worker: &mut Worker, script: &Script, act: &Act) -> Result<(), Finding> {
    match &act.what {
        What::Issue => holds(worker.issue(alloc, script)?.is_some(), "it asks"),
        What::Accepted(answer) => holds(
            worker.hear(alloc, script, act.number, &act.op, answer)?,
            "it accepts",
        ),
        _ => Ok(()),
    }
}

/// The worker that begins the script anew and does these acts.
fn worker_after(
    alloc: Global,
    script: &Script,
    notes: &[Note],
    acts: &[usize],
) -> Result<Worker, Finding> {
    let mut worker = Worker::new(alloc, script)?;
    for number in acts {
        if let Some(act) = act_at(notes, *number) {
            follow(alloc, &mut worker, script, act)?;
        }
    }
    Ok(worker)
}

/// Whether the state is where the worker stands.
fn is_worker(state: &WorkerState, worker: &Worker) -> bool {
    usize::from(state.pc()) == worker.pc()
        && state.number() == worker.number()
        && state.was_none() == worker.was_none()
        && state.asked() == worker.asked()
        && *state.variables() == *worker.values()
}

/// The request of the worker that waits after these acts, and the one that was served last, with its answer.
fn session_after<'a>(
    notes: &'a [Note],
    acts: &[usize],
    worker: u8,
) -> (Option<&'a Act>, Option<(&'a Act, &'a Answer)>) {
    let mut waiting = None;
    let mut kept = None;
    for number in acts {
        if let Some(act) = act_at(notes, *number) {
            if act.worker == worker {
                match &act.what {
                    What::Heard => waiting = Some(act),
                    What::Served(answer) => {
                        waiting = None;
                        kept = Some((act, answer));
                    }
                    _ => {}
                }
            }
        }
    }
    (waiting, kept)
}

fn is_request(act: &Act, request: &Request) -> bool {
    act.number == request.number && act.op == request.op
}

fn is_waiting(found: Option<&Act>, stored: Option<&(u8, Request)>) -> bool {
    match (found, stored) {
        (Some(act), Some((_, request))) => is_request(act, request),
        (None, None) => true,
        _ => false,
    }
}

fn is_kept(found: Option<(&Act, &Answer)>, stored: Option<&(u8, CachedReply)>) -> bool {
    match (found, stored) {
        (Some((act, answer)), Some((_, kept))) => {
            is_request(act, &kept.request) && *answer == kept.answer
        }
        (None, None) => true,
        _ => false,
    }
}

/// Whether the state has of each worker what these acts leave of it.
fn are_sessions(state: &ShardState, notes: &[Note], acts: &[usize]) -> bool {
    (1..=MAX_WORKERS).all(|worker| {
        let (waiting, kept) = session_after(notes, acts, worker);
        is_waiting(waiting, state.waiting().iter().find(|it| it.0 == worker))
            && is_kept(kept, state.cached().iter().find(|it| it.0 == worker))
    })
}

/// The shard's state is what these acts leave, its tuples in any order.
fn holds_shard(
    alloc: Global,
    state: &ShardState,
    notes: &[Note],
    acts: &[usize],
) -> Result<(), Finding> {
    let mut services = Vec::new(alloc);
    for number in acts {
        if note_at(notes, *number).is_some_and(|note| note.is_service()) {
            services.push(*number)?;
        }
    }
    let space = space_after(alloc, notes, &services)?;
    holds(are_same(state.bag(), &space), "the tuples of a checkpoint")?;
    holds(
        are_sessions(state, notes, acts),
        "the requests of a checkpoint",
    )
}

/// The act of this number by its node, and its place: how many its node remembered when it was done.
fn placed(alloc: Global, notes: &[Note], number: usize) -> Result<Option<(NodeId, u64)>, Finding> {
    let Some(act) = act_at(notes, number) else {
        return Ok(None);
    };
    let line = line_after(alloc, &notes[..number], act.node)?;
    Ok(Some((act.node, line.len() as u64)))
}

/// The checkpoint says of the act of this number what happened.
fn holds_act(alloc: Global, found: &LogAct, notes: &[Note], number: usize) -> Result<(), Finding> {
    let act = act_at(notes, number).ok_or(Finding::NotMade("an act"))?;
    let is_same = found.worker == act.worker && found.number == act.number;
    holds(
        is_same && found.op == act.op && found.what == act.what,
        "an act of a checkpoint",
    )?;
    let by = placed(alloc, notes, act.by as usize)?;
    holds(found.by == by, "what an act of a checkpoint heard")
}

/// The checkpoint holds these acts.
fn holds_acts(
    alloc: Global,
    checkpoint: &Ckpt,
    notes: &[Note],
    acts: &[usize],
) -> Result<(), Finding> {
    let found = checkpoint.acts().listed(alloc)?;
    holds(found.len() == acts.len(), "as many acts in a checkpoint")?;
    for (act, number) in found.iter().zip(acts) {
        holds_act(alloc, act, notes, *number)?;
    }
    Ok(())
}

/// The checkpoint holds its acts, and what they make of its node.
fn holds_state(
    alloc: Global,
    checkpoint: &Ckpt,
    notes: &[Note],
    scripts: &[Script],
) -> Result<(), Finding> {
    let mut acts = line_after(alloc, notes, checkpoint.node())?;
    let length = checkpoint.line_len() as usize;
    holds(length <= acts.len(), "a checkpoint within its line")?;
    acts.truncate(length);
    holds_acts(alloc, checkpoint, notes, &acts)?;
    match (checkpoint.node(), checkpoint.state()) {
        (NodeId::Worker(number), State::Worker(state)) => {
            let place = usize::from(number).saturating_sub(1);
            let script = scripts.get(place).ok_or(Finding::NotMade("a script"))?;
            let worker = worker_after(alloc, script, notes, &acts)?;
            holds(is_worker(state, &worker), "where a worker stood")
        }
        (NodeId::Shard(_), State::Shard(state)) => holds_shard(alloc, state, notes, &acts),
        _ => Err(Finding::Wrong("a state of another kind")),
    }
}

/// Each permanent checkpoint, and each tentative one whose instance did not get No, holds the acts of its node's log
/// up to its length, and the state that they lead to.
pub(crate) fn agree(
    alloc: Global,
    store: &mut MemStore,
    notes: &[Note],
    scripts: &[Script],
    size: SceneSize,
) -> Result<(), Finding> {
    for place in 0..size.count() {
        let node = size.node(place);
        if let Some(checkpoint) = store.permanent(alloc, node)? {
            holds_state(alloc, &checkpoint, notes, scripts)?;
        }
        if let Some(tentative) = store.tentative(alloc, node)? {
            if store.verdict(tentative.instance)? != Some(Verdict::No) {
                holds_state(alloc, &tentative.checkpoint, notes, scripts)?;
            }
        }
    }
    Ok(())
}
