//! What stands and what survives, from the notes alone: worked out plainly and slowly.

use crate::finding::{Finding, holds};
use crate::numbers::{MAX_NUMBERS, Numbers};
use kt_history::{Act, History, Note, What};
use kt_tuple::{ALL_NODES, Answer, NodeId, Service};
use std::alloc::{AllocError, Global};

/// The node's log after these notes: the numbers of its acts that were not cut off.
pub fn line_after(alloc: Global, notes: &[Note], node: NodeId) -> Result<Vec<usize>, AllocError> {
    let mut line = Vec::new(alloc);
    for (place, note) in notes.iter().enumerate() {
        follow(&mut line, place.saturating_add(1), note, node)?;
    }
    Ok(line)
}

/// An act of the node is appended by its number, a cut of the node keeps a front.
fn follow(
    line: &mut Vec<usize>,
    number: usize,
    note: &Note,
    node: NodeId,
) -> Result<(), AllocError> {
    if note.node() == node {
        match note {
            Note::Act(_) => line.push(number)?,
            Note::Cut { keep, .. } => line.truncate(*keep as usize),
        }
    }
    Ok(())
}

/// The act that stood last in the node's log after these notes, 0 where there was none.
fn last_act(alloc: Global, notes: &[Note], node: NodeId) -> Result<usize, AllocError> {
    let line = line_after(alloc, notes, node)?;
    Ok(match line.last() {
        Some(last) => *last,
        None => 0,
    })
}

/// The history's logs are these.
pub fn are_lines(alloc: Global, history: &History) -> Result<(), Finding> {
    for node in ALL_NODES {
        is_line(alloc, history, node)?;
    }
    Ok(())
}

fn is_line(alloc: Global, history: &History, node: NodeId) -> Result<(), Finding> {
    let line = line_after(alloc, history.notes(), node)?;
    let kept = history.line(node);
    let mut pairs = line.iter().zip(kept.iter());
    let is_same = line.len() == kept.len() && pairs.all(|(a, b)| *a as u64 == *b);
    holds(is_same, "a line")
}

/// The pasts of the acts by the numbers of their notes, of which 0 names no note. Of a cut there is nothing.
#[derive(Drop)]
pub struct Pasts(Vec<Numbers>);

impl Pasts {
    pub fn new(alloc: Global) -> Result<Pasts, AllocError> {
        let mut pasts = Vec::new(alloc);
        pasts.push(Numbers::NONE)?;
        Ok(Pasts(pasts))
    }

    /// The act of this number and all that happened before it.
    pub fn of(&self, number: usize) -> Numbers {
        match self.0.get(number) {
            Some(past) => *past,
            None => Numbers::NONE,
        }
    }

    /// Of how many notes they are.
    pub fn noted(&self) -> usize {
        self.0.len().saturating_sub(1)
    }

    /// Adds those of the notes that came since. What came earlier has no other past than before.
    pub fn go_on(&mut self, alloc: Global, notes: &[Note]) -> Result<(), Finding> {
        holds(notes.len() < MAX_NUMBERS, "few notes")?;
        for place in self.noted()..notes.len() {
            let past = self.past_at(alloc, notes, place)?;
            self.0.push(past)?;
        }
        Ok(())
    }

    /// An act's past are the pasts of the act that stood last in its node's log just before it, and of its cause.
    fn past_at(&self, alloc: Global, notes: &[Note], place: usize) -> Result<Numbers, AllocError> {
        let Some(Note::Act(act)) = notes.get(place) else {
            return Ok(Numbers::NONE);
        };
        let (earlier, _) = notes.split_at(place);
        let before = self.of(last_act(alloc, earlier, act.node)?);
        let cause = self.of(act.by as usize);
        Ok(before.and(cause).with(place.saturating_add(1)))
    }

    /// Whether all that happened before one of these acts is among them too.
    pub fn are_closed(&self, acts: Numbers) -> bool {
        (1..self.0.len()).all(|number| !acts.has(number) || self.of(number).is_within(acts))
    }
}

/// Which acts stand in their nodes' logs in the end.
pub fn standing(alloc: Global, notes: &[Note]) -> Result<Numbers, AllocError> {
    let mut stands = Numbers::NONE;
    for node in ALL_NODES {
        stands = stands.and(standing_of(alloc, notes, node)?);
    }
    Ok(stands)
}

fn standing_of(alloc: Global, notes: &[Note], node: NodeId) -> Result<Numbers, AllocError> {
    let line = line_after(alloc, notes, node)?;
    Ok(front_of(&line, line.len()))
}

/// The first so many of them.
pub fn front_of(line: &[usize], count: usize) -> Numbers {
    let mut front = Numbers::NONE;
    for number in line.iter().take(count) {
        front = front.with(*number);
    }
    front
}

/// The act that serves, and its answer.
pub fn served(note: &Note) -> Option<(&Act, &Answer)> {
    match note {
        Note::Act(act) => match &act.what {
            What::Served(answer) => Some((act, answer)),
            _ => None,
        },
        Note::Cut { .. } => None,
    }
}

/// The note of this number.
pub fn note_at(notes: &[Note], number: usize) -> Option<&Note> {
    notes.get(number.checked_sub(1)?)
}

/// The numbers of the services, in the order made.
pub fn services(alloc: Global, notes: &[Note]) -> Result<Vec<usize>, AllocError> {
    let mut numbers = Vec::new(alloc);
    for (place, note) in notes.iter().enumerate() {
        if note.is_service() {
            numbers.push(place.saturating_add(1))?;
        }
    }
    Ok(numbers)
}

/// The numbers of the services that survive: nothing in their past is lost.
pub fn surviving(
    alloc: Global,
    notes: &[Note],
    pasts: &Pasts,
    stands: Numbers,
) -> Result<Vec<usize>, AllocError> {
    let mut numbers = services(alloc, notes)?;
    numbers.retain(|number| pasts.of(*number).is_within(stands));
    Ok(numbers)
}

/// Whether by the history just those acts survive in whose past nothing is lost.
pub fn acts_survive(history: &History, pasts: &Pasts, stands: Numbers) -> bool {
    let notes = history.notes();
    notes.iter().enumerate().all(|(place, note)| {
        let number = place.saturating_add(1);
        let survives = match note {
            Note::Act(_) => pasts.of(number).is_within(stands),
            Note::Cut { .. } => false,
        };
        history.survives(number as u64) == survives
    })
}

/// Whether the note made this service.
fn is_of(note: Option<&Note>, service: &Service) -> bool {
    match note.and_then(served) {
        Some((act, answer)) => {
            act.worker == service.worker
                && act.number == service.number
                && act.op == service.op
                && *answer == service.answer
        }
        None => false,
    }
}

/// These services survive by the history, in this order, and all others are lost.
pub fn survive(alloc: Global, history: &History, numbers: &[usize]) -> Result<(), Finding> {
    let notes = history.notes();
    let found = history.survivors(alloc)?;
    holds(found.len() == numbers.len(), "the number of survivors")?;
    let mut pairs = numbers.iter().zip(found.iter());
    let are_same = pairs.all(|(number, service)| is_of(note_at(notes, *number), service));
    holds(are_same, "the survivors")?;
    let lost = services(alloc, notes)?.len().saturating_sub(numbers.len());
    holds(
        history.lost_count() == lost as u64,
        "the number of lost services",
    )
}
