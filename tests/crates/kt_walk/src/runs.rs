//! Runs of one sequential space, worked out plainly.

use crate::finding::Finding;
use crate::slowly::{note_at, served};
use kt_history::Note;
use kt_space::Bag;
use kt_tuple::{Answer, Op, Template, Tuple};
use std::alloc::{AllocError, Global};

/// Whether the tuple is there and matches.
fn is_found(tuples: &[Tuple], template: &Template, tuple: &Tuple) -> bool {
    template.matches(tuple) && tuples.iter().any(|other| *other == *tuple)
}

/// Whether no tuple matches.
fn is_without(tuples: &[Tuple], template: &Template) -> bool {
    !tuples.iter().any(|tuple| template.matches(tuple))
}

fn take_out(tuples: &mut Vec<Tuple>, tuple: &Tuple) {
    if let Some(place) = tuples.iter().position(|other| *other == *tuple) {
        drop(tuples.remove(place));
    }
}

/// Changes the tuples by the operation, and answers whether a space that holds them can have given the answer.
fn serve(
    alloc: Global,
    tuples: &mut Vec<Tuple>,
    op: &Op,
    answer: &Answer,
) -> Result<bool, AllocError> {
    match (op, answer) {
        (Op::Out(tuple), Answer::Done) => {
            tuples.push(tuple.copy(alloc)?)?;
            Ok(true)
        }
        (Op::In(template) | Op::Inp(template), Answer::Got(tuple)) => {
            let is_there = is_found(tuples, template, tuple);
            take_out(tuples, tuple);
            Ok(is_there)
        }
        (Op::Rd(template) | Op::Rdp(template), Answer::Got(tuple)) => {
            Ok(is_found(tuples, template, tuple))
        }
        (Op::Inp(template) | Op::Rdp(template), Answer::None) => {
            Ok(is_without(tuples, template))
        }
        _ => Ok(false),
    }
}

fn serve_by(
    alloc: Global,
    tuples: &mut Vec<Tuple>,
    note: Option<&Note>,
) -> Result<bool, AllocError> {
    match note.and_then(served) {
        Some((act, answer)) => serve(alloc, tuples, &act.op, answer),
        None => Ok(false),
    }
}

/// The tuples that a space holds which gave the answers of these services one after the other.
pub fn space_after(
    alloc: Global,
    notes: &[Note],
    services: &[usize],
) -> Result<Vec<Tuple>, Finding> {
    let mut tuples = Vec::new(alloc);
    for number in services {
        if !serve_by(alloc, &mut tuples, note_at(notes, *number))? {
            return Err(Finding::Wrong("no run of one space"));
        }
    }
    Ok(tuples)
}

fn count_of(tuples: &[Tuple], tuple: &Tuple) -> usize {
    tuples.iter().filter(|other| **other == *tuple).count()
}

/// Whether both hold the same tuples, each as often.
pub fn are_same(tuples: &[Tuple], others: &[Tuple]) -> bool {
    tuples.len() == others.len()
        && tuples
            .iter()
            .all(|tuple| count_of(tuples, tuple) == count_of(others, tuple))
}

/// Adds equal tuples to those that the bag holds.
pub(crate) fn add_all(alloc: Global, tuples: &mut Vec<Tuple>, bag: &Bag) -> Result<(), AllocError> {
    tuples.append(&mut bag.to_vec(alloc)?)
}
