//! A worker made of what is read of one.

use crate::making::binding_script;
use kt_script::Script;
use kt_tuple::{Op, Value};
use kt_worker::{Misfit, Worker};
use std::alloc::{AllocError, Global};
use std::process::Abort;
use std::test::Fail;

fn asked(alloc: Global, worker: &Worker) -> Result<Option<Op>, AllocError> {
    match worker.asked() {
        Some(op) => Ok(Some(op.copy(alloc)?)),
        None => Ok(None),
    }
}

/// The first so many values.
fn values(alloc: Global, worker: &Worker, count: usize) -> Result<Vec<Value>, AllocError> {
    let mut copies = Vec::new(alloc);
    for value in worker.values().iter().take(count) {
        copies.push(value.copy())?;
    }
    Ok(copies)
}

/// The worker made of what is read of a copy of this one.
pub(crate) fn made_again(alloc: Global, script: &Script, worker: &Worker) -> Result<Worker, Fail> {
    let worker = worker.copy(alloc)?;
    let values = values(alloc, &worker, worker.values().len())?;
    let asked = asked(alloc, &worker)?;
    let (number, pc) = (worker.number(), worker.pc());
    let made = Worker::from_parts(script, number, asked, pc, worker.was_none(), values);
    made.map_err(|_| Fail::from("a misfit"))
}

/// A position, a number of requests, how many of the values there are, and why these parts are no worker's.
type Row = (usize, u64, usize, Option<Misfit>);

const ROWS: [Row; 8] = [
    (0, 0, 2, None),
    (2, 2, 2, None),
    (2, 0, 2, None),
    (3, 0, 2, Some(Misfit::Position)),
    (3, 4, 1, Some(Misfit::Position)),
    (0, 1, 2, Some(Misfit::Number)),
    (2, 3, 1, Some(Misfit::Number)),
    (2, 2, 1, Some(Misfit::Values)),
];

/// Why these parts are no worker's of the script, if they are not.
fn misfit(alloc: Global, script: &Script, row: &Row) -> Result<Option<Misfit>, AllocError> {
    let (pc, number, count, _) = *row;
    let values = values(alloc, &Worker::new(alloc, script)?, count)?;
    Ok(Worker::from_parts(script, number, None, pc, false, values).err())
}

fn assert_rows(rt: &impl Abort, alloc: Global, script: &Script, rows: &[Row]) -> Result<(), Fail> {
    for row in rows {
        assert_eq!(rt; misfit(alloc, script, row)?, row.3, "{row:?}");
    }
    Ok(())
}

/// Of several misfits the first is told.
#[test]
fn other_parts_are_no_worker(rt: HostRuntime) -> Result<(), Fail> {
    let script = binding_script(rt.alloc())?;
    assert_rows(&rt, rt.alloc(), &script, &ROWS)
}
