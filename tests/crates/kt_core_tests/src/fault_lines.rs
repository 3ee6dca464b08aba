//! Fault lines, and which of them a step spends.

use crate::making::{SHARD_1, WORKER_1, WORKER_2};
use kt_core::{Fault, FaultKind, Faults, Step};
use kt_tuple::NodeId;
use std::alloc::Global;
use std::process::Abort;
use std::test::Fail;

/// A line: a kind, a node, and so many steps of its own.
type Line = (FaultKind, NodeId, u64);

const LINES: [Line; 6] = [
    (FaultKind::Fail, WORKER_1, 5),
    (FaultKind::Fail, WORKER_1, 2),
    (FaultKind::Check, WORKER_1, 2),
    (FaultKind::Fail, WORKER_1, 2),
    (FaultKind::Fail, SHARD_1, 0),
    (FaultKind::Check, WORKER_2, 1),
];

/// A step, and the lines that are marked once it was made, by their places.
type Row = (Step, [bool; 6]);

/// Of equal lines the first is spent, a greater number later; a step of another kind or node spends none of them.
const ROWS: [Row; 7] = [
    (Step::Issue { node: WORKER_1 }, [false; 6]),
    (
        Step::Fail { node: WORKER_1 },
        [false, true, false, false, false, false],
    ),
    (
        Step::Fail { node: WORKER_1 },
        [false, true, false, true, false, false],
    ),
    (
        Step::Check { node: WORKER_1 },
        [false, true, true, true, false, false],
    ),
    (
        Step::Fail { node: WORKER_1 },
        [true, true, true, true, false, false],
    ),
    (
        Step::Fail { node: WORKER_1 },
        [true, true, true, true, false, false],
    ),
    (
        Step::Fail { node: SHARD_1 },
        [true, true, true, true, true, false],
    ),
];

fn made(alloc: Global) -> Result<Faults, Fail> {
    let mut faults = Faults::new(alloc);
    for (kind, node, after) in LINES {
        faults.push(Fault { kind, node, after })?;
    }
    Ok(faults)
}

/// Just these lines are marked.
fn are_marked(rt: &impl Abort, faults: &Faults, expected: &[bool; 6], step: Step) {
    assert!(rt; faults.lines().len() == expected.len());
    for (line, is_marked) in faults.lines().iter().zip(expected) {
        assert!(rt; line.is_marked == *is_marked, "{step:?}");
    }
}

#[test]
fn lines_are_spent_by_their_numbers(rt: HostRuntime) -> Result<(), Fail> {
    let mut faults = made(rt.alloc())?;
    let left = faults.copy(rt.alloc())?;
    for (step, expected) in &ROWS {
        faults.spend(step);
        are_marked(&rt, &faults, expected, *step);
    }
    are_marked(&rt, &left, &[false; 6], Step::Take { node: WORKER_1 });
    Ok(())
}

#[test]
fn a_line_is_due_from_its_number_on(rt: HostRuntime) -> Result<(), Fail> {
    let mut faults = made(rt.alloc())?;
    assert!(rt; !faults.is_due(FaultKind::Fail, WORKER_1, 1) && faults.is_due(FaultKind::Fail, WORKER_1, 2));
    assert!(rt; faults.is_due(FaultKind::Fail, SHARD_1, 0) && !faults.is_due(FaultKind::Check, SHARD_1, 9));
    assert!(rt; !faults.is_due(FaultKind::Check, WORKER_2, 0) && faults.is_due(FaultKind::Check, WORKER_2, 1));
    faults.spend(&Step::Check { node: WORKER_2 });
    assert!(rt; !faults.is_due(FaultKind::Check, WORKER_2, 9));
    Ok(())
}

#[test]
fn a_line_asks_for_its_step(rt: HostRuntime) -> Result<(), Fail> {
    let fault = Fault {
        kind: FaultKind::Check,
        node: WORKER_2,
        after: 3,
    };
    assert!(rt; fault.step() == Step::Check { node: WORKER_2 });
    Ok(())
}
