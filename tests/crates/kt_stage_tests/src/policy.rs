//! What each rule of the policy gives, worked out by hand.

use crate::making::{SceneRow, Line, SHARD_1, WORKER_1, WORKER_2, faults, make_lines, opened, scene};
use kt_core::FaultKind::{Check, Fail as Failure};
use kt_stage::next_for;
use kt_tuple::NodeId;
use kt_walk::lines::step;
use std::alloc::Global;
use std::process::Abort;
use std::test::Fail;

/// Steps and fault lines, and then for some nodes the next step, `none` where there is none.
#[derive(Clone, Copy)]
struct Row {
    /// One after the other, with commas between.
    steps: &'static str,
    lines: &'static [Line],
    next: &'static [(NodeId, &'static str)],
}

const ONE_PUTS: SceneRow = (1, &[&["out (\"a\", 1)"]]);

const TAKER_AND_PUTTER: SceneRow = (1, &[&["in (\"t\")"], &["out (\"t\")"]]);

/// What is asked, waits, is served and is heard.
const REQUESTS: [Row; 5] = [
    Row {
        steps: "",
        lines: &[],
        next: &[(WORKER_1, "issue w1"), (SHARD_1, "none"), (WORKER_2, "none")],
    },
    Row {
        steps: "issue w1",
        lines: &[],
        next: &[(WORKER_1, "none"), (SHARD_1, "deliver w1 s1")],
    },
    Row {
        steps: "issue w1, deliver w1 s1",
        lines: &[],
        next: &[(WORKER_1, "none"), (SHARD_1, "serve s1 w1 0")],
    },
    Row {
        steps: "issue w1, deliver w1 s1, serve s1 w1 0",
        lines: &[],
        next: &[(WORKER_1, "deliver s1 w1"), (SHARD_1, "none")],
    },
    Row {
        steps: "issue w1, deliver w1 s1, serve s1 w1 0, deliver s1 w1",
        lines: &[],
        next: &[(WORKER_1, "none"), (SHARD_1, "none")],
    },
];

/// Failures and checks that are due, or not yet.
const DUE: [Row; 6] = [
    Row {
        steps: "",
        lines: &[(Check, WORKER_1, 0), (Failure, WORKER_1, 0)],
        next: &[(WORKER_1, "fail w1")],
    },
    Row {
        steps: "",
        lines: &[(Check, WORKER_1, 0), (Failure, WORKER_1, 1)],
        next: &[(WORKER_1, "check w1")],
    },
    Row {
        steps: "",
        lines: &[(Check, WORKER_1, 1), (Failure, WORKER_1, 1), (Failure, SHARD_1, 0)],
        next: &[(WORKER_1, "issue w1"), (SHARD_1, "fail s1")],
    },
    // one that is down does not fail
    Row {
        steps: "fail w1",
        lines: &[(Failure, WORKER_1, 0)],
        next: &[(WORKER_1, "restart w1")],
    },
    // one that takes a checkpoint begins no other, but fails
    Row {
        steps: "check w1",
        lines: &[(Check, WORKER_1, 0)],
        next: &[(WORKER_1, "decide w1")],
    },
    Row {
        steps: "check w1",
        lines: &[(Failure, WORKER_1, 0)],
        next: &[(WORKER_1, "fail w1")],
    },
];

/// Verdicts: to give one, to learn one, and to take what was kept back until then.
const VERDICTS: [Row; 6] = [
    Row {
        steps: "issue w1, deliver w1 s1, serve s1 w1 0, check w1, deliver s1 w1",
        lines: &[],
        next: &[(WORKER_1, "decide w1")],
    },
    Row {
        steps: "issue w1, deliver w1 s1, serve s1 w1 0, check w1, deliver s1 w1, decide w1",
        lines: &[],
        next: &[(WORKER_1, "learn w1")],
    },
    Row {
        steps: "issue w1, deliver w1 s1, serve s1 w1 0, check w1, deliver s1 w1, decide w1, learn w1",
        lines: &[],
        next: &[(WORKER_1, "take w1")],
    },
    // one that is down gives up what it began, learns that, and restarts
    Row {
        steps: "check w1, fail w1",
        lines: &[],
        next: &[(WORKER_1, "abandon w1")],
    },
    Row {
        steps: "check w1, fail w1, abandon w1",
        lines: &[],
        next: &[(WORKER_1, "learn w1")],
    },
    Row {
        steps: "check w1, fail w1, abandon w1, learn w1",
        lines: &[],
        next: &[(WORKER_1, "restart w1")],
    },
];

/// Rollbacks that got No, and votes that do not come.
const ANEW: [Row; 6] = [
    Row {
        steps: "fail w1, restart w1, abandon w1",
        lines: &[],
        next: &[(WORKER_1, "restart w1"), (SHARD_1, "deliver w1 s1")],
    },
    // both got No: the first in node order restarts, the other hears
    Row {
        steps: "fail w1, fail s1, restart w1, restart s1, abandon w1, abandon s1",
        lines: &[],
        next: &[(WORKER_1, "restart w1"), (SHARD_1, "deliver w1 s1")],
    },
    // the other is down
    Row {
        steps: "fail w1, restart w1, abandon w1, fail s1",
        lines: &[],
        next: &[(WORKER_1, "none"), (SHARD_1, "restart s1")],
    },
    // the vote of s1 may still come: the ask is on its way, and then that of s1
    Row {
        steps: "issue w1, deliver w1 s1, serve s1 w1 0, deliver s1 w1, check w1",
        lines: &[],
        next: &[(WORKER_1, "none"), (SHARD_1, "deliver w1 s1")],
    },
    Row {
        steps: "issue w1, deliver w1 s1, serve s1 w1 0, deliver s1 w1, check w1, deliver w1 s1",
        lines: &[],
        next: &[(WORKER_1, "deliver s1 w1"), (SHARD_1, "none")],
    },
    // s1 was down when the ask came
    Row {
        steps: "issue w1, deliver w1 s1, serve s1 w1 0, deliver s1 w1, check w1, fail s1, deliver w1 s1",
        lines: &[],
        next: &[(WORKER_1, "abandon w1"), (SHARD_1, "restart s1")],
    },
];

/// A request that came to nothing, since its worker failed; and on its way once more.
const LOST: [Row; 2] = [
    Row {
        steps: "issue w1, check w1, decide w1, learn w1, deliver w1 s1, serve s1 w1 0, deliver s1 w1, fail w1, \
restart w1, deliver w1 s1, deliver s1 w1, decide w1",
        lines: &[],
        next: &[(WORKER_1, "repeat w1"), (SHARD_1, "deliver w1 s1")],
    },
    Row {
        steps: "issue w1, check w1, decide w1, learn w1, deliver w1 s1, serve s1 w1 0, deliver s1 w1, fail w1, \
restart w1, deliver w1 s1, deliver s1 w1, decide w1, repeat w1",
        lines: &[],
        next: &[(WORKER_1, "none"), (SHARD_1, "deliver w1 s1")],
    },
];

/// Whom the shard hears and serves first.
const TWO: [Row; 3] = [
    Row {
        steps: "issue w2, issue w1",
        lines: &[],
        next: &[(SHARD_1, "deliver w1 s1")],
    },
    Row {
        steps: "issue w1, deliver w1 s1, issue w2, deliver w2 s1",
        lines: &[],
        next: &[(WORKER_1, "none"), (WORKER_2, "none"), (SHARD_1, "serve s1 w2 0")],
    },
    Row {
        steps: "issue w1, deliver w1 s1, issue w2, deliver w2 s1, serve s1 w2 0",
        lines: &[],
        next: &[(WORKER_2, "deliver s1 w2"), (SHARD_1, "serve s1 w1 0")],
    },
];

fn gives(rt: &impl Abort, alloc: Global, scene_row: SceneRow, rows: &[Row]) -> Result<(), Fail> {
    for row in rows {
        let mut world = opened(alloc, scene(alloc, scene_row)?)?;
        make_lines(alloc, &mut world, row.steps)?;
        let faults = faults(alloc, row.lines)?;
        for (node, line) in row.next {
            let expected = if *line == "none" {
                None
            } else {
                Some(step(line)?)
            };
            let next = next_for(alloc, &mut world, &faults, *node);
            assert!(rt;
                next == Ok(expected),
                "{node:?} after {:?}: {next:?}",
                row.steps
            );
        }
    }
    Ok(())
}

#[test]
fn requests(rt: HostRuntime) -> Result<(), Fail> {
    gives(&rt, rt.alloc(), ONE_PUTS, &REQUESTS)
}

#[test]
fn due_failures_and_checks(rt: HostRuntime) -> Result<(), Fail> {
    gives(&rt, rt.alloc(), ONE_PUTS, &DUE)
}

#[test]
fn verdicts(rt: HostRuntime) -> Result<(), Fail> {
    gives(&rt, rt.alloc(), ONE_PUTS, &VERDICTS)
}

#[test]
fn beginning_anew(rt: HostRuntime) -> Result<(), Fail> {
    gives(&rt, rt.alloc(), ONE_PUTS, &ANEW)
}

#[test]
fn lost_requests(rt: HostRuntime) -> Result<(), Fail> {
    gives(&rt, rt.alloc(), ONE_PUTS, &LOST)
}

#[test]
fn two_workers(rt: HostRuntime) -> Result<(), Fail> {
    gives(&rt, rt.alloc(), TAKER_AND_PUTTER, &TWO)
}
