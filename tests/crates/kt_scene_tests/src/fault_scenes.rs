//! Scenarios with fault lines against faults worked out by hand from the rules.

use crate::scenes::{fault_in, text_of};
use crate::tables::Lines;
use kt_core::{Fault, FaultKind, FaultLine};
use kt_scene::{Work, WorkKind, read_scene, write_scene};
use kt_tuple::NodeId;
use std::test::Fail;

/// What stands before the lines, of which the first is the 7th: two workers and three shards.
const FRONT: &[u8] = b"linda-kt 1\nshards 3\nworker\nworker\nout (1)\nfaults\n";

/// Lines among the faults.
const FAULT_LINES: [Lines; 70] = [
    (b"fail w1 after 0", 0),
    (b"fail w2 after 3", 0),
    (b"fail s1 after 100000", 0),
    (b"check w1 after 99999", 0),
    (b"check s3 after 1", 0),
    (b"# fail w0", 0),
    (b"fail w3 after 3", 6),
    (b"fail w8 after 0", 6),
    (b"check w99 after 3", 6),
    (b"fail s4 after 3", 6),
    (b"check s99 after 100000", 6),
    (b"fail w1 after 100001", 5),
    (b"fail w1 after 1000000", 5),
    (b"check s1 after 100001", 5),
    (b"check s1 after 9223372036854775807", 5),
    (b"check s1 after 9223372036854775808", 5),
    (b"fail w2 after 18446744073709551616", 5),
    (b"fail w2 after 99999999999999999999999999", 5),
    (b"fail w3 after 100001", 5),
    (b"check s99 after 99999999999999999999999999", 5),
    (b"fail w0 after 3", 2),
    (b"fail w100 after 3", 2),
    (b"fail w01 after 3", 2),
    (b"fail s0 after 3", 2),
    (b"fail x1 after 3", 2),
    (b"fail W1 after 3", 2),
    (b"fail 1 after 3", 2),
    (b"fail w after 3", 2),
    (b"fail w-1 after 3", 2),
    (b"fail w1 after 03", 2),
    (b"fail w1 after 00", 2),
    (b"fail w1 after -1", 2),
    (b"fail w1 after -0", 2),
    (b"fail w1 after +1", 2),
    (b"fail w1 after x", 2),
    (b"fail w1 after ", 2),
    (b"fail w1 after", 2),
    (b"fail w1 after 3 ", 2),
    (b"fail w1 after 3 steps", 2),
    (b"fail w1 after 3\r", 2),
    (b"fail w1  after 3", 2),
    (b"fail w1 after  3", 2),
    (b"fail  w1 after 3", 2),
    (b" fail w1 after 3", 2),
    (b"fail w1 s1 after 3", 2),
    (b"fail w1 at 3", 2),
    (b"fail w1 3", 2),
    (b"fail w1", 2),
    (b"fail w9 after 03", 2),
    (b"fail after 3", 2),
    (b"fail", 2),
    (b"fails w1 after 3", 2),
    (b"Fail w1 after 3", 2),
    (b"check w1", 2),
    (b"check", 2),
    (b"checks w1 after 3", 2),
    (b"restart w1 after 3", 2),
    (b"take w1 after 3", 2),
    (b"issue w1", 2),
    (b"deliver w1 s1", 2),
    (b"serve s1 w1 0", 2),
    (b"worker", 2),
    (b"faults", 2),
    (b"steps", 2),
    (b"out (1)", 2),
    (b"out (01)", 2),
    (b"unless 201", 2),
    (b"shards 9", 2),
    (b"end ", 2),
    (b"", 2),
];

#[test]
fn fault_lines(rt: HostRuntime) -> Result<(), Fail> {
    for (line, number) in &FAULT_LINES {
        let text = text_of(rt.alloc(), &[(FRONT, 1), (line, 1), (b"\nend\n", 1)])?;
        let expected = if *number == 0 { (0, 0) } else { (7, *number) };
        assert_eq!(rt;
            fault_in(rt.alloc(), &text, WorkKind::Faults),
            expected,
            "{line:?}"
        );
    }
    Ok(())
}

/// Texts, the kind of work that is wanted, and the line and the number of the fault.
const KINDS: [(&[u8], WorkKind, usize, u8); 14] = [
    (
        b"linda-kt 1\nshards 1\nworker\nsteps\nend\n",
        WorkKind::Steps,
        0,
        0,
    ),
    (
        b"linda-kt 1\nshards 1\nworker\nsteps\nend\n",
        WorkKind::Faults,
        4,
        2,
    ),
    (
        b"linda-kt 1\nshards 1\nworker\nfaults\nend\n",
        WorkKind::Steps,
        4,
        2,
    ),
    (
        b"linda-kt 1\nshards 1\nworker\nfaults\nend\n",
        WorkKind::Faults,
        0,
        0,
    ),
    (
        b"linda-kt 1\nshards 1\nfaults\nend\n",
        WorkKind::Faults,
        3,
        2,
    ),
    (
        b"linda-kt 1\nshards 1\nworker\nout (01)\nfaults\nend\n",
        WorkKind::Steps,
        4,
        3,
    ),
    (
        b"linda-kt 1\nshards 1\nworker\n#\nfaults\nfail w0\nend\n",
        WorkKind::Steps,
        5,
        2,
    ),
    (
        b"linda-kt 1\nshards 1\nworker\nfaults\nfail w1 after 3\n",
        WorkKind::Faults,
        6,
        7,
    ),
    (
        b"linda-kt 1\nshards 1\nworker\nfaults\nfail w2 after 3\n",
        WorkKind::Faults,
        5,
        6,
    ),
    (
        b"linda-kt 1\nshards 1\nworker\nfaults\nfail w2 after 3",
        WorkKind::Faults,
        5,
        7,
    ),
    (
        b"linda-kt 1\nshards 1\nworker\nfaults\nend",
        WorkKind::Faults,
        5,
        7,
    ),
    (
        b"linda-kt 1\nshards 1\nworker\nfaults\nend\nfail w2 after 3\n",
        WorkKind::Faults,
        6,
        7,
    ),
    (
        b"linda-kt 1\nshards 1\nworker\nfaults\nfail w2 after 3\nfail w1 after 100001\n",
        WorkKind::Faults,
        5,
        6,
    ),
    (
        b"linda-kt 1\nshards 1\nworker\nfaults\n\nfail w2 after 3\n",
        WorkKind::Faults,
        5,
        2,
    ),
];

/// Each kind of work is refused where the other is wanted, on the line before it.
#[test]
fn kinds(rt: HostRuntime) {
    for (text, kind, line, number) in &KINDS {
        assert_eq!(rt;
            fault_in(rt.alloc(), text, *kind),
            (*line, *number),
            "{text:?}"
        );
    }
}

fn fault(kind: FaultKind, node: NodeId, after: u64) -> FaultLine {
    FaultLine {
        fault: Fault { kind, node, after },
        is_marked: false,
    }
}

/// What a text with faults stands for, and how it is written again.
#[test]
fn a_scenario_with_faults(rt: HostRuntime) -> Result<(), Fail> {
    let given =
        b"# a\nlinda-kt 1\nshards 2\n#\nworker\nout (\"k\", 7)\nworker\nfaults\n# b\nfail s2 after 3\n\
        check w2 after 0\nfail w1 after 100000\nfail s2 after 3\nend\n";
    let told = b"linda-kt 1\nshards 2\nworker\nout (\"k\", 7)\nworker\nfaults\nfail s2 after 3\n\
        check w2 after 0\nfail w1 after 100000\nfail s2 after 3\nend\n";
    for text in [given.as_slice(), told.as_slice()] {
        let scenario = read_scene(rt.alloc(), text, WorkKind::Faults)?;
        let written = write_scene(rt.alloc(), &scenario.scene, &scenario.work)?;
        assert_eq!(rt; written.as_slice(), told.as_slice());
        let Work::Faults(faults) = &scenario.work else {
            assert!(rt; false, "faults");
            return Ok(());
        };
        let expected = [
            fault(FaultKind::Fail, NodeId::Shard(2), 3),
            fault(FaultKind::Check, NodeId::Worker(2), 0),
            fault(FaultKind::Fail, NodeId::Worker(1), 100_000),
            fault(FaultKind::Fail, NodeId::Shard(2), 3),
        ];
        assert_eq!(rt; faults.lines(), expected.as_slice());
        assert_eq!(rt; scenario.work.steps().len(), 0);
    }
    Ok(())
}
