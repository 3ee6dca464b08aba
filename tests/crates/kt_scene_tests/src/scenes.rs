//! Scenarios against faults worked out by hand from the rules.

use crate::tables::{
    BEHIND_COMMANDS, BEHIND_NAMES, Lines, OPERATIONS, OTHER_COMMANDS, SCRIPTS, Text,
};
use crate::texts::{ENDS, HEADERS, NODE_STEPS, SCENARIOS, STEPS};
use kt_core::Step;
use kt_scene::{MAX_TEXT, Work, WorkKind, read_scene, write_scene};
use kt_script::{Actual, Command, Operation, Slot};
use kt_tuple::{Kind, NodeId, Value};
use std::alloc::{AllocError, Global};
use std::process::Abort;
use std::test::Fail;

/// Texts joined, each so many times.
pub(crate) fn text_of(alloc: Global, parts: &[(&[u8], usize)]) -> Result<Vec<u8>, AllocError> {
    let mut text = Vec::new(alloc);
    for (part, times) in parts {
        for _ in 0..*times {
            text.extend_from_slice(part)?;
        }
    }
    Ok(text)
}

/// Commands that bind `count` names, eight a command, after `front`.
fn with_names(
    alloc: Global,
    front: &[u8],
    count: usize,
    end: &[u8],
) -> Result<Vec<u8>, AllocError> {
    let mut text = Vec::from_slice(alloc, front)?;
    for i in 0..count {
        text.extend_from_slice(if i % 8 == 0 {
            b"in (".as_slice()
        } else {
            b", "
        })?;
        text.extend_from_slice(b"?int v")?;
        text.extend_from_slice(format!(in alloc; "{i}")?.as_bytes())?;
        if i % 8 == 7 || i + 1 == count {
            text.extend_from_slice(b")\n")?;
        }
    }
    text.extend_from_slice(end)?;
    Ok(text)
}

/// The fault of the text as line and number, where steps are wanted; 0 and 0 is none.
pub(crate) fn fault_of(alloc: Global, text: &[u8]) -> (usize, u8) {
    fault_in(alloc, text, WorkKind::Steps)
}

/// The same where work of this kind is wanted.
pub(crate) fn fault_in(alloc: Global, text: &[u8], kind: WorkKind) -> (usize, u8) {
    match read_scene(alloc, text, kind) {
        Ok(_) => (0, 0),
        Err(fault) => (fault.line, fault.cause.number()),
    }
}

/// Each line, put between these, has its fault on this line of the text.
fn assert_faults(
    rt: &impl Abort,
    alloc: Global,
    front: &[u8],
    line: usize,
    rows: &[Lines],
    back: &[u8],
) -> Result<(), Fail> {
    for (lines, number) in rows {
        let text = text_of(alloc, &[(front, 1), (lines, 1), (back, 1)])?;
        let expected = if *number == 0 {
            (0, 0)
        } else {
            (line, *number)
        };
        assert_eq!(rt; fault_of(alloc, &text), expected, "{lines:?}");
    }
    Ok(())
}

/// Each text has its fault.
pub(crate) fn assert_texts(rt: &impl Abort, alloc: Global, rows: &[Text]) {
    for (text, line, number) in rows {
        assert_eq!(rt; fault_of(alloc, text), (*line, *number), "{text:?}");
    }
}

const WORKER: &[u8] = b"linda-kt 1\nshards 1\nworker\n";

#[test]
fn operations(rt: HostRuntime) -> Result<(), Fail> {
    assert_faults(&rt, rt.alloc(), WORKER, 4, &OPERATIONS, b"\nsteps\nend\n")
}

#[test]
fn other_commands(rt: HostRuntime) -> Result<(), Fail> {
    assert_faults(
        &rt,
        rt.alloc(),
        WORKER,
        4,
        &OTHER_COMMANDS,
        b"\nsteps\nend\n",
    )
}

#[test]
fn scripts(rt: HostRuntime) -> Result<(), Fail> {
    let front = b"linda-kt 1\nshards 1\nworker\nin (?int x, ?str s, ?bool truex)\n";
    assert_faults(&rt, rt.alloc(), front, 5, &SCRIPTS, b"\nsteps\nend\n")
}

#[test]
fn steps(rt: HostRuntime) -> Result<(), Fail> {
    let front = b"linda-kt 1\nshards 1\nworker\nsteps\n";
    assert_faults(&rt, rt.alloc(), front, 5, &STEPS, b"\nend\n")
}

#[test]
fn node_steps(rt: HostRuntime) -> Result<(), Fail> {
    let front = b"linda-kt 1\nshards 1\nworker\nsteps\n";
    assert_faults(&rt, rt.alloc(), front, 5, &NODE_STEPS, b"\nend\n")
}

#[test]
fn headers(rt: HostRuntime) {
    assert_texts(&rt, rt.alloc(), &HEADERS);
}

#[test]
fn ends(rt: HostRuntime) {
    assert_texts(&rt, rt.alloc(), &ENDS);
}

#[test]
fn scenarios(rt: HostRuntime) {
    assert_texts(&rt, rt.alloc(), &SCENARIOS);
}

/// How many commands and names there may be, and which of several faults of one line is named.
#[test]
fn limits(rt: HostRuntime) -> Result<(), Fail> {
    let front = text_of(rt.alloc(), &[(WORKER, 1), (b"out (1)\n", 200)])?;
    assert_faults(&rt, rt.alloc(), &front, 204, &BEHIND_COMMANDS, b"")?;
    let front = with_names(rt.alloc(), WORKER, 64, b"")?;
    assert_faults(&rt, rt.alloc(), &front, 12, &BEHIND_NAMES, b"")?;
    let text = with_names(rt.alloc(), WORKER, 63, b"in (?int a, ?int b)\n")?;
    assert_eq!(rt; fault_of(rt.alloc(), &text), (12, 5));
    Ok(())
}

/// The size of a text is judged before all else.
#[test]
fn long_texts(rt: HostRuntime) -> Result<(), Fail> {
    let front = b"linda-kt 1\nshards 1\nworker\nsteps\n".as_slice();
    let end = b"end\n".as_slice();
    let odd = b"##\n".as_slice();
    let fill = MAX_TEXT - front.len() - odd.len() - end.len();
    let text = text_of(
        rt.alloc(),
        &[(front, 1), (odd, 1), (b"#\n", fill / 2), (end, 1)],
    )?;
    assert_eq!(rt; text.len(), MAX_TEXT);
    assert_eq!(rt; fault_of(rt.alloc(), &text), (0, 0));
    let text = text_of(
        rt.alloc(),
        &[
            (front, 1),
            (odd, 1),
            (b"#\n", fill / 2),
            (end, 1),
            (b"#", 1),
        ],
    )?;
    assert_eq!(rt; fault_of(rt.alloc(), &text), (1, 5));
    // The first of so many empty lines is no header.
    for (lines, number) in [(MAX_TEXT, 1), (MAX_TEXT + 1, 5)] {
        let text = text_of(rt.alloc(), &[(b"\n", lines)])?;
        assert_eq!(rt; fault_of(rt.alloc(), &text), (1, number));
    }
    Ok(())
}

/// What was read is written without its ignored lines, and read again.
#[test]
fn written_again(rt: HostRuntime) -> Result<(), Fail> {
    let text =
        b"# a\nlinda-kt 1\n#\nshards 8\nworker\nout (-1, \"\\\"\\\\\")\nin (?int x, ?str)\nrd (x, ?str s)\n\
        inp (s)\nrdp (\"\", ?int x)\nset y = x + -9223372036854775808\nunless 200\nout (y, s)\nworker\n\
        rd (?bool b, true, ?bool)\nout (b, false)\n# b\n\
        steps\nissue w1\nrepeat w10\ndeliver w99 s1\n#\nrepeat s99\nserve s10 w1 99999\ntake w1\ncheck s2\n\
decide w3\nabandon s4\nlearn w5\nfail s6\nrestart w77\nend\n";
    let told =
        b"linda-kt 1\nshards 8\nworker\nout (-1, \"\\\"\\\\\")\nin (?int x, ?str)\nrd (x, ?str s)\n\
        inp (s)\nrdp (\"\", ?int x)\nset y = x + -9223372036854775808\nunless 200\nout (y, s)\nworker\n\
        rd (?bool b, true, ?bool)\nout (b, false)\n\
        steps\nissue w1\nrepeat w10\ndeliver w99 s1\nrepeat s99\nserve s10 w1 99999\ntake w1\ncheck s2\n\
decide w3\nabandon s4\nlearn w5\nfail s6\nrestart w77\nend\n";
    for given in [text.as_slice(), told.as_slice()] {
        let scenario = read_scene(rt.alloc(), given, WorkKind::Steps)?;
        let written = write_scene(rt.alloc(), &scenario.scene, &scenario.work)?;
        assert_eq!(rt; written.as_slice(), told.as_slice());
    }
    Ok(())
}

/// What a text stands for.
#[test]
fn a_scenario(rt: HostRuntime) -> Result<(), Fail> {
    let text =
        b"# a\nlinda-kt 1\n# b\nshards 3\n#\nworker\nout (\"a\", 1)\nin (?int x)\nworker\n# c\nsteps\n\
        issue w1\n# d\nrepeat w1\ndeliver w1 s2\nserve s2 w1 99999\nend\n";
    let scenario = read_scene(rt.alloc(), text, WorkKind::Steps)?;
    assert_eq!(rt; scenario.scene.shards(), 3);
    let Work::Steps(steps) = &scenario.work else {
        assert!(rt; false, "steps");
        return Ok(());
    };
    let worker = NodeId::Worker(1);
    let shard = NodeId::Shard(2);
    let expected = [
        Step::Issue { node: worker },
        Step::Repeat { node: worker },
        Step::Deliver {
            from: worker,
            to: shard,
        },
        Step::Serve {
            shard,
            worker,
            place: 99_999,
        },
    ];
    assert_eq!(rt; steps.as_slice(), expected.as_slice());
    let [first, second] = scenario.scene.scripts() else {
        assert!(rt; false, "two workers");
        return Ok(());
    };
    assert_eq!(rt; second.commands().len(), 0);
    let [
        Command::Ask(Operation::Out(put)),
        Command::Ask(Operation::In(taken)),
    ] = first.commands()
    else {
        assert!(rt; false, "two commands");
        return Ok(());
    };
    let one = Actual::Literal(Value::Int(1));
    assert_eq!(rt; put.as_slice().len(), 2);
    assert!(rt; put.as_slice().get(1) == Some(&one));
    let [x] = first.names() else {
        assert!(rt; false, "one variable");
        return Ok(());
    };
    assert_eq!(rt; x.as_bytes(), b"x".as_slice());
    let formal = Slot::Formal(Kind::Int, Some(x.copy()));
    assert!(rt; taken.as_slice() == [formal].as_slice());
    Ok(())
}
