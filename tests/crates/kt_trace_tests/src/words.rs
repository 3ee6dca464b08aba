//! Traces in words.

use crate::texts::{CHECKPOINT_OF_TWO, PUT_AND_TAKE, SHARD_FAILS, traced, with_step};
use kt_core::StepError;
use kt_scene::ReplayFault;
use kt_look::Form;
use kt_tell::Choice;
use kt_tuple::NodeId;
use std::test::Fail;

/// What is told of `PUT_AND_TAKE`.
const PUT_AND_TAKEN: &str = "1 w1 asks s1: out (\"a\", 1)
2 s1 hears w1: out (\"a\", 1)
3 s1 serves w1: out (\"a\", 1) done
4 w1 hears s1: out (\"a\", 1) done
5 w1 asks s1: in (\"a\", ?int)
6 s1 hears w1: in (\"a\", ?int)
7 s1 serves w1: in (\"a\", ?int) got (\"a\", 1)
";

/// What is told of `CHECKPOINT_OF_TWO`.
const CHECKPOINT_TAKEN: &str = "1 w1 asks s1: out (\"a\", 1)
2 s1 hears w1: out (\"a\", 1)
3 s1 serves w1: out (\"a\", 1) done
4 w1 hears s1: out (\"a\", 1) done
5 w1 begins a check (instance 1), takes a tentative checkpoint, is held, asks s1 for a checkpoint
6 s1 is asked by w1 for a checkpoint (instance 1), takes a tentative checkpoint, is held, asks w1 for a checkpoint
7 w1 is asked by s1 for a checkpoint (instance 1), votes yes to s1
8 s1 hears that w1 votes yes (instance 1), votes yes to w1
9 w1 hears that s1 votes yes (instance 1)
10 w1 decides, instance 1 gets yes, tells s1
11 w1 learns the verdict, its checkpoint becomes permanent, is up
12 s1 hears from w1 that the verdict is yes (instance 1), its checkpoint becomes permanent, is up, tells w1
13 w1 hears from s1 that the verdict is yes (instance 1)
14 s1 fails
";

/// What is told of `SHARD_FAILS`.
const SHARD_FAILED: &str = "1 w1 asks s1: out (\"a\", 1)
2 s1 hears w1: out (\"a\", 1)
3 s1 serves w1: out (\"a\", 1) done
4 w1 hears s1: out (\"a\", 1) done
5 s1 fails, 1 service undone
6 s1 restarts (instance 1), rolls back, asks w1 to roll back
7 w1 is asked by s1 to roll back (instance 1), rolls back, asks s1 to roll back
8 s1 is asked by w1 to roll back (instance 1), votes yes to w1
9 w1 hears that s1 votes yes (instance 1), votes yes to s1
10 s1 hears that w1 votes yes (instance 1)
11 s1 decides, instance 1 gets yes, is up, tells w1
12 w1 hears from s1 that the verdict is yes (instance 1), goes back to its checkpoint, is up, tells s1
13 w1 asks s1: out (\"a\", 1)
14 s1 hears from w1 that the verdict is yes (instance 1)
15 s1 hears w1: out (\"a\", 1)
16 s1 serves w1: out (\"a\", 1) done
";

#[test]
fn scenarios(rt: HostRuntime) -> Result<(), Fail> {
    let alloc = rt.alloc();
    let rows = [
        (PUT_AND_TAKE, PUT_AND_TAKEN),
        (CHECKPOINT_OF_TWO, CHECKPOINT_TAKEN),
        (SHARD_FAILS, SHARD_FAILED),
    ];
    for (text, expected) in rows {
        let (answer, told) = traced(alloc, text, Form::Words, Choice::ALL);
        let told = str::from_utf8(&told).unwrap_or("no text");
        assert!(rt; told == expected, "{told}");
        assert_eq!(rt; answer, Ok(()));
    }
    Ok(())
}

/// Steps after those of a scenario, with the lines that are told of them, the last step is refused or is not.
const MORE: [(&str, &str, &str); 7] = [
    // The worker asks again what is unanswered, and the shard answers again what it served.
    (
        PUT_AND_TAKE,
        "repeat w1\ndeliver w1 s1\ndeliver s1 w1\ndeliver s1 w1",
        "8 w1 asks s1 again: in (\"a\", ?int)
9 s1 answers w1 again: in (\"a\", ?int) got (\"a\", 1)
10 w1 hears s1: in (\"a\", ?int) got (\"a\", 1)
11 w1 ignores s1: in (\"a\", ?int) got (\"a\", 1)
",
    ),
    // What comes to a node that is held is kept back, and heard later.
    (
        PUT_AND_TAKE,
        "check w1\ndeliver s1 w1\nabandon w1\nlearn w1\ntake w1",
        "8 w1 begins a check (instance 1), takes a tentative checkpoint, is held, asks s1 for a checkpoint
9 w1 keeps back what s1 sent: in (\"a\", ?int) got (\"a\", 1)
10 w1 gives up, instance 1 gets no, tells s1
11 w1 learns the verdict, gives its checkpoint up, is up
12 w1 hears s1: in (\"a\", ?int) got (\"a\", 1)
",
    ),
    // What comes to a node that is down is dropped.
    (
        PUT_AND_TAKE,
        "fail w1\ndeliver s1 w1\nfail s1\nrestart w1\ndeliver w1 s1",
        "8 w1 fails, 2 services undone
9 w1 drops what s1 sent: in (\"a\", ?int) got (\"a\", 1)
10 s1 fails
11 w1 restarts (instance 1), rolls back, asks s1 to roll back
12 s1 is asked by w1 to roll back (instance 1), and drops it
",
    ),
    // A step that is refused ends the trace.
    (
        PUT_AND_TAKE,
        "deliver s1 w1\nfail s1\nissue w1",
        "8 w1 hears s1: in (\"a\", ?int) got (\"a\", 1)
9 s1 fails, 2 services undone
10 issue w1 is refused: 3 NothingThere
",
    ),
    (
        PUT_AND_TAKE,
        "serve s1 w1 0",
        "8 serve s1 w1 0 is refused: 3 NothingThere\n",
    ),
    (
        PUT_AND_TAKE,
        "fail s9",
        "8 fail s9 is refused: 1 NoNode\n",
    ),
    (
        CHECKPOINT_OF_TWO,
        "fail s1",
        "15 fail s1 is refused: 2 WrongMode\n",
    ),
];

#[test]
fn one_form_a_kind_of_step(rt: HostRuntime) -> Result<(), Fail> {
    let alloc = rt.alloc();
    for (before, steps, expected) in MORE {
        let first = if before == PUT_AND_TAKE { 8 } else { 15 };
        let choice = Choice {
            from: first,
            to: u64::MAX,
            node: None,
        };
        let text = with_step(alloc, before, steps)?;
        let (_, told) = traced(alloc, text.as_str(), Form::Words, choice);
        let told = str::from_utf8(&told).unwrap_or("no text");
        assert!(rt; told == expected, "{told}");
    }
    Ok(())
}

#[test]
fn a_refused_step_is_the_answer(rt: HostRuntime) -> Result<(), Fail> {
    let alloc = rt.alloc();
    let text = with_step(alloc, PUT_AND_TAKE, "take w1\nissue w1")?;
    let (answer, told) = traced(alloc, text.as_str(), Form::Words, Choice::ALL);
    assert_eq!(rt;
        answer,
        Err(ReplayFault::Step {
            at: 8,
            cause: StepError::NothingThere
        })
    );
    let wanted = format!(in alloc; "{PUT_AND_TAKEN}8 take w1 is refused: 3 NothingThere\n")?;
    assert!(rt; told.as_slice() == wanted.as_bytes(), "{told:?}");
    Ok(())
}

#[test]
fn what_is_chosen(rt: HostRuntime) -> Result<(), Fail> {
    let alloc = rt.alloc();
    let choice = Choice {
        from: 4,
        to: 7,
        node: Some(NodeId::Worker(1)),
    };
    let (_, told) = traced(alloc, SHARD_FAILS, Form::Words, choice);
    let expected = "4 w1 hears s1: out (\"a\", 1) done
7 w1 is asked by s1 to roll back (instance 1), rolls back, asks s1 to roll back
";
    assert!(rt; told.as_slice() == expected.as_bytes(), "{told:?}");
    Ok(())
}

#[test]
fn a_text_with_a_fault(rt: HostRuntime) -> Result<(), Fail> {
    let alloc = rt.alloc();
    let text = with_step(alloc, PUT_AND_TAKE, "issue x1")?;
    let (answer, told) = traced(alloc, text.as_str(), Form::Words, Choice::ALL);
    assert!(rt; matches!(answer, Err(ReplayFault::Scene { line: 15, .. })), "{answer:?}");
    assert_eq!(rt; told.len(), 0);
    Ok(())
}
