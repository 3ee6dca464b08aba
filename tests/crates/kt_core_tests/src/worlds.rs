//! Worked scenarios, step by step.

use crate::making::{SHARD_1, SHARD_2, WORKER_1, WORKER_2, WORKER_3, opened, scripts};
use crate::rows::{Played, Row, Stage, play, play_all};
use kt_core::{OpenError, Scene, StepError};
use kt_script::{Actual, Actuals, Command, Name, Operation, Pattern, Script, Slot};
use kt_tuple::{Kind, Value};
use std::alloc::Global;
use std::process::Abort;
use std::test::Fail;

/// A worker that puts a tuple and takes it.
pub(crate) const PUTTER_AND_TAKER: [&[&str]; 1] = [&["out (\"a\", 1)", "in (\"a\", ?int)"]];

const PUT_AND_TAKE: [Stage; 2] = [
    Stage {
        rows: &PUT_AND_TAKE_ROWS,
        // The last reply is still on its way, and the service counts.
        survivors: &PUT_AND_TAKEN,
        tuples: &[],
        notes: 7,
        made: &[(WORKER_1, 3), (SHARD_1, 4)],
    },
    Stage {
        rows: &[
            (
                "deliver s1 w1",
                "w1 by 7: w1.2 in (\"a\", ?int) accepted got (\"a\", 1)",
            ),
            ("issue w1", "NothingThere"),
        ],
        survivors: &PUT_AND_TAKEN,
        tuples: &[],
        notes: 8,
        made: &[(WORKER_1, 4), (SHARD_1, 4)],
    },
];

const PUT_AND_TAKEN: [&str; 2] = [
    "w1.1 out (\"a\", 1) done",
    "w1.2 in (\"a\", ?int) got (\"a\", 1)",
];

const PUT_AND_TAKE_ROWS: [Row; 33] = [
    // Nodes that are not there, of the wrong kind, and no neighbours.
    ("issue w2", "NoNode"),
    ("issue w0", "NoNode"),
    ("issue s1", "NoNode"),
    ("deliver w1 w1", "NoNode"),
    ("deliver s1 s1", "NoNode"),
    ("deliver w2 s1", "NoNode"),
    ("deliver w1 s2", "NoNode"),
    ("deliver s2 w1", "NoNode"),
    ("serve w1 s1 0", "NoNode"),
    ("serve s2 w1 0", "NoNode"),
    ("serve s1 w2 0", "NoNode"),
    ("serve s1 s1 0", "NoNode"),
    // Nothing is on its way, and nobody waits.
    ("deliver w1 s1", "NothingThere"),
    ("deliver s1 w1", "NothingThere"),
    ("serve s1 w1 0", "NothingThere"),
    ("issue w1", "w1 by 0: w1.1 out (\"a\", 1) issue"),
    ("issue w1", "NothingThere"),
    ("serve s1 w1 0", "NothingThere"),
    ("deliver w1 s1", "s1 by 1: w1.1 out (\"a\", 1) heard"),
    ("deliver w1 s1", "NothingThere"),
    // There is one place where a tuple is put.
    ("serve s1 w1 1", "NoSuchMatch"),
    ("serve s1 w1 0", "s1 by 1: w1.1 out (\"a\", 1) served done"),
    ("serve s1 w1 0", "NothingThere"),
    ("issue w1", "NothingThere"),
    (
        "deliver s1 w1",
        "w1 by 3: w1.1 out (\"a\", 1) accepted done",
    ),
    ("deliver s1 w1", "NothingThere"),
    ("issue w1", "w1 by 0: w1.2 in (\"a\", ?int) issue"),
    ("deliver w1 s1", "s1 by 5: w1.2 in (\"a\", ?int) heard"),
    ("serve s1 w1 1", "NoSuchMatch"),
    ("serve s1 w1 18446744073709551615", "NoSuchMatch"),
    (
        "serve s1 w1 0",
        "s1 by 5: w1.2 in (\"a\", ?int) served got (\"a\", 1)",
    ),
    ("serve s1 w1 0", "NothingThere"),
    ("deliver w1 s1", "NothingThere"),
];

const NO_STEPS: [Stage; 1] = [Stage {
    rows: &[],
    survivors: &[],
    tuples: &[],
    notes: 0,
    made: &[(WORKER_1, 0), (SHARD_1, 0)],
}];

/// The scene is that which the world was opened with.
#[test]
fn scene(rt: HostRuntime) -> Result<(), Fail> {
    let world = opened(rt.alloc(), 1, scripts(rt.alloc(), &PUTTER_AND_TAKER)?)?;
    has_scene(&rt, world.scene());
    Ok(())
}

fn has_scene(rt: &impl Abort, scene: &Scene) {
    assert_eq!(rt; (scene.shards(), scene.scripts().len()), (1, 1));
    for script in scene.scripts() {
        assert_eq!(rt; script.commands().len(), 2);
    }
}

/// The refusals by their numbers and names. What a store refuses has the number 8.
const REFUSALS: [(StepError, u8, &str); 8] = [
    (StepError::NoNode, 1, "NoNode"),
    (StepError::WrongMode, 2, "WrongMode"),
    (StepError::NothingThere, 3, "NothingThere"),
    (StepError::NoSuchMatch, 4, "NoSuchMatch"),
    (StepError::NotDecided, 5, "NotDecided"),
    (StepError::Unresolved, 6, "Unresolved"),
    (StepError::StepLimit, 7, "StepLimit"),
    (StepError::OutOfMemory, 9, "OutOfMemory"),
];

#[test]
fn refusals(rt: HostRuntime) -> Result<(), Fail> {
    are_told(&rt, rt.alloc(), &REFUSALS)?;
    is_told(
        &rt,
        OpenError::OutOfMemory.to_string(rt.alloc())?,
        "OutOfMemory",
    );
    Ok(())
}

fn are_told(rt: &impl Abort, alloc: Global, rows: &[(StepError, u8, &str)]) -> Result<(), Fail> {
    for (refusal, number, name) in rows {
        assert_eq!(rt; refusal.number(), *number);
        is_told(rt, refusal.to_string(alloc)?, name);
    }
    Ok(())
}

fn is_told(rt: &impl Abort, text: String, name: &str) {
    assert_eq!(rt; text.as_str(), name);
}

const TWO_TAKERS: [Stage; 2] = [
    Stage {
        rows: &[
            ("issue w1", "w1 by 0: w1.1 in (\"t\") issue"),
            ("deliver w1 s1", "s1 by 1: w1.1 in (\"t\") heard"),
            ("issue w2", "w2 by 0: w2.1 in (\"t\") issue"),
            ("deliver w2 s1", "s1 by 3: w2.1 in (\"t\") heard"),
            ("issue w3", "w3 by 0: w3.1 out (\"t\") issue"),
            ("deliver w3 s1", "s1 by 5: w3.1 out (\"t\") heard"),
            // What is not put yet is not there.
            ("serve s1 w1 0", "NoSuchMatch"),
            ("serve s1 w3 0", "s1 by 5: w3.1 out (\"t\") served done"),
        ],
        survivors: &["w3.1 out (\"t\") done"],
        tuples: &["(\"t\")"],
        notes: 7,
        made: &[(WORKER_1, 1), (WORKER_2, 1), (WORKER_3, 1), (SHARD_1, 4)],
    },
    Stage {
        rows: &[
            ("serve s1 w2 1", "NoSuchMatch"),
            (
                "serve s1 w2 0",
                "s1 by 3: w2.1 in (\"t\") served got (\"t\")",
            ),
            ("serve s1 w1 0", "NoSuchMatch"),
            ("deliver w1 w2", "NoNode"),
        ],
        survivors: &["w3.1 out (\"t\") done", "w2.1 in (\"t\") got (\"t\")"],
        tuples: &[],
        notes: 8,
        made: &[(WORKER_1, 1), (WORKER_2, 1), (WORKER_3, 1), (SHARD_1, 5)],
    },
];

/// The place of a formal `?int x`.
fn formal() -> Result<Slot, Fail> {
    let x = Name::new(b"x").ok_or("a name")?;
    Ok(Slot::Formal(Kind::Int, Some(x)))
}

/// `rd (5, ?int x)`
fn read(alloc: Global) -> Result<Command, Fail> {
    let x = formal()?;
    let mut slots = Vec::new(alloc);
    slots.push(Slot::Actual(Actual::Literal(Value::Int(5))))?;
    slots.push(x)?;
    let found = Pattern::new(slots).ok_or("a template")?;
    Ok(Command::Ask(Operation::Rd(found)))
}

/// `out (x)`
fn put_found(alloc: Global) -> Result<Command, Fail> {
    let x = Name::new(b"x").ok_or("a name")?;
    let mut found = Vec::new(alloc);
    found.push(Actual::Variable(x))?;
    let found = Actuals::new(found).ok_or("a tuple")?;
    Ok(Command::Ask(Operation::Out(found)))
}

/// `inp ("a")`, `unless 1`, `out ("b")`, `rd (5, ?int x)`, `out (x)`; and `out (5, 7)`.
fn reader_and_putter(alloc: Global) -> Result<Vec<Script>, Fail> {
    let mut scripts = scripts(
        alloc,
        &[&["inp (\"a\")", "unless 1", "out (\"b\")"], &["out (5, 7)"]],
    )?;
    let reader = scripts.first_mut().ok_or("a reader")?;
    reader.push(read(alloc)?)?;
    reader.push(put_found(alloc)?)?;
    Ok(scripts)
}

const READER_AND_PUTTER: [Stage; 1] = [Stage {
    rows: &[
        ("issue w1", "w1 by 0: w1.1 inp (\"a\") issue"),
        ("deliver w1 s1", "s1 by 1: w1.1 inp (\"a\") heard"),
        ("serve s1 w1 1", "NoSuchMatch"),
        ("serve s1 w1 0", "s1 by 1: w1.1 inp (\"a\") served none"),
        ("deliver s1 w1", "w1 by 3: w1.1 inp (\"a\") accepted none"),
        ("issue w1", "w1 by 0: w1.2 rd (5, ?int) issue"),
        ("deliver w1 s1", "s1 by 5: w1.2 rd (5, ?int) heard"),
        ("serve s1 w1 0", "NoSuchMatch"),
        ("issue w2", "w2 by 0: w2.1 out (5, 7) issue"),
        ("deliver w2 s1", "s1 by 7: w2.1 out (5, 7) heard"),
        ("serve s1 w2 0", "s1 by 7: w2.1 out (5, 7) served done"),
        (
            "serve s1 w1 0",
            "s1 by 5: w1.2 rd (5, ?int) served got (5, 7)",
        ),
        (
            "deliver s1 w1",
            "w1 by 10: w1.2 rd (5, ?int) accepted got (5, 7)",
        ),
        ("issue w1", "w1 by 0: w1.3 out (7) issue"),
        ("deliver w1 s1", "s1 by 12: w1.3 out (7) heard"),
        ("serve s1 w1 0", "s1 by 12: w1.3 out (7) served done"),
    ],
    survivors: &[
        "w1.1 inp (\"a\") none",
        "w2.1 out (5, 7) done",
        "w1.2 rd (5, ?int) got (5, 7)",
        "w1.3 out (7) done",
    ],
    tuples: &["(5, 7)", "(7)"],
    notes: 14,
    made: &[(WORKER_1, 5), (WORKER_2, 1), (SHARD_1, 8)],
}];

#[test]
fn inp_finds_nothing_and_rd_leaves_the_tuple(rt: HostRuntime) -> Result<(), Fail> {
    let mut world = opened(rt.alloc(), 1, reader_and_putter(rt.alloc())?)?;
    play(&rt, rt.alloc(), &mut world, &READER_AND_PUTTER)
}

const TWO_SHARDS: [Stage; 1] = [Stage {
    rows: &[
        ("issue w1", "w1 by 0: w1.1 out (\"a\", 1) issue"),
        ("issue w2", "w2 by 0: w2.1 in (\"a\") issue"),
        ("issue w3", "w3 by 0: w3.1 out (\"a\") issue"),
        // What is asked goes to the shard of its kinds alone.
        ("deliver w1 s1", "NothingThere"),
        ("deliver w2 s2", "NothingThere"),
        ("deliver s1 s2", "NoNode"),
        ("deliver w1 s3", "NoNode"),
        ("deliver w1 s2", "s2 by 1: w1.1 out (\"a\", 1) heard"),
        ("deliver w2 s1", "s1 by 2: w2.1 in (\"a\") heard"),
        ("deliver w3 s1", "s1 by 3: w3.1 out (\"a\") heard"),
        ("serve s1 w1 0", "NothingThere"),
        ("serve s2 w1 0", "s2 by 1: w1.1 out (\"a\", 1) served done"),
        ("serve s1 w2 0", "NoSuchMatch"),
        ("serve s1 w3 0", "s1 by 3: w3.1 out (\"a\") served done"),
        (
            "serve s1 w2 0",
            "s1 by 2: w2.1 in (\"a\") served got (\"a\")",
        ),
        ("deliver s1 w1", "NothingThere"),
        (
            "deliver s2 w1",
            "w1 by 7: w1.1 out (\"a\", 1) accepted done",
        ),
    ],
    survivors: &[
        "w1.1 out (\"a\", 1) done",
        "w3.1 out (\"a\") done",
        "w2.1 in (\"a\") got (\"a\")",
    ],
    tuples: &["(\"a\", 1)"],
    notes: 10,
    made: &[(WORKER_1, 2), (WORKER_2, 1), (WORKER_3, 1), (SHARD_1, 4), (SHARD_2, 2)],
}];

/// Scenes of which each is played from its beginning.
const SCENES: [Played; 4] = [
    Played {
        shards: 1,
        workers: &PUTTER_AND_TAKER,
        stages: &PUT_AND_TAKE,
    },
    Played {
        shards: 1,
        workers: &PUTTER_AND_TAKER,
        stages: &NO_STEPS,
    },
    Played {
        shards: 1,
        workers: &[&["in (\"t\")"], &["in (\"t\")"], &["out (\"t\")"]],
        stages: &TWO_TAKERS,
    },
    Played {
        shards: 2,
        workers: &[&["out (\"a\", 1)"], &["in (\"a\")"], &["out (\"a\")"]],
        stages: &TWO_SHARDS,
    },
];

#[test]
fn scenes(rt: HostRuntime) -> Result<(), Fail> {
    play_all(&rt, rt.alloc(), &SCENES)
}
