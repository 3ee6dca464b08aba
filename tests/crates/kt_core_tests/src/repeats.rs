//! Requests that are asked again.

use crate::making::{SHARD_1, WORKER_1, WORKER_2, opened, scripts};
use crate::rows::{Played, Stage, play, play_all};
use crate::worlds::PUTTER_AND_TAKER;
use kt_core::{MAX_STEPS, Step};
use kt_walk::scenes::Game;
use std::alloc::Global;
use std::process::Abort;
use std::test::Fail;

/// A request that is asked again is answered again by what was kept, and its second reply is ignored.
const ANSWERED_AGAIN: [Stage; 1] = [Stage {
    rows: &[
        ("repeat s1", "NoNode"),
        ("repeat w2", "NoNode"),
        ("repeat w1", "NothingThere"),
        ("issue w1", "w1 by 0: w1.1 out (\"a\", 1) issue"),
        ("deliver w1 s1", "s1 by 1: w1.1 out (\"a\", 1) heard"),
        ("serve s1 w1 0", "s1 by 1: w1.1 out (\"a\", 1) served done"),
        ("repeat w1", "w1 by 0: w1.1 out (\"a\", 1) repeat"),
        ("deliver w1 s1", "s1 by 4: w1.1 out (\"a\", 1) again done"),
        // It is not served a second time.
        ("serve s1 w1 0", "NothingThere"),
        (
            "deliver s1 w1",
            "w1 by 3: w1.1 out (\"a\", 1) accepted done",
        ),
        // It is answered: there is nothing to ask again.
        ("repeat w1", "NothingThere"),
        ("deliver s1 w1", "w1 by 5: w1.1 out (\"a\", 1) ignored done"),
        ("issue w1", "NothingThere"),
    ],
    survivors: &["w1.1 out (\"a\", 1) done"],
    tuples: &["(\"a\", 1)"],
    notes: 7,
    made: &[(WORKER_1, 4), (SHARD_1, 3)],
}];

/// A request that waits is not heard twice; one that was served before the next is answered again behind it.
const ASKED_WHILE_IT_WAITS: [Stage; 1] = [Stage {
    rows: &[
        ("issue w1", "w1 by 0: w1.1 in (?str) issue"),
        ("repeat w1", "w1 by 0: w1.1 in (?str) repeat"),
        ("repeat w1", "w1 by 0: w1.1 in (?str) repeat"),
        ("deliver w1 s1", "s1 by 1: w1.1 in (?str) heard"),
        ("deliver w1 s1", "s1 by 2: w1.1 in (?str) ignored"),
        ("issue w2", "w2 by 0: w2.1 out (\"t\") issue"),
        ("deliver w2 s1", "s1 by 6: w2.1 out (\"t\") heard"),
        ("serve s1 w2 0", "s1 by 6: w2.1 out (\"t\") served done"),
        (
            "serve s1 w1 0",
            "s1 by 1: w1.1 in (?str) served got (\"t\")",
        ),
        (
            "deliver s1 w1",
            "w1 by 9: w1.1 in (?str) accepted got (\"t\")",
        ),
        ("issue w1", "w1 by 0: w1.2 out (7) issue"),
        // The second repeat comes before it.
        ("deliver w1 s1", "s1 by 3: w1.1 in (?str) again got (\"t\")"),
        ("deliver w1 s1", "s1 by 11: w1.2 out (7) heard"),
        // The answer that comes again is not that of the second request.
        (
            "deliver s1 w1",
            "w1 by 12: w1.1 in (?str) ignored got (\"t\")",
        ),
        ("deliver w1 s1", "NothingThere"),
        ("repeat w1", "w1 by 0: w1.2 out (7) repeat"),
    ],
    survivors: &["w2.1 out (\"t\") done", "w1.1 in (?str) got (\"t\")"],
    tuples: &[],
    notes: 15,
    made: &[(WORKER_1, 7), (WORKER_2, 1), (SHARD_1, 7)],
}];

const SCENES: [Played; 2] = [
    Played {
        shards: 1,
        workers: &[&["out (\"a\", 1)"]],
        stages: &ANSWERED_AGAIN,
    },
    Played {
        shards: 1,
        workers: &[&["in (?str)", "out (7)"], &["out (\"t\")"]],
        stages: &ASKED_WHILE_IT_WAITS,
    },
];

#[test]
fn answered_again(rt: HostRuntime) -> Result<(), Fail> {
    play_all(&rt, rt.alloc(), &SCENES)
}

const AT_THE_LIMIT: [Stage; 1] = [Stage {
    rows: &[
        ("repeat w1", "StepLimit"),
        ("deliver w1 s1", "StepLimit"),
        ("issue w1", "NothingThere"),
        ("deliver s1 w1", "NothingThere"),
        ("serve s1 w1 0", "NothingThere"),
        ("repeat w2", "NoNode"),
        ("repeat w1", "StepLimit"),
    ],
    survivors: &[],
    tuples: &[],
    notes: 100_000,
    made: &[(WORKER_1, 100_000), (SHARD_1, 0)],
}];

/// 100,000 steps are made and no more. A step that is not allowed is refused by its own number then too.
#[test]
fn step_limit(rt: HostRuntime) -> Result<(), Fail> {
    let mut world = opened(rt.alloc(), 1, scripts(rt.alloc(), &PUTTER_AND_TAKER)?)?;
    use_up(&rt, rt.alloc(), &mut world);
    play(&rt, rt.alloc(), &mut world, &AT_THE_LIMIT)
}

/// Makes as many steps as there may be: the worker asks, and asks again.
fn use_up(rt: &impl Abort, alloc: Global, world: &mut Game) {
    let mut step = Step::Issue { node: WORKER_1 };
    for _ in 0..MAX_STEPS {
        assert!(rt; world.step(alloc, step).is_ok());
        step = Step::Repeat { node: WORKER_1 };
    }
}
