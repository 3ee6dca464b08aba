//! A worker and a shard take a checkpoint together, and are cut short after each step: one of them fails, or both, and
//! what is left settles. So it ends over a store in memory, over one in SQL, and where a call of the store is refused.

use kt_core::{Fault, FaultKind, Faults, Step, StepError, World};
use kt_scene::{Sink, write_report};
use kt_settling::settled::next_of;
use kt_sql::SqlStore;
use kt_stage::settle;
use kt_store::{CkptStore, FaultStore, MemStore, StoreError};
use kt_tuple::NodeId;
use kt_walk::scenes::Game;
use kt_walk::worked::CHECKPOINT_OF_TWO;
use std::alloc::Global;
use std::process::Abort;
use std::test::Fail;

const WORKER: NodeId = NodeId::Worker(1);

const SHARD: NodeId = NodeId::Shard(1);

/// Who fails: the worker, the shard, or both in this order.
const FAILURES: [&[Step]; 3] = [
    &[Step::Fail { node: WORKER }],
    &[Step::Fail { node: SHARD }],
    &[Step::Fail { node: WORKER }, Step::Fail { node: SHARD }],
];

/// Fault lines of which some are spent while it settles, and one is not.
const LINES: [Fault; 4] = [
    Fault {
        kind: FaultKind::Fail,
        node: SHARD,
        after: 0,
    },
    Fault {
        kind: FaultKind::Check,
        node: WORKER,
        after: 3,
    },
    Fault {
        kind: FaultKind::Check,
        node: SHARD,
        after: 900,
    },
    Fault {
        kind: FaultKind::Fail,
        node: WORKER,
        after: 9,
    },
];

/// The first so many steps, and then who fails.
fn steps_of(alloc: Global, count: usize, failures: &[Step]) -> Result<Vec<Step>, Fail> {
    let mut steps = CHECKPOINT_OF_TWO.first(alloc, count)?;
    steps.extend_from_slice(failures)?;
    Ok(steps)
}

fn faults_of(alloc: Global, lines: &[Fault]) -> Result<Faults, Fail> {
    let mut faults = Faults::new(alloc);
    for line in lines {
        faults.push(*line)?;
    }
    Ok(faults)
}

/// The world over this store after these steps, unless the store refuses one of them.
fn played<S: CkptStore + Drop>(
    alloc: Global,
    store: S,
    steps: &[Step],
) -> Result<Option<World<S>>, Fail> {
    let Ok(mut world) = World::open(alloc, CHECKPOINT_OF_TWO.scene(alloc)?, store) else {
        return Ok(None);
    };
    for step in steps {
        match world.step(alloc, *step) {
            Ok(()) => {}
            Err(StepError::Store(_)) => return Ok(None),
            Err(_) => return Err(Fail::from("a step was refused")),
        }
    }
    Ok(Some(world))
}

/// The report of the world, which is steady and has the tuple.
fn report<S: CkptStore>(
    rt: &impl Abort,
    alloc: Global,
    world: &mut World<S>,
) -> Result<String, Fail> {
    let mut sink = Sink::new(Vec::new(alloc));
    let written = write_report(alloc, world, &mut sink);
    written.ok().ok_or("a report")?;
    let text = String::from_utf8(sink.into_inner());
    let report = text.map_err(|_| Fail::from("no text"))?;
    assert!(rt; world.is_steady(), "{report}");
    assert!(rt;
        report.starts_with("survivors 1\nw1.1 out (\"a\", 1) done\nlost "),
        "{report}"
    );
    assert!(rt;
        report.contains("\nspace 1\n(\"a\", 1)\npermanent "),
        "{report}"
    );
    Ok(report)
}

/// The report of what is left over this store, once it has settled.
fn settled<S: CkptStore + Drop>(
    rt: &impl Abort,
    alloc: Global,
    store: S,
    steps: &[Step],
    lines: &[Fault],
) -> Result<String, Fail> {
    let mut world = played(alloc, store, steps)?.ok_or("a world")?;
    let mut faults = faults_of(alloc, lines)?;
    let settled = settle(alloc, &mut world, &mut faults);
    assert!(rt; settled == Ok(()), "{settled:?}");
    report(rt, alloc, &mut world)
}

#[test]
fn over_two_stores(rt: HostRuntime) -> Result<(), Fail> {
    let alloc = rt.alloc();
    let mut runs = 0u32;
    for number in 0..42usize {
        let steps = steps_of(alloc, number / 3, FAILURES[number % 3])?;
        let expected = settled(&rt, alloc, MemStore::new(alloc), &steps, &[])?;
        let store = SqlStore::in_memory(alloc).ok().ok_or("a store")?;
        assert!(rt; settled(&rt, alloc, store, &steps, &[])? == expected);
        runs += 1;
    }
    assert!(rt; runs == 42);
    Ok(())
}

/// When the call was refused: before it settled, while it did, or not by then.
#[derive(Clone, Copy, PartialEq, Eq)]
enum Refused {
    Before,
    Meanwhile,
    Never,
}

/// A world that settles step by step, over a store that refuses nothing, and its fault lines.
#[derive(Drop)]
struct Beside {
    world: Game,
    faults: Faults,
    /// How many steps of those by which it settles it has made.
    made: u64,
}

impl Beside {
    fn open(alloc: Global, steps: &[Step], lines: &[Fault]) -> Result<Beside, Fail> {
        Ok(Beside {
            world: played(alloc, MemStore::new(alloc), steps)?.ok_or("a world")?,
            faults: faults_of(alloc, lines)?,
            made: 0,
        })
    }

    /// Goes on until it has made so many steps.
    fn go_to(&mut self, alloc: Global, made: u64) -> Result<(), Fail> {
        for _ in self.made..made {
            let size = CHECKPOINT_OF_TWO.size;
            let next = next_of(alloc, &mut self.world, size, &self.faults)?;
            let step = next.ok_or("a step")?;
            let answer = self.world.step(alloc, step);
            answer.ok().ok_or("a step that is made")?;
            self.faults.spend(&step);
            self.made += 1;
        }
        Ok(())
    }

    /// The other world and its fault lines are the same, so far as they show it.
    fn is_like<S: CkptStore>(&self, rt: &impl Abort, world: &World<S>, faults: &Faults) {
        let (made, own) = (self.made, &self.world);
        assert!(rt; faults.lines() == self.faults.lines(), "{made} steps");
        assert!(rt;
            world.history().notes() == own.history().notes(),
            "{made} steps"
        );
        for node in [WORKER, SHARD] {
            assert!(rt; world.steps_of(node) == own.steps_of(node), "{made} steps");
            assert!(rt; world.mode(node) == own.mode(node), "{made} steps");
            assert!(rt; world.kept_len(node) == own.kept_len(node), "{made} steps");
        }
        for (from, to) in [(WORKER, SHARD), (SHARD, WORKER)] {
            assert!(rt;
                world.link_len(from, to) == own.link_len(from, to),
                "{made} steps"
            );
        }
    }
}

/// The call at this number is refused. Where that is while it settles, what was made stays and is all that was made,
/// and it settles by another call, with the report that is
/// expected.
fn settles_again(
    rt: &impl Abort,
    alloc: Global,
    (steps, lines, at): (&[Step], &[Fault], u64),
    beside: &mut Beside,
    expected: &String,
) -> Result<Refused, Fail> {
    let store = FaultStore::new(MemStore::new(alloc), at);
    let Some(mut world) = played(alloc, store, steps)? else {
        return Ok(Refused::Before);
    };
    assert!(rt; world.faults() == 0);
    let mut faults = faults_of(alloc, lines)?;
    let before = world.made();
    let answer = settle(alloc, &mut world, &mut faults);
    if world.faults() == 0 {
        // The call that is refused comes only with a report.
        assert!(rt; answer == Ok(()), "{answer:?}");
        return Ok(Refused::Never);
    }
    assert!(rt;
        answer == Err(StepError::Store(StoreError::Device)),
        "{answer:?}"
    );
    beside.go_to(alloc, world.made() - before)?;
    beside.is_like(rt, &world, &faults);
    let again = settle(alloc, &mut world, &mut faults);
    assert!(rt; again == Ok(()), "{again:?}");
    assert!(rt; report(rt, alloc, &mut world)? == *expected);
    Ok(Refused::Meanwhile)
}

/// Each call in turn is refused, until none is. How many were while it settled.
fn refused_in_turn(
    rt: &impl Abort,
    alloc: Global,
    steps: &[Step],
    lines: &[Fault],
) -> Result<u64, Fail> {
    let expected = settled(rt, alloc, MemStore::new(alloc), steps, lines)?;
    let mut beside = Beside::open(alloc, steps, lines)?;
    let mut refused = 0u64;
    for at in 1..10_000u64 {
        match settles_again(rt, alloc, (steps, lines, at), &mut beside, &expected)? {
            Refused::Before => assert!(rt; refused == 0),
            Refused::Meanwhile => refused += 1,
            Refused::Never => return Ok(refused),
        }
    }
    Err(Fail::from("it never ends"))
}

#[test]
fn each_call_is_refused(rt: HostRuntime) -> Result<(), Fail> {
    let mut refused = 0u64;
    for number in 0..42usize {
        let steps = steps_of(rt.alloc(), number / 3, FAILURES[number % 3])?;
        refused += refused_in_turn(&rt, rt.alloc(), &steps, &[])?;
    }
    assert!(rt; refused > 840, "{refused}");
    Ok(())
}

/// Here nobody fails before: the lines ask for it.
#[test]
fn each_call_is_refused_among_fault_lines(rt: HostRuntime) -> Result<(), Fail> {
    let mut refused = 0u64;
    for count in [0usize, 4, 9, 13] {
        let steps = steps_of(rt.alloc(), count, &[])?;
        refused += refused_in_turn(&rt, rt.alloc(), &steps, &LINES)?;
    }
    assert!(rt; refused > 80, "{refused}");
    Ok(())
}
