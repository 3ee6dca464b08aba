//! Random walks over a store whose cells are damaged on the way, step by step beside one in memory.

use crate::spoiled::Spoiled;
use kt_core::{Step, StepError, World};
use kt_sql::SqlStore;
use kt_store::{CkptStore, MemStore, StoreError};
use kt_tuple::NodeId;
use kt_walk::scenes::scene_of;
use kt_walk::walking::{seed_of, tried_steps};
use std::alloc::Global;
use std::process::Abort;
use std::test::Fail;

/// What is damaged of all rows that are there then. A column by which a row is looked for is none of them: who asks for
/// what is open is not told of a row whose verdict or initiator is another.
const DAMAGES: [&str; 8] = [
    "UPDATE kt_node SET incarnation = 0",
    "UPDATE kt_node SET incarnation = 4611686018427387905",
    "UPDATE kt_node SET permanent = x'4b'",
    "UPDATE kt_node SET tentative = x''",
    "UPDATE kt_node SET tentative = NULL",
    "UPDATE kt_node SET instance = NULL",
    "UPDATE kt_node SET instance = -1",
    "UPDATE kt_board SET purpose = 3",
];

/// What the readers of a world say, as text.
fn shown<S: CkptStore>(alloc: Global, world: &World<S>) -> Result<String, Fail> {
    let made = world.made();
    let mut text = format!(in alloc; "{made}\n")?;
    for number in 1..=3u8 {
        for node in [NodeId::Worker(number), NodeId::Shard(number)] {
            let (mode, steps, kept) = (
                world.mode(node),
                world.steps_of(node),
                world.kept_len(node),
            );
            let ballot = world.ballot(node);
            let more = format!(in alloc; "{mode:?} {steps} {kept} {ballot:?}\n")?;
            text.push_str(more.as_str())?;
        }
    }
    Ok(text)
}

/// What came of a walk: how many steps were made after the damage, and how many were refused for it.
#[derive(Clone, Copy, Debug)]
struct Came {
    made: u64,
    damaged: u64,
}

/// Both worlds answer each step alike, or that over the damaged store answers `Damaged` and is as it was. Then the
/// step is left out.
fn go_beside<S: CkptStore>(
    rt: &impl Abort,
    alloc: Global,
    steps: &[Step],
    memory: &mut World<MemStore>,
    spoiled: &mut World<S>,
) -> Result<Came, Fail> {
    let mut came = Came {
        made: 0,
        damaged: 0,
    };
    for step in steps {
        let answer = spoiled.step(alloc, *step);
        if answer == Err(StepError::Store(StoreError::Damaged)) {
            came.damaged += 1;
            let is_same = shown(alloc, spoiled)? == shown(alloc, memory)?;
            assert!(rt; is_same, "{step:?}");
        } else {
            assert_eq!(rt; answer, memory.step(alloc, *step), "{step:?}");
            came.made += u64::from(answer.is_ok() && came.damaged > 0);
        }
    }
    assert!(rt; shown(alloc, spoiled)? == shown(alloc, memory)?);
    assert!(rt; spoiled.history().notes() == memory.history().notes());
    let (stored, expected) = (
        spoiled.permanent_space(alloc),
        memory.permanent_space(alloc),
    );
    assert!(rt;
        stored == expected || stored == Err(StoreError::Damaged),
        "{stored:?}"
    );
    assert_eq!(rt; (spoiled.faults(), spoiled.wants()), (0, 0));
    Ok(came)
}

/// Walks through the scene of this seed over a store that is damaged so at the call of this number.
fn walk(
    rt: &impl Abort,
    alloc: Global,
    seed: u64,
    sql: &'static str,
    at: u64,
) -> Result<Came, Fail> {
    let steps = tried_steps(alloc, seed)?;
    let opened = World::open(alloc, scene_of(alloc, seed)?, MemStore::new(alloc));
    let mut memory = opened.ok().ok_or("a world")?;
    let store = SqlStore::in_memory(alloc).ok().ok_or("a store")?;
    let store = Spoiled::new(store, alloc, sql, at);
    let opened = World::open(alloc, scene_of(alloc, seed)?, store);
    let mut spoiled = opened.ok().ok_or("a world in SQL")?;
    go_beside(rt, alloc, &steps, &mut memory, &mut spoiled)
}

#[test]
fn damaged_on_the_way(rt: HostRuntime) -> Result<(), Fail> {
    let alloc = rt.alloc();
    let mut all = Came {
        made: 0,
        damaged: 0,
    };
    for (place, sql) in DAMAGES.iter().enumerate() {
        let scene = place as u64 % 3;
        let at = 40 + 30 * scene + place as u64;
        let came = walk(&rt, alloc, seed_of(20_261_127, scene), sql, at)?;
        all.made += came.made;
        all.damaged += came.damaged;
    }
    assert!(rt; all.made > 0 && all.damaged > 0, "{all:?}");
    Ok(())
}
