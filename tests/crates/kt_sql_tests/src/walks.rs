//! Random walks over the store in SQL, step by step beside one in memory.

use kt_ckpt::Ckpt;
use kt_core::{Step, World};
use kt_sql::SqlStore;
use kt_store::{CkptStore, MemStore, StoreError};
use kt_tuple::NodeId;
use kt_walk::scenes::scene_of;
use kt_walk::walking::{seed_of, tried_steps};
use sqlite::MemStore as InMemory;
use std::alloc::Global;
use std::process::Abort;
use std::test::*;

/// How many scenes are walked through. With memory checked each takes some seconds.
const SCENES: u64 = 50;

/// After how many steps the permanent tuples are compared, of which a store in SQL reads each checkpoint.
const PERMANENT_AFTER: usize = 8;

type InSql = SqlStore<InMemory>;

/// Both worlds answer each step alike, and whether it can be made, and hold the same permanent tuples now and then.
fn assert_steps(
    rt: &impl Abort,
    alloc: Global,
    steps: &[Step],
    memory: &mut World<MemStore>,
    sql: &mut World<InSql>,
) {
    for (number, step) in steps.iter().enumerate() {
        assert_eq!(rt; sql.can(alloc, *step), memory.can(alloc, *step), "{step:?}");
        assert_eq!(rt;
            sql.step(alloc, *step),
            memory.step(alloc, *step),
            "{step:?}"
        );
        if number % PERMANENT_AFTER == 0 {
            let (stored, expected) = (sql.permanent_space(alloc), memory.permanent_space(alloc));
            assert!(rt; stored.is_ok() && stored == expected, "{step:?}");
        }
    }
}

/// The bytes of the checkpoint.
fn bytes_of(alloc: Global, ckpt: Option<Ckpt>) -> Result<Vec<u8>, StoreError> {
    match ckpt {
        Some(ckpt) => Ok(ckpt.encode(alloc)?),
        None => Ok(Vec::new(alloc)),
    }
}

/// Whether both stores hold the same of the node.
fn agree_on_node(
    alloc: Global,
    sql: &mut InSql,
    memory: &mut MemStore,
    node: NodeId,
) -> Result<bool, StoreError> {
    let (stored, expected) = (sql.tentative(alloc, node)?, memory.tentative(alloc, node)?);
    let instances = (
        stored.as_ref().map(|t| t.instance),
        expected.as_ref().map(|t| t.instance),
    );
    let tentative = (
        bytes_of(alloc, stored.map(|t| t.checkpoint))?,
        bytes_of(alloc, expected.map(|t| t.checkpoint))?,
    );
    let permanent = (
        bytes_of(alloc, sql.permanent(alloc, node)?)?,
        bytes_of(alloc, memory.permanent(alloc, node)?)?,
    );
    Ok(
        sql.incarnation(node)? == memory.incarnation(node)?
            && sql.open_of(node)? == memory.open_of(node)?
            && instances.0 == instances.1
            && tentative.0 == tentative.1
            && permanent.0 == permanent.1,
    )
}

/// Whether they hold the same.
fn agree(alloc: Global, sql: &mut InSql, memory: &mut MemStore) -> Result<bool, StoreError> {
    let next = memory.next_instance()?;
    if sql.next_instance()? != next || (sql.faults(), sql.wants()) != (0, 0) {
        return Ok(false);
    }
    for number in 1..=3u8 {
        for node in [NodeId::Worker(number), NodeId::Shard(number)] {
            if !agree_on_node(alloc, sql, memory, node)? {
                return Ok(false);
            }
        }
    }
    for instance in 0..next {
        if sql.verdict(instance)? != memory.verdict(instance)?
            || sql.initiator(instance)? != memory.initiator(instance)?
        {
            return Ok(false);
        }
    }
    Ok(true)
}

/// Walks through the scene of this seed. It answers how many instances were begun.
fn walk(rt: &impl Abort, alloc: Global, seed: u64) -> Result<u64, Fail> {
    let steps = tried_steps(alloc, seed).ok().ok_or("a walk")?;
    let scene = scene_of(alloc, seed).ok().ok_or("a scene")?;
    let mut memory = World::open(alloc, scene, MemStore::new(alloc))
        .ok()
        .ok_or("a world")?;
    let scene = scene_of(alloc, seed).ok().ok_or("a scene")?;
    let store = SqlStore::in_memory(alloc).ok().ok_or("a store")?;
    let mut sql = World::open(alloc, scene, store)
        .ok()
        .ok_or("a world in SQL")?;
    assert_steps(rt, alloc, &steps, &mut memory, &mut sql);
    let (mut memory, mut sql) = (memory.into_store(), sql.into_store());
    assert!(rt; matches!(agree(alloc, &mut sql, &mut memory), Ok(true)));
    Ok(memory.next_instance()?.saturating_sub(1))
}

#[test]
fn fifty_walks(rt: HostRuntime) -> Result<(), Fail> {
    let alloc = rt.alloc();
    let mut begun = 0u64;
    for scene in 0..SCENES {
        begun = begun.saturating_add(walk(&rt, alloc, seed_of(20_261_123, scene))?);
    }
    assert!(rt; begun > 50, "{begun} instances were begun");
    Ok(())
}
