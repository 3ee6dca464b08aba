//! A store with one damaged cell, adopted again: it opens, and no call answers what it would not have answered before.

use crate::cells::{CELLS, Cell, Damage, Store, answers, store, tables};
use kt_ckpt::Ckpt;
use kt_ckpt_tests::stored::SHARD;
use kt_core::{OpenError, World};
use kt_store::{CkptStore, StoreError};
use kt_tuple::NodeId;
use kt_walk::scenes::scene_of;
use std::alloc::Global;
use std::process::Abort;
use std::test::Fail;

const DAMAGED: &str = "Err(Damaged)";

/// What the store answers whose tables have this changed; nothing where they do not take it.
fn altered(alloc: Global, sql: &str) -> Result<Option<Store>, Fail> {
    let mut conn = tables(alloc)?;
    match conn.execute(sql, &[]) {
        Ok(1) => Ok(Some(store(alloc, conn)?)),
        Ok(_) => Err(Fail::from("another row, or none")),
        Err(_) => Ok(None),
    }
}

/// Each call answers `Damaged`, or what the clean store answers, or what one without the row does. Says how many answer
/// `Damaged`.
fn judged(
    rt: &impl Abort,
    found: &[String],
    clean: &[String],
    without: &[String],
    what: &str,
) -> usize {
    let mut damaged = 0;
    assert_eq!(rt; (found.len(), without.len()), (clean.len(), clean.len()));
    for (place, answer) in found.iter().enumerate() {
        let answer = answer.as_str();
        let is_known = answer == clean[place].as_str() || answer == without[place].as_str();
        assert!(rt; is_known || answer == DAMAGED, "{what}: {place}: {answer}");
        damaged += usize::from(answer == DAMAGED);
    }
    damaged
}

/// No write goes over the damaged row, nor over any where the number of the next instance is not known.
fn is_not_written(
    rt: &impl Abort,
    alloc: Global,
    store: &mut Store,
    cell: &Cell,
) -> Result<(), Fail> {
    let ckpt = Ckpt::decode(alloc, &SHARD).ok().ok_or("a checkpoint")?;
    let refused = Err(StoreError::Damaged);
    let node = if cell.row == "id = 1" {
        NodeId::Worker(1)
    } else {
        NodeId::Shard(1)
    };
    if cell.table == "kt_node" {
        for answer in [
            store.bump(node),
            store.promote(node),
            store.discard(node),
            store.begin_restart(node),
            store.put_tentative(node, 2, &ckpt),
            store.begin_check(node, &ckpt),
        ] {
            assert_eq!(rt; answer, refused, "{cell:?}");
        }
    } else if cell.row == "instance = 2" {
        for answer in [
            store.decide(2, true),
            store.begin_restart(node),
            store.begin_check(node, &ckpt),
        ] {
            assert_eq!(rt; answer, refused, "{cell:?}");
        }
    } else {
        assert_eq!(rt; store.decide(1, false), refused, "{cell:?}");
    }
    Ok(())
}

/// No world is opened over it, as over the clean one.
fn is_not_fresh(rt: &impl Abort, alloc: Global, store: Store) -> Result<Store, Fail> {
    let scene = scene_of(alloc, 1)?;
    let refused = World::open(alloc, scene, store).err().ok_or("a world")?;
    assert_eq!(rt; refused.cause, OpenError::NotFresh);
    Ok(refused.store)
}

/// Puts this value there, and judges the store that is adopted then. It answers how many calls are refused.
fn put(
    rt: &impl Abort,
    alloc: Global,
    cell: &Cell,
    value: &str,
    clean: &[String],
    without: &[String],
) -> Result<usize, Fail> {
    let Cell {
        table,
        column,
        row,
        ..
    } = *cell;
    let sql = format!(in alloc; "UPDATE {table} SET {column} = {value} WHERE {row}")?;
    let Some(mut store) = altered(alloc, sql.as_str())? else {
        assert_eq!(rt; cell.damage, Damage::NotTaken, "{sql}");
        return Ok(0);
    };
    assert!(rt; cell.damage != Damage::NotTaken, "{sql}");
    let found = answers(alloc, &mut store)?;
    let damaged = judged(rt, &found, clean, without, sql.as_str());
    if cell.damage == Damage::Damaged {
        // Both calls that read all of the row.
        assert!(rt; damaged >= 2, "{sql}");
        is_not_written(rt, alloc, &mut store, cell)?;
    }
    let mut store = is_not_fresh(rt, alloc, store)?;
    assert!(rt; answers(alloc, &mut store)? == found, "{sql}");
    assert_eq!(rt; (store.faults(), store.wants()), (0, 0), "{sql}");
    Ok(damaged)
}

#[test]
fn one_cell_at_a_time(rt: HostRuntime) -> Result<(), Fail> {
    let alloc = rt.alloc();
    let clean = answers(alloc, &mut store(alloc, tables(alloc)?)?)?;
    assert!(rt; clean.iter().all(|answer| answer.starts_with("Ok(")));
    let (mut taken, mut not_taken, mut damaged) = (0, 0, 0);
    for cell in &CELLS {
        let Cell { table, row, .. } = *cell;
        let sql = format!(in alloc; "DELETE FROM {table} WHERE {row}")?;
        let mut without = altered(alloc, sql.as_str())?.ok_or("a row less")?;
        let without = answers(alloc, &mut without)?;
        // A column by which rows are found can hide its row, and no other can.
        let is_found_by = cell.damage == Damage::Lost || table == "kt_board";
        let without = if is_found_by { &without } else { &clean };
        for value in cell.values {
            damaged += put(&rt, alloc, cell, value, &clean, without)?;
            if cell.damage == Damage::NotTaken {
                not_taken += 1;
            } else {
                taken += 1;
            }
        }
    }
    assert_eq!(rt; (taken, not_taken), (43, 33));
    assert_eq!(rt; damaged, 98);
    Ok(())
}

/// The greatest numbers are not raised, and what is stored stays.
#[test]
fn full_stores_stay(rt: HostRuntime) -> Result<(), Fail> {
    let alloc = rt.alloc();
    let full = Err(StoreError::Full);
    let (ckpt, shard) = (Ckpt::decode(alloc, &SHARD), NodeId::Shard(1));
    let ckpt = ckpt.ok().ok_or("a checkpoint")?;
    for sql in [
        "UPDATE kt_node SET incarnation = 4611686018427387904 WHERE id = 101",
        "UPDATE kt_board SET instance = 4611686018427387904 WHERE instance = 2",
    ] {
        let mut store = altered(alloc, sql)?.ok_or("a number")?;
        let before = answers(alloc, &mut store)?;
        assert!(rt; before.iter().all(|answer| answer.starts_with("Ok(")));
        assert_eq!(rt; store.begin_restart(shard), full, "{sql}");
        if sql.contains("kt_node") {
            assert_eq!(rt; store.incarnation(shard), Ok(1 << 62));
            assert_eq!(rt; store.bump(shard), full);
        } else {
            assert_eq!(rt; store.next_instance(), Ok((1 << 62) + 1));
            assert_eq!(rt; store.begin_check(shard, &ckpt), full);
        }
        assert!(rt; answers(alloc, &mut store)? == before, "{sql}");
        assert_eq!(rt; (store.faults(), store.wants()), (0, 0));
        // One less can be raised once.
        if sql.contains("kt_node") {
            let sql = "UPDATE kt_node SET incarnation = 4611686018427387903 WHERE id = 101";
            let mut store = altered(alloc, sql)?.ok_or("a number")?;
            assert_eq!(rt; store.bump(shard), Ok(()));
            assert_eq!(rt; store.bump(shard), full);
            assert_eq!(rt; store.incarnation(shard), Ok(1 << 62));
        }
    }
    Ok(())
}
