//! Stores of version 1 that are carried over, and what is not.

use crate::adopted::{BOARD, META, NODES, OLD_VERSION, VERSION, adopted, connection};
use kt_ckpt::Ckpt;
use kt_ckpt_tests::stored::{FIRST_WORKER, OLD_SHARD_LEN, OLD_WORKER_LEN, SHARD};
use kt_sql::{SqlOpenError, SqlStore};
use kt_store::{CkptStore, MemStore};
use kt_tuple::NodeId;
use sqlite::types::ValueRef;
use sqlite::{Alter, Connection, Row, params};
use std::alloc::Global;
use std::test::*;

const WORKER: NodeId = NodeId::Worker(1);
const SHARD_NODE: NodeId = NodeId::Shard(1);

const PUT_NODE: &str = "INSERT INTO kt_node VALUES (?1, ?2, ?3, ?4, ?5)";

/// One check, which all agreed to: the worker has learned of it and the shard has not.
const CHECKED: &str = "INSERT INTO kt_board VALUES (1, 1, 1, 1)";

type Plain = Connection<sqlite::MemStore>;

fn checkpoint(alloc: Global, bytes: &[u8]) -> Result<Ckpt, Fail> {
    Ok(
        Ckpt::decode(alloc, bytes)
            .ok()
            .ok_or("the bytes are a checkpoint")?,
    )
}

/// What the journal makes: the check, without its verdict or with it, and what the worker has learned.
pub(crate) fn journal(alloc: Global, is_decided: bool, is_learned: bool) -> Result<MemStore, Fail> {
    let mut store = MemStore::new(alloc);
    let worker = checkpoint(alloc, &FIRST_WORKER)?;
    let shard = checkpoint(alloc, &SHARD)?;
    store.begin_check(WORKER, &worker).ok().ok_or("begun")?;
    store
        .put_tentative(SHARD_NODE, 1, &shard)
        .ok()
        .ok_or("joined")?;
    if is_decided {
        store.decide(1, true).ok().ok_or("decided")?;
    }
    if is_learned {
        store.promote(WORKER).ok().ok_or("learned")?;
    }
    Ok(store)
}

/// The first bytes, with this version.
fn stored(
    alloc: Global,
    bytes: &[u8],
    old_len: usize,
    is_old: bool,
) -> Result<Option<Vec<u8>>, Fail> {
    let mut copy = Vec::from_slice(alloc, if is_old { &bytes[..old_len] } else { bytes })?;
    if is_old {
        copy[4] = 1;
    }
    Ok(Some(copy))
}

/// Puts the tables and rows of that journal, in version 1 or as they are now.
pub(crate) fn fill<S: Alter>(
    alloc: Global,
    conn: &mut Connection<S>,
    is_old: bool,
) -> Result<(), Fail> {
    let version = if is_old { OLD_VERSION } else { VERSION };
    for sql in [NODES, BOARD, META, version, CHECKED] {
        conn.execute(sql, &[]).ok().ok_or("it runs")?;
    }
    let worker = stored(alloc, &FIRST_WORKER, OLD_WORKER_LEN, is_old)?;
    let shard = stored(alloc, &SHARD, OLD_SHARD_LEN, is_old)?;
    let none: Option<u32> = None;
    let nothing: Option<Vec<u8>> = None;
    conn.execute(PUT_NODE, params![1u32, 1u32, &worker, &nothing, none])
        .ok()
        .ok_or("the worker's row")?;
    conn.execute(PUT_NODE, params![101u32, 1u32, &nothing, &shard, Some(1u32)])
        .ok()
        .ok_or("the shard's row")?;
    Ok(())
}

fn filled(alloc: Global, is_old: bool) -> Result<Plain, Fail> {
    let mut conn = Connection::open_in_memory(alloc)?;
    fill(alloc, &mut conn, is_old)?;
    Ok(conn)
}

fn push_row(out: &mut Vec<u8>, row: &Row) -> Result<(), Fail> {
    for at in 0..row.column_count() {
        match row.get_ref(at).ok().ok_or("a column")? {
            ValueRef::Null => out.push(0)?,
            ValueRef::Int(number) => {
                out.push(1)?;
                out.extend_from_slice(&number.to_be_bytes())?;
            }
            ValueRef::Blob(bytes) => {
                out.push(2)?;
                out.extend_from_slice(&(bytes.len() as u64).to_be_bytes())?;
                out.extend_from_slice(bytes)?;
            }
            _ => return Err(Fail::from("neither a number nor bytes")),
        }
    }
    Ok(out.push(3)?)
}

/// All that the three tables hold, in bytes.
pub(crate) fn dump<S: Alter>(alloc: Global, conn: &mut Connection<S>) -> Result<Vec<u8>, Fail> {
    let mut out = Vec::new(alloc);
    for sql in [
        "SELECT id, version FROM kt_meta ORDER BY id",
        "SELECT id, incarnation, permanent, tentative, instance FROM kt_node ORDER BY id",
        "SELECT instance, initiator, purpose, verdict FROM kt_board ORDER BY instance",
    ] {
        let rows = conn.query_all(sql, &[]).ok().ok_or("it is shown")?;
        for row in rows.iter() {
            push_row(&mut out, row)?;
        }
        out.push(4)?;
    }
    Ok(out)
}

/// What the tables hold after that journal, in version 1 or as they are now.
pub(crate) fn expected(alloc: Global, is_old: bool) -> Result<Vec<u8>, Fail> {
    dump(alloc, &mut filled(alloc, is_old)?)
}

/// Carries over what the connection reaches, and gives the connection then.
fn migrated(alloc: Global, conn: Plain, store: &MemStore) -> (Result<(), SqlOpenError>, Plain) {
    match SqlStore::migrate(alloc, conn, store) {
        Ok(store) => (Ok(()), store.into_connection()),
        Err((error, conn)) => (Err(error), conn),
    }
}

/// It is refused at an opening, is carried over by its journal, and opens then; a second time it is a mismatch.
#[test]
fn by_its_journal(rt: HostRuntime) -> Result<(), Fail> {
    let alloc = rt.alloc();
    let store = journal(alloc, true, true)?;
    let refused = adopted(alloc, filled(alloc, true)?)?;
    assert!(rt; matches!(refused, Err(SqlOpenError::Version)));
    let (answer, mut conn) = migrated(alloc, filled(alloc, true)?, &store);
    assert_eq!(rt; answer, Ok(()));
    assert!(rt; dump(alloc, &mut conn)?.as_slice() == expected(alloc, false)?.as_slice());
    let (again, mut conn) = migrated(alloc, conn, &store);
    assert_eq!(rt; again, Err(SqlOpenError::Mismatch));
    assert!(rt; dump(alloc, &mut conn)?.as_slice() == expected(alloc, false)?.as_slice());
    let mut opened = adopted(alloc, conn)?.ok().ok_or("it opens")?;
    let permanent = opened
        .permanent(alloc, WORKER)
        .ok()
        .ok_or("it is read")?
        .ok_or("it is there")?;
    assert!(rt; permanent.encode(alloc)?.as_slice() == FIRST_WORKER.as_slice());
    assert_eq!(rt; permanent.acts().len(), 2);
    Ok(())
}

/// Another journal is a mismatch, one that lacks the verdict or what was learned too, and none changes anything.
#[test]
fn by_another_journal(rt: HostRuntime) -> Result<(), Fail> {
    let alloc = rt.alloc();
    let mut other = MemStore::new(alloc);
    other.bump(WORKER).ok().ok_or("bumped")?;
    let stores = [
        MemStore::new(alloc),
        other,
        journal(alloc, false, false)?,
        journal(alloc, true, false)?,
        journal(alloc, false, true)?,
    ];
    let mut conn = filled(alloc, true)?;
    for (at, store) in stores.iter().enumerate() {
        let (answer, left) = migrated(alloc, conn, store);
        assert_eq!(rt; answer, Err(SqlOpenError::Mismatch), "{at}");
        conn = left;
        assert!(rt; dump(alloc, &mut conn)?.as_slice() == expected(alloc, true)?.as_slice(), "{at}");
    }
    Ok(())
}

/// Statements on the tables of that journal, after which it is a mismatch, and an opening is refused by this name.
const SPOILS: [(&str, SqlOpenError); 9] = [
    (
        "UPDATE kt_meta SET version = 0 WHERE id = 1",
        SqlOpenError::Damaged,
    ),
    (
        "UPDATE kt_meta SET version = 3 WHERE id = 1",
        SqlOpenError::Damaged,
    ),
    ("INSERT INTO kt_meta VALUES (2, 1)", SqlOpenError::Damaged),
    ("DELETE FROM kt_meta", SqlOpenError::Damaged),
    (
        "CREATE TABLE other (a INTEGER)",
        SqlOpenError::Damaged,
    ),
    (
        "UPDATE kt_node SET permanent = x'00' WHERE id = 1",
        SqlOpenError::Version,
    ),
    (
        "UPDATE kt_node SET permanent = NULL WHERE id = 1",
        SqlOpenError::Version,
    ),
    (
        "INSERT INTO kt_node VALUES (102, 1, NULL, NULL, NULL)",
        SqlOpenError::Version,
    ),
    (
        "UPDATE kt_board SET purpose = 2 WHERE instance = 1",
        SqlOpenError::Version,
    ),
];

#[test]
fn what_is_spoiled(rt: HostRuntime) -> Result<(), Fail> {
    let alloc = rt.alloc();
    let store = journal(alloc, true, true)?;
    for (sql, name) in &SPOILS {
        let mut conn = filled(alloc, true)?;
        conn.execute(sql, &[]).ok().ok_or("it runs")?;
        let before = dump(alloc, &mut conn)?;
        let (answer, mut conn) = migrated(alloc, conn, &store);
        assert_eq!(rt; answer, Err(SqlOpenError::Mismatch), "{sql}");
        assert!(rt; dump(alloc, &mut conn)?.as_slice() == before.as_slice(), "{sql}");
        match adopted(alloc, conn)? {
            Ok(_) => return Err(Fail::from(*sql)),
            Err(error) => assert_eq!(rt; error, *name, "{sql}"),
        }
    }
    Ok(())
}

/// Version 1 without rows is raised at an opening, and carried over by a journal that stores nothing. Where there are
/// no tables there is nothing to carry over.
#[test]
fn without_rows(rt: HostRuntime) -> Result<(), Fail> {
    let alloc = rt.alloc();
    let empty = [NODES, BOARD, META, OLD_VERSION];
    let fresh = dump(alloc, &mut connection(alloc, &[NODES, BOARD, META, VERSION])?)?;
    let mut raised = adopted(alloc, connection(alloc, &empty)?)?
        .ok()
        .ok_or("it is raised")?;
    assert!(rt; matches!(raised.is_fresh(), Ok(true)));
    assert!(rt; dump(alloc, &mut raised.into_connection())?.as_slice() == fresh.as_slice());
    let nothing = MemStore::new(alloc);
    let (answer, mut conn) = migrated(alloc, connection(alloc, &empty)?, &nothing);
    assert_eq!(rt; answer, Ok(()));
    assert!(rt; dump(alloc, &mut conn)?.as_slice() == fresh.as_slice());
    let (answer, _) = migrated(alloc, connection(alloc, &empty)?, &journal(alloc, true, true)?);
    assert_eq!(rt; answer, Err(SqlOpenError::Mismatch));
    let (answer, conn) = migrated(alloc, connection(alloc, &[])?, &nothing);
    assert_eq!(rt; answer, Err(SqlOpenError::Mismatch));
    assert!(rt; adopted(alloc, conn)?.is_ok());
    Ok(())
}
