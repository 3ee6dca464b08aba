//! Stores over tables that are there.

use kt_sql::{SqlOpenError, SqlStore};
use kt_store::{CkptStore, StoreError, Verdict};
use kt_tuple::NodeId;
use sqlite::{Connection, MemStore};
use std::alloc::Global;
use std::test::*;

pub(crate) const NODES: &str =
    "CREATE TABLE kt_node (id INTEGER PRIMARY KEY, incarnation INTEGER NOT NULL, permanent BLOB, tentative BLOB, \
     instance INTEGER) STRICT";

pub(crate) const BOARD: &str =
    "CREATE TABLE kt_board (instance INTEGER PRIMARY KEY, initiator INTEGER NOT NULL, purpose INTEGER NOT NULL, \
     verdict INTEGER NOT NULL) STRICT";

pub(crate) const META: &str =
    "CREATE TABLE kt_meta (id INTEGER PRIMARY KEY, version INTEGER NOT NULL) STRICT";

pub(crate) const VERSION: &str = "INSERT INTO kt_meta VALUES (1, 2)";

pub(crate) const OLD_VERSION: &str = "INSERT INTO kt_meta VALUES (1, 1)";

const FIRST: NodeId = NodeId::Worker(1);

/// A connection on which these statements were run, outside a transaction.
pub(crate) fn connection(alloc: Global, statements: &[&str]) -> Result<Connection<MemStore>, Fail> {
    let mut conn = Connection::open_in_memory(alloc)?;
    for sql in statements {
        conn.execute(sql, &[]).ok().ok_or("it runs")?;
    }
    Ok(conn)
}

/// The store in it.
pub(crate) fn adopted(
    alloc: Global,
    conn: Connection<MemStore>,
) -> Result<Result<SqlStore<MemStore>, SqlOpenError>, Fail> {
    if !conn.is_autocommit() {
        return Err(Fail::from("a transaction is open"));
    }
    Ok(match SqlStore::adopt(alloc, conn) {
        Ok(store) => Ok(store),
        Err((error, _)) => Err(error),
    })
}

/// Tables, and how their opening ends.
const OPENINGS: [(&[&str], Result<(), SqlOpenError>); 20] = [
    (&[], Ok(())),
    (&[NODES, BOARD, META, VERSION], Ok(())),
    // kt_meta
    (&[NODES, BOARD, META], Err(SqlOpenError::Damaged)),
    (
        &[NODES, BOARD, META, "INSERT INTO kt_meta VALUES (1, 0)"],
        Err(SqlOpenError::Damaged),
    ),
    // version 1, which is raised where there is no row
    (&[NODES, BOARD, META, OLD_VERSION], Ok(())),
    (
        &[
            NODES,
            BOARD,
            META,
            OLD_VERSION,
            "INSERT INTO kt_node VALUES (1, 2, NULL, NULL, NULL)",
        ],
        Err(SqlOpenError::Version),
    ),
    (
        &[
            NODES,
            BOARD,
            META,
            OLD_VERSION,
            "INSERT INTO kt_board VALUES (1, 1, 1, 0)",
        ],
        Err(SqlOpenError::Version),
    ),
    (
        &[NODES, BOARD, META, "INSERT INTO kt_meta VALUES (1, 3)"],
        Err(SqlOpenError::Damaged),
    ),
    (
        &[NODES, BOARD, META, "INSERT INTO kt_meta VALUES (2, 2)"],
        Err(SqlOpenError::Damaged),
    ),
    (
        &[
            NODES,
            BOARD,
            META,
            VERSION,
            "INSERT INTO kt_meta VALUES (2, 2)",
        ],
        Err(SqlOpenError::Damaged),
    ),
    // a table that is not there, one too many, or another
    (&[NODES], Err(SqlOpenError::Damaged)),
    (&[BOARD, META, VERSION], Err(SqlOpenError::Damaged)),
    (
        &[
            NODES,
            BOARD,
            META,
            VERSION,
            "CREATE TABLE other (a INTEGER)",
        ],
        Err(SqlOpenError::Damaged),
    ),
    (
        &["CREATE TABLE other (a INTEGER)"],
        Err(SqlOpenError::Damaged),
    ),
    (
        &[
            NODES,
            BOARD,
            META,
            VERSION,
            "CREATE INDEX late ON kt_board (verdict)",
        ],
        Err(SqlOpenError::Damaged),
    ),
    (
        &[
            NODES,
            BOARD,
            META,
            VERSION,
            "CREATE VIEW v AS SELECT id FROM kt_node",
        ],
        Err(SqlOpenError::Damaged),
    ),
    // a column with another name, type or rule
    (
        &[
            NODES,
            BOARD,
            "CREATE TABLE kt_meta (id INTEGER PRIMARY KEY, format INTEGER NOT NULL) STRICT",
            VERSION,
        ],
        Err(SqlOpenError::Damaged),
    ),
    (
        &[
            NODES,
            BOARD,
            "CREATE TABLE kt_meta (id INTEGER PRIMARY KEY, version ANY NOT NULL) STRICT",
            VERSION,
        ],
        Err(SqlOpenError::Damaged),
    ),
    (
        &[
            NODES,
            BOARD,
            "CREATE TABLE kt_meta (id INTEGER PRIMARY KEY, version INTEGER) STRICT",
            VERSION,
        ],
        Err(SqlOpenError::Damaged),
    ),
    (
        &[
            NODES,
            BOARD,
            "CREATE TABLE kt_meta (id INTEGER PRIMARY KEY, version INTEGER NOT NULL CHECK (version > 0)) STRICT",
            VERSION,
        ],
        Err(SqlOpenError::Damaged),
    ),
];

#[test]
fn openings(rt: HostRuntime) -> Result<(), Fail> {
    let alloc = rt.alloc();
    for (statements, expected) in &OPENINGS {
        let opened = adopted(alloc, connection(alloc, statements)?)?;
        let ended = match opened {
            Ok(_) => Ok(()),
            Err(error) => Err(error),
        };
        assert_eq!(rt; ended, *expected, "{statements:?}");
    }
    Ok(())
}

/// The store over the tables with this row too.
fn with_row(alloc: Global, row: &str) -> Result<SqlStore<MemStore>, Fail> {
    let conn = connection(alloc, &[NODES, BOARD, META, VERSION, row])?;
    Ok(
        adopted(alloc, conn)?
            .ok()
            .ok_or("the tables are a store's")?,
    )
}

/// What a checkpoint is read as: the length of its line.
type Read = Result<Option<u64>, StoreError>;

const BAD: Read = Err(StoreError::Damaged);

/// Rows of the first worker, and its permanent and its tentative checkpoint.
const NODE_ROWS: [(&str, Read, Read); 8] = [
    (
        "INSERT INTO kt_node VALUES (1, 2, NULL, NULL, NULL)",
        Ok(None),
        Ok(None),
    ),
    (
        "INSERT INTO kt_node VALUES (1, 1, x'4b544350020201000000000000000001\
0000000000000000000000000000000000000000000000000000000000000000000000000000', NULL, NULL)",
        Ok(Some(0)),
        Ok(None),
    ),
    (
        "INSERT INTO kt_node VALUES (1, 1, NULL, x'4b544350020201000000000000000001\
0000000000000000000000000000000000000000000000000000000000000000000000000000', 7)",
        Ok(None),
        Ok(Some(0)),
    ),
    (
        "INSERT INTO kt_node VALUES (1, 0, NULL, NULL, NULL)",
        BAD,
        BAD,
    ),
    (
        "INSERT INTO kt_node VALUES (1, 4611686018427387905, NULL, NULL, NULL)",
        BAD,
        BAD,
    ),
    (
        "INSERT INTO kt_node VALUES (1, 1, x'4b', NULL, NULL)",
        BAD,
        BAD,
    ),
    ("INSERT INTO kt_node VALUES (1, 1, NULL, NULL, 7)", BAD, BAD),
    (
        "INSERT INTO kt_node VALUES (1, 1, NULL, x'4b544350020201000000000000000001\
0000000000000000000000000000000000000000000000000000000000000000000000000000', NULL)",
        BAD,
        BAD,
    ),
];

fn permanent_line(store: &mut SqlStore<MemStore>, alloc: Global) -> Read {
    Ok(store.permanent(alloc, FIRST)?.map(|ckpt| ckpt.line_len()))
}

fn tentative_line(store: &mut SqlStore<MemStore>, alloc: Global) -> Read {
    let tentative = store.tentative(alloc, FIRST)?;
    Ok(tentative.map(|tentative| tentative.checkpoint.line_len()))
}

#[test]
fn rows_of_nodes(rt: HostRuntime) -> Result<(), Fail> {
    let alloc = rt.alloc();
    for (row, permanent, tentative) in &NODE_ROWS {
        let mut store = with_row(alloc, row)?;
        assert_eq!(rt; permanent_line(&mut store, alloc), *permanent, "{row}");
        assert_eq!(rt; tentative_line(&mut store, alloc), *tentative, "{row}");
        // No write goes over a row that is damaged.
        assert_eq!(rt; store.bump(FIRST).is_err(), permanent.is_err(), "{row}");
        assert!(rt; matches!(store.is_fresh(), Ok(false)) && store.faults() == 0);
    }
    Ok(())
}

/// Rows of the board, and the verdict on the instance 7.
const BOARD_ROWS: [(&str, Result<Option<Verdict>, StoreError>); 6] = [
    (
        "INSERT INTO kt_board VALUES (7, 101, 1, 0)",
        Ok(Some(Verdict::Open)),
    ),
    (
        "INSERT INTO kt_board VALUES (7, 8, 2, 2)",
        Ok(Some(Verdict::No)),
    ),
    ("INSERT INTO kt_board VALUES (8, 200, 1, 0)", Ok(None)),
    (
        "INSERT INTO kt_board VALUES (7, 200, 1, 0)",
        Err(StoreError::Damaged),
    ),
    (
        "INSERT INTO kt_board VALUES (7, 1, 3, 0)",
        Err(StoreError::Damaged),
    ),
    (
        "INSERT INTO kt_board VALUES (7, 1, 1, 3)",
        Err(StoreError::Damaged),
    ),
];

#[test]
fn rows_of_the_board(rt: HostRuntime) -> Result<(), Fail> {
    let alloc = rt.alloc();
    for (row, verdict) in &BOARD_ROWS {
        let mut store = with_row(alloc, row)?;
        assert_eq!(rt; store.verdict(7), *verdict, "{row}");
        assert!(rt; matches!(store.is_fresh(), Ok(false)) && store.faults() == 0);
    }
    Ok(())
}

/// The greatest numbers are not raised.
#[test]
fn full_stores(rt: HostRuntime) -> Result<(), Fail> {
    let alloc = rt.alloc();
    let mut store = with_row(
        alloc,
        "INSERT INTO kt_node VALUES (1, 4611686018427387904, NULL, NULL, NULL)",
    )?;
    assert_eq!(rt; store.bump(FIRST), Err(StoreError::Full));
    assert_eq!(rt; store.begin_restart(FIRST), Err(StoreError::Full));
    assert_eq!(rt; store.incarnation(FIRST), Ok(4_611_686_018_427_387_904));
    let mut store = with_row(
        alloc,
        "INSERT INTO kt_board VALUES (4611686018427387904, 1, 1, 1)",
    )?;
    assert_eq!(rt; store.begin_restart(FIRST), Err(StoreError::Full));
    assert_eq!(rt; store.incarnation(FIRST), Ok(1));
    Ok(())
}

/// What was written is there after another opening; what is no store's is handed back as it was.
#[test]
fn opened_again(rt: HostRuntime) -> Result<(), Fail> {
    let alloc = rt.alloc();
    let mut store = adopted(alloc, connection(alloc, &[])?)?
        .ok()
        .ok_or("it opens")?;
    assert!(rt; store.begin_restart(FIRST).is_ok());
    let mut again = adopted(alloc, store.into_connection())?
        .ok()
        .ok_or("it opens")?;
    assert_eq!(rt; again.incarnation(FIRST), Ok(2));
    assert_eq!(rt; again.open_of(FIRST), Ok(Some(1)));
    let other = connection(
        alloc,
        &[
            "CREATE TABLE other (a INTEGER)",
            "INSERT INTO other VALUES (9)",
        ],
    )?;
    if !other.is_autocommit() {
        return Err(Fail::from("a transaction is open"));
    }
    let Err((error, mut back)) = SqlStore::adopt(alloc, other) else {
        return Err(Fail::from("it opens"));
    };
    assert_eq!(rt; error, SqlOpenError::Damaged);
    let row = back
        .query_row("SELECT a FROM other", &[])
        .ok()
        .ok_or("a row")?;
    assert_eq!(rt; row.get::<i64>(0), Ok(9));
    Ok(())
}
