//! Tables with all that a cell can hold, the cells that are damaged in them, and all that their store answers.

use crate::adopted::{BOARD, META, NODES, VERSION, adopted, connection};
use kt_sql::SqlStore;
use kt_store::{CkptStore, StoreError};
use kt_tuple::NodeId;
use sqlite::{Connection, MemStore};
use std::alloc::Global;
use std::fmt::Debug;
use std::test::Fail;

pub(crate) type Store = SqlStore<MemStore>;

/// The row of the first worker, which has a permanent checkpoint alone.
const WORKER_ROW: &str =
    "INSERT INTO kt_node VALUES (1, 1, x'4b544350020101000000000000000201000000000000000100000000\
00000001000000000000000100000000000000010001000000000000000100000001010000000000000000010102020161\
010000000000000001060101020100000000000000020000000000000001010202016101000000000000000100', NULL, NULL)";

/// The row of the first shard, which has both checkpoints.
const SHARD_ROW: &str =
    "INSERT INTO kt_node VALUES (101, 3, x'4b544350020201000000000000000201000000000000000100000000\
00000001000000000000000100000000000000010000000102020161010000000000000001000101000000000000000101\
02020161010000000000000001000301010101000000000000000100000000000000010102020161010000000000000001\
040101010100000000000000010000000000000001010202016101000000000000000100', x'\
4b544350020201000000000000000201000000000000000100000000000000010000000000000001000000000000000100\
00000102020161010000000000000001000101000000000000000101020201610100000000000000010003010101010000\
00000000000100000000000000010102020161010000000000000001040101010100000000000000010000000000000001\
010202016101000000000000000100', 2)";

/// A check of the worker with Yes, and a rollback of the shard that is open.
const BOARD_ROWS: [&str; 2] = [
    "INSERT INTO kt_board VALUES (1, 1, 1, 1)",
    "INSERT INTO kt_board VALUES (2, 101, 2, 0)",
];

/// A checkpoint of the worker with a byte too many, one too few, and of the version before this one.
const NO_CHECKPOINTS: [&str; 3] = [
    "x'4b544350020101000000000000000201000000000000000100000000000000010000000000000001\
00000000000000010001000000000000000100000001010000000000000000010102020161010000000000000001060101\
02010000000000000002000000000000000101020201610100000000000000010000'",
    "x'4b544350020101000000000000000201000000000000000100000000000000010000000000000001\
00000000000000010001000000000000000100000001010000000000000000010102020161010000000000000001060101\
0201000000000000000200000000000000010102020161010000000000000001'",
    "x'4b544350010101000000000000000201000000000000000100000000000000010000000000000001\
000000000000000100010000000000000001000000'",
];

/// A checkpoint of the shard with a byte too many, one too few, another answer at its end, and an act too few.
const NO_SHARDS: [&str; 4] = [
    "x'4b544350020201000000000000000201000000000000000100000000000000010000000000000001\
00000000000000010000000102020161010000000000000001000101000000000000000101020201610100000000000000\
01000301010101000000000000000100000000000000010102020161010000000000000001040101010100000000000000\
01000000000000000101020201610100000000000000010000'",
    "x'4b544350020201000000000000000201000000000000000100000000000000010000000000000001\
00000000000000010000000102020161010000000000000001000101000000000000000101020201610100000000000000\
01000301010101000000000000000100000000000000010102020161010000000000000001040101010100000000000000\
0100000000000000010102020161010000000000000001'",
    "x'4b544350020201000000000000000201000000000000000100000000000000010000000000000001\
00000000000000010000000102020161010000000000000001000101000000000000000101020201610100000000000000\
01000301010101000000000000000100000000000000010102020161010000000000000001040101010100000000000000\
010000000000000001010202016101000000000000000103'",
    "x'4b544350020201000000000000000201000000000000000100000000000000010000000000000001\
00000000000000010000000102020161010000000000000001000101000000000000000101020201610100000000000000\
01000301010101000000000000000100000000000000010102020161010000000000000001'",
];

/// What a cell is altered to, and what comes of it.
#[derive(Clone, Copy, Debug, PartialEq, Eq)]
pub(crate) enum Damage {
    /// The table does not take the value.
    NotTaken,
    /// The row is not as said.
    Damaged,
    /// The row is that of another node or instance, or of none.
    Lost,
}

/// A column of a row, values of it, and what comes of them.
#[derive(Clone, Copy, Debug)]
pub(crate) struct Cell {
    pub(crate) table: &'static str,
    pub(crate) column: &'static str,
    pub(crate) row: &'static str,
    pub(crate) values: &'static [&'static str],
    pub(crate) damage: Damage,
}

/// Each column of both tables.
pub(crate) const CELLS: [Cell; 22] = [
    Cell {
        table: "kt_node",
        column: "id",
        row: "id = 101",
        values: &["NULL", "'x'", "1.5", "x'00'"],
        damage: Damage::NotTaken,
    },
    Cell {
        table: "kt_node",
        column: "id",
        row: "id = 101",
        values: &["0", "9", "100", "109", "201", "-1", "9223372036854775807"],
        damage: Damage::Lost,
    },
    Cell {
        table: "kt_node",
        column: "incarnation",
        row: "id = 101",
        values: &["NULL", "'x'", "1.5", "x'00'"],
        damage: Damage::NotTaken,
    },
    Cell {
        table: "kt_node",
        column: "incarnation",
        row: "id = 101",
        values: &["0", "-1", "4611686018427387905", "9223372036854775807"],
        damage: Damage::Damaged,
    },
    Cell {
        table: "kt_node",
        column: "permanent",
        row: "id = 101",
        values: &["'x'", "1", "1.5"],
        damage: Damage::NotTaken,
    },
    Cell {
        table: "kt_node",
        column: "permanent",
        row: "id = 101",
        values: &["x''", "x'4b'"],
        damage: Damage::Damaged,
    },
    Cell {
        table: "kt_node",
        column: "permanent",
        row: "id = 1",
        values: &NO_CHECKPOINTS,
        damage: Damage::Damaged,
    },
    Cell {
        table: "kt_node",
        column: "tentative",
        row: "id = 101",
        values: &["'x'", "1", "1.5"],
        damage: Damage::NotTaken,
    },
    Cell {
        table: "kt_node",
        column: "tentative",
        row: "id = 101",
        values: &["NULL", "x''", "x'4b'"],
        damage: Damage::Damaged,
    },
    Cell {
        table: "kt_node",
        column: "tentative",
        row: "id = 101",
        values: &NO_SHARDS,
        damage: Damage::Damaged,
    },
    Cell {
        table: "kt_node",
        column: "instance",
        row: "id = 101",
        values: &["'x'", "1.5", "x'00'"],
        damage: Damage::NotTaken,
    },
    Cell {
        table: "kt_node",
        column: "instance",
        row: "id = 101",
        values: &["NULL", "-1", "4611686018427387905"],
        damage: Damage::Damaged,
    },
    Cell {
        table: "kt_node",
        column: "instance",
        row: "id = 1",
        values: &["0", "1"],
        damage: Damage::Damaged,
    },
    Cell {
        table: "kt_board",
        column: "instance",
        row: "instance = 2",
        values: &["NULL", "'x'", "1.5", "x'00'"],
        damage: Damage::NotTaken,
    },
    Cell {
        table: "kt_board",
        column: "instance",
        row: "instance = 2",
        values: &["0", "-1", "4611686018427387905"],
        damage: Damage::Lost,
    },
    Cell {
        table: "kt_board",
        column: "initiator",
        row: "instance = 2",
        values: &["NULL", "'x'", "1.5", "x'00'"],
        damage: Damage::NotTaken,
    },
    Cell {
        table: "kt_board",
        column: "initiator",
        row: "instance = 2",
        values: &["200", "-1", "4611686018427387904", "9223372036854775807"],
        damage: Damage::Damaged,
    },
    Cell {
        table: "kt_board",
        column: "purpose",
        row: "instance = 2",
        values: &["NULL", "'x'", "1.5", "x'00'"],
        damage: Damage::NotTaken,
    },
    Cell {
        table: "kt_board",
        column: "purpose",
        row: "instance = 2",
        values: &["0", "3", "-1"],
        damage: Damage::Damaged,
    },
    Cell {
        table: "kt_board",
        column: "verdict",
        row: "instance = 2",
        values: &["NULL", "'x'", "1.5", "x'00'"],
        damage: Damage::NotTaken,
    },
    Cell {
        table: "kt_board",
        column: "verdict",
        row: "instance = 2",
        values: &["3", "-1", "9223372036854775807"],
        damage: Damage::Damaged,
    },
    Cell {
        table: "kt_board",
        column: "verdict",
        row: "instance = 1",
        values: &["3", "-1"],
        damage: Damage::Damaged,
    },
];

/// The connection to the tables, with these statements behind what they hold.
pub(crate) fn tables(alloc: Global) -> Result<Connection<MemStore>, Fail> {
    let [yes, open] = BOARD_ROWS;
    let statements = [
        NODES, BOARD, META, VERSION, WORKER_ROW, SHARD_ROW, yes, open,
    ];
    connection(alloc, &statements)
}

/// Their store, which opens whatever stands in their rows.
pub(crate) fn store(alloc: Global, conn: Connection<MemStore>) -> Result<Store, Fail> {
    Ok(adopted(alloc, conn)?.ok().ok_or("it opens")?)
}

/// The nodes that are asked after: two with a row, and one without.
const NODES_ASKED: [NodeId; 3] = [NodeId::Worker(1), NodeId::Shard(1), NodeId::Worker(2)];

fn push<T: Debug>(
    alloc: Global,
    answers: &mut Vec<String>,
    answer: &Result<T, StoreError>,
) -> Result<(), Fail> {
    answers.push(format!(in alloc; "{answer:?}")?)?;
    Ok(())
}

/// The answers of all calls that read, as text.
pub(crate) fn answers<S: CkptStore>(alloc: Global, store: &mut S) -> Result<Vec<String>, Fail> {
    let mut answers = Vec::new(alloc);
    for node in NODES_ASKED {
        push(alloc, &mut answers, &store.incarnation(node))?;
        push(alloc, &mut answers, &store.permanent(alloc, node))?;
        push(alloc, &mut answers, &store.tentative(alloc, node))?;
        push(alloc, &mut answers, &store.permanent_header(alloc, node))?;
        push(alloc, &mut answers, &store.tentative_header(alloc, node))?;
        push(alloc, &mut answers, &store.open_of(node))?;
    }
    for instance in 1..=3 {
        push(alloc, &mut answers, &store.verdict(instance))?;
        push(alloc, &mut answers, &store.initiator(instance))?;
    }
    push(alloc, &mut answers, &store.next_instance())?;
    push(alloc, &mut answers, &store.is_fresh())?;
    Ok(answers)
}
