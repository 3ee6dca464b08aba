//! A request that opens a store, in memory or on a disk that fails.

use crate::openers::{
    Asked, FAILS_AFTER_YES, FAILS_AFTER_YES_REPORT, InMemory, NO_FAULTS, NO_FAULTS_REPORT, OnFuses,
    PATH, STORES_NOTHING, asking, end_of,
};
use kt_command::{Command, Request, Task};
use kt_run::Output;
use kt_scene::Start;
use std::alloc::Global;
use std::process::Abort;
use std::sync::Wait;
use std::test::Fail;
use std::thread::Threads;

const REPLAY: Task<'static> = Task::Make {
    command: Command::Replay(Start::Open),
    store: Some(PATH),
};

const RUN: Task<'static> = Task::Make {
    command: Command::Run(Start::Open, Output::Report),
    store: Some(PATH),
};

/// The store that is opened is one for the path that is named, and the report is as over memory.
#[test]
fn opens_once(rt: HostRuntime) -> Result<(), Fail> {
    let alloc = rt.alloc();
    for (request, input, report) in [
        (asking(REPLAY), FAILS_AFTER_YES, FAILS_AFTER_YES_REPORT),
        (asking(RUN), NO_FAULTS, NO_FAULTS_REPORT),
    ] {
        let asked = Asked::nothing();
        let opener = InMemory {
            alloc,
            asked: &asked,
        };
        let over_path = end_of(alloc, &rt, opener, request, input);
        assert!(rt; over_path.is(report, "", 0), "{over_path:?}");
        assert!(rt; asked.was(1), "{asked:?}");
        let opener = InMemory {
            alloc,
            asked: &asked,
        };
        let Request::Read {
            task: Task::Make { command, .. },
            ..
        } = request else {
            return Err(Fail::from("a command"));
        };
        let in_memory = asking(Task::Make {
            command,
            store: None,
        });
        let over_memory = end_of(alloc, &rt, opener, in_memory, input);
        assert!(rt; over_memory.is(report, "", 0), "{over_memory:?}");
        assert!(rt; asked.was(1), "{asked:?}");
    }
    Ok(())
}

/// The calls of one file fail from some number on: the first, then the second, until a replay is done. Each ends with
/// 5, and writes nothing. It answers how many read nothing, since the store was not opened, and how many had read.
fn failures_of(
    rt: &impl Abort,
    threads: &(impl Threads + Wait + Sync),
    alloc: Global,
    is_log: bool,
) -> (u32, u32) {
    let (mut unopened, mut refused) = (0u32, 0u32);
    for calls in 0..1000u64 {
        let asked = Asked::nothing();
        let (log, db) = if is_log {
            (calls, u64::MAX)
        } else {
            (u64::MAX, calls)
        };
        let opener = OnFuses {
            alloc,
            log,
            db,
            asked: &asked,
        };
        let left = end_of(alloc, threads, opener, asking(REPLAY), FAILS_AFTER_YES);
        assert!(rt; asked.was(1), "{asked:?}");
        if left.status == 0 {
            assert!(rt; left.is(FAILS_AFTER_YES_REPORT, "", 0), "{left:?}");
            break;
        }
        assert!(rt; left.is("", "store: Device\n", 5), "{calls}: {left:?}");
        if left.has_read {
            refused = refused.saturating_add(1);
        } else {
            unopened = unopened.saturating_add(1);
        }
    }
    (unopened, refused)
}

/// Whatever call the disk fails at first, the status is 5 with nothing written. The database is read and written where
/// it is opened, the log at each write of a step too.
#[test]
fn ends_where_the_disk_fails(rt: HostRuntime) -> Result<(), Fail> {
    let alloc = rt.alloc();
    let db = failures_of(&rt, &rt, alloc, false);
    let log = failures_of(&rt, &rt, alloc, true);
    assert!(rt; db.0 > 0 && log.0 > 0 && log.1 > 0, "{db:?} and {log:?}");
    Ok(())
}

const MIGRATE: Task<'static> = Task::Migrate { store: PATH };

/// A file is connected to once, before anything is read, and one without tables is no store of version 1. A scenario
/// that has a fault is told before that, and nothing is written.
#[test]
fn carries_over_what_is_of_version_1(rt: HostRuntime) -> Result<(), Fail> {
    let alloc = rt.alloc();
    for (input, line, status) in [
        (STORES_NOTHING, "store: Mismatch\n", 5),
        (FAILS_AFTER_YES, "store: Mismatch\n", 5),
        (NO_FAULTS, "line 5: 2 Word\n", 3),
    ] {
        let asked = Asked::nothing();
        let opener = InMemory {
            alloc,
            asked: &asked,
        };
        let left = end_of(alloc, &rt, opener, asking(MIGRATE), input);
        assert!(rt; left.is("", line, status), "{left:?}");
        assert!(rt; asked.was(1) && left.has_read, "{asked:?}");
    }
    let asked = Asked::nothing();
    let opener = OnFuses {
        alloc,
        log: 0,
        db: 0,
        asked: &asked,
    };
    let left = end_of(alloc, &rt, opener, asking(MIGRATE), STORES_NOTHING);
    assert!(rt; left.is("", "store: Device\n", 5) && !left.has_read, "{left:?}");
    Ok(())
}
