//! A store of version 1 on a disk that stops while it is carried over: then it is as before or as it is to be.

use crate::migrations::{dump, expected, fill, journal};
use kt_sql::{SqlOpenError, SqlStore};
use kt_store::MemStore;
use sqlite::{Connection, FileStore, Files, Options};
use sqlite_disk::{Disk, Fuse, Memory};
use std::alloc::Global;
use std::process::Abort;
use std::test::*;

/// How many pages of a file are kept in memory.
const CACHE_PAGES: usize = 16;

/// The bytes of the two files of a database.
#[derive(Drop)]
pub(crate) struct Image {
    pub(crate) log: Vec<u8>,
    pub(crate) db: Vec<u8>,
}

pub(crate) fn on_disk(alloc: Global, bytes: &[u8]) -> Result<Memory, Fail> {
    let mut disk = Memory::new(alloc);
    disk.write_at(0, bytes).ok().ok_or("written")?;
    disk.sync().ok().ok_or("synced")?;
    Ok(disk)
}

pub(crate) fn connected<D: Disk + Drop>(
    alloc: Global,
    log: D,
    db: D,
) -> Option<Connection<FileStore<D>>> {
    let mut options = Options::new(7);
    options.cache_pages = CACHE_PAGES;
    Connection::open_files(alloc, Files { log, db }, options).ok()
}

/// The database in version 1, closed.
fn old_image(alloc: Global) -> Result<Image, Fail> {
    let mut conn = connected(alloc, Memory::new(alloc), Memory::new(alloc)).ok_or("it opens")?;
    fill(alloc, &mut conn, true)?;
    let files = conn.close_files().ok().ok_or("it is closed")?;
    Ok(Image {
        log: Vec::from_slice(alloc, files.log.bytes())?,
        db: Vec::from_slice(alloc, files.db.bytes())?,
    })
}

/// What the database shows that is in these files.
fn shown(alloc: Global, image: &Image) -> Result<Vec<u8>, Fail> {
    let (log, db) = (on_disk(alloc, &image.log)?, on_disk(alloc, &image.db)?);
    dump(alloc, &mut connected(alloc, log, db).ok_or("it opens again")?)
}

/// Carries the database over on disks of which one fails from some call on, and gives the answer with the files then;
/// nothing where it did not even open.
fn stopped(
    alloc: Global,
    image: &Image,
    store: &MemStore,
    log: u64,
    db: u64,
) -> Result<Option<(Result<(), SqlOpenError>, Image)>, Fail> {
    let log = Fuse::new(on_disk(alloc, &image.log)?, log);
    let db = Fuse::new(on_disk(alloc, &image.db)?, db);
    let Some(conn) = connected(alloc, log, db) else {
        return Ok(None);
    };
    let (answer, conn) = match SqlStore::migrate(alloc, conn, store) {
        Ok(store) => (Ok(()), store.into_connection()),
        Err((error, conn)) => (Err(error), conn),
    };
    let files = conn.into_store().close();
    let left = Image {
        log: Vec::from_slice(alloc, files.log.inner().bytes())?,
        db: Vec::from_slice(alloc, files.db.inner().bytes())?,
    };
    Ok(Some((answer, left)))
}

/// One file fails from each call on in turn, until nothing does. It answers how often the tables were as before.
fn at_each_call(rt: &impl Abort, alloc: Global, is_log: bool) -> Result<u32, Fail> {
    let image = old_image(alloc)?;
    let store = journal(alloc, true, true)?;
    let (before, after) = (expected(alloc, true)?, expected(alloc, false)?);
    assert!(rt; shown(alloc, &image)?.as_slice() == before.as_slice());
    let mut kept = 0u32;
    for calls in 0..1000u64 {
        let (log, db) = if is_log {
            (calls, u64::MAX)
        } else {
            (u64::MAX, calls)
        };
        let Some((answer, left)) = stopped(alloc, &image, &store, log, db)? else {
            continue;
        };
        let shows = shown(alloc, &left)?;
        let is_after = shows.as_slice() == after.as_slice();
        assert!(rt; is_after || shows.as_slice() == before.as_slice(), "{calls}");
        match answer {
            Ok(()) => {
                assert!(rt; is_after, "{calls}");
                return Ok(kept);
            }
            Err(error) => assert_eq!(rt; error, SqlOpenError::Device, "{calls}"),
        }
        if !is_after {
            kept = kept.saturating_add(1);
        }
    }
    Err(Fail::from("it is carried over in the end"))
}

#[test]
fn at_each_call_of_the_log(rt: HostRuntime) -> Result<(), Fail> {
    let kept = at_each_call(&rt, rt.alloc(), true)?;
    assert!(rt; kept > 0);
    Ok(())
}

/// A commit writes the log alone: no call on the database is needed, so what stops it is a read, or nothing.
#[test]
fn at_each_call_of_the_database(rt: HostRuntime) -> Result<(), Fail> {
    at_each_call(&rt, rt.alloc(), false)?;
    Ok(())
}
