//! Openers whose stores lie in memory, and on a disk that fails, and what a request over one leaves.

use kt_command::{Carries, Opens, Request, Shows, Task, Telling, Terminals, Texts, run_request};
use kt_scene::{Sink, Source};
use kt_sql::{SqlOpenError, SqlStore};
use sqlite::{Alter, Connection, FileStore, Files, MemStore, Options};
use sqlite_disk::{Fuse, Memory};
use std::alloc::Global;
use std::cell::Cell;
use std::sync::Wait;
use std::thread::Threads;

/// The path that each opener here knows.
pub(crate) const PATH: &str = "a.db";

/// The file of a scenario that each opener here knows.
pub(crate) const SCENE: &str = "a.scn";

/// The task with the scenario on standard input.
pub(crate) const fn asking(task: Task<'_>) -> Request<'_> {
    Request::Read {
        task,
        file: None,
        telling: Telling::Nothing,
    }
}

/// A check with all votes and its verdict, before which the shard fails that is told of it.
pub(crate) const FAILS_AFTER_YES: &str = "linda-kt 1\nshards 1\nworker\nout (\"a\", 1)\nsteps\n\
issue w1\ndeliver w1 s1\nserve s1 w1 0\ndeliver s1 w1\ncheck w1\ndeliver w1 s1\ndeliver s1 w1\n\
deliver w1 s1\ndeliver s1 w1\ndecide w1\nfail s1\nlearn s1\nrestart s1\nend\n";

pub(crate) const FAILS_AFTER_YES_REPORT: &str = "survivors 1\nw1.1 out (\"a\", 1) done\nlost 0\nspace 1\n\
(\"a\", 1)\npermanent 1\n(\"a\", 1)\n";

pub(crate) const NO_FAULTS: &str = "linda-kt 1\nshards 1\nworker\nout (\"a\", 1)\nfaults\nend\n";

pub(crate) const NO_FAULTS_REPORT: &str =
    "survivors 1\nw1.1 out (\"a\", 1) done\nlost 0\nspace 1\n(\"a\", 1)\npermanent 0\n";

/// What `SCENE` holds.
const IN_FILE: &str = NO_FAULTS;

pub(crate) const STORES_NOTHING: &str =
    "linda-kt 1\nshards 1\nworker\nout (\"a\", 1)\nsteps\nissue w1\nend\n";

/// What an opener was asked.
#[derive(Debug, Drop)]
pub(crate) struct Asked {
    times: Cell<u32>,
    other_paths: Cell<u32>,
}

impl Asked {
    pub(crate) fn nothing() -> Asked {
        Asked {
            times: Cell::new(0),
            other_paths: Cell::new(0),
        }
    }

    /// Notes an opening, and whether it is of the path that is known.
    fn note(&self, path: &str) {
        self.times.set(self.times.get().saturating_add(1));
        if path != PATH {
            self.other_paths
                .set(self.other_paths.get().saturating_add(1));
        }
    }

    /// Whether it was asked so often, and each time for the path that is known.
    pub(crate) fn was(&self, times: u32) -> bool {
        self.times.get() == times && self.other_paths.get() == 0
    }
}

/// Adopts a connection to a fresh database in memory.
#[derive(Drop)]
pub(crate) struct InMemory<'a> {
    pub(crate) alloc: Global,
    pub(crate) asked: &'a Asked,
}

impl Opens<SqlStore<MemStore>, SqlOpenError> for InMemory<'_> {
    ghost use Rattle.std.specs.Prelude.{⊤};

    ghost gives = { λ _ _ _. ⊤ };

    fn open(self, path: &str) -> Result<SqlStore<MemStore>, SqlOpenError> {
        self.asked.note(path);
        match SqlStore::adopt(self.alloc, Connection::open_in_memory(self.alloc)?) {
            Ok(store) => Ok(store),
            Err((error, _)) => Err(error),
        }
    }

    fn put_away(store: SqlStore<MemStore>) {
        drop(store);
    }
}

/// It connects to the same.
impl Carries<Connection<MemStore>, SqlOpenError> for InMemory<'_> {
    ghost use Rattle.std.specs.Prelude.{◌≡◌, false, ⊤};

    ghost connects = { λ _ _ _. ⊤ };

    ghost carries = { λ _ _ _. ⊤ };

    ghost ready = { λ c. c.in_transaction ≡ false };

    fn connect(self, path: &str) -> Result<Connection<MemStore>, SqlOpenError> {
        self.asked.note(path);
        Ok(Connection::open_in_memory(self.alloc)?)
    }

    fn carry(
        alloc: Global,
        connection: Connection<MemStore>,
        store: &kt_store::MemStore,
    ) -> Result<(), SqlOpenError> {
        carried(alloc, connection, store)
    }
}

fn carried<D: Alter + Drop>(
    alloc: Global,
    connection: Connection<D>,
    store: &kt_store::MemStore,
) -> Result<(), SqlOpenError>
    requires { connection.in_transaction ≡ false }
{
    match SqlStore::migrate(alloc, connection, store) {
        Ok(_) => Ok(()),
        Err((error, _)) => Err(error),
    }
}

/// A copy is a fresh store too.
impl Shows<SqlStore<MemStore>, SqlOpenError> for InMemory<'_> {
    ghost use Rattle.std.specs.Prelude.{⊤};

    ghost gives_copy = { λ _ _ _. ⊤ };

    fn open_copy(self, path: &str) -> Result<SqlStore<MemStore>, SqlOpenError> {
        Opens::open(self, path)
    }
}

impl Texts<&'static [u8], SqlOpenError> for InMemory<'_> {
    ghost use Rattle.std.specs.Prelude.{⊤};

    ghost gives_text = { λ _ _ _. ⊤ };

    fn open_text(&self, path: &str) -> Result<&'static [u8], SqlOpenError> {
        text_at(path)
    }
}

/// What the file of a scenario holds.
fn text_at(path: &str) -> Result<&'static [u8], SqlOpenError> {
    if path == SCENE {
        Ok(IN_FILE.as_bytes())
    } else {
        Err(SqlOpenError::Device)
    }
}

/// How many pages of a file are kept in memory.
const CACHE_PAGES: usize = 16;

/// Adopts a connection to fresh files, each of which fails after so many calls.
#[derive(Drop)]
pub(crate) struct OnFuses<'a> {
    pub(crate) alloc: Global,
    pub(crate) log: u64,
    pub(crate) db: u64,
    pub(crate) asked: &'a Asked,
}

impl Opens<SqlStore<FileStore<Fuse<Memory>>>, SqlOpenError> for OnFuses<'_> {
    ghost use Rattle.std.specs.Prelude.{⊤};

    ghost gives = { λ _ _ _. ⊤ };

    fn open(self, path: &str) -> Result<SqlStore<FileStore<Fuse<Memory>>>, SqlOpenError> {
        let alloc = self.alloc;
        match SqlStore::adopt(alloc, self.connect(path)?) {
            Ok(store) => Ok(store),
            Err((error, _)) => Err(error),
        }
    }

    /// The log goes into the file, as of the store in a real one.
    fn put_away(store: SqlStore<FileStore<Fuse<Memory>>>) {
        let _ = store.into_connection().close();
    }
}

impl Carries<Connection<FileStore<Fuse<Memory>>>, SqlOpenError> for OnFuses<'_> {
    ghost use Rattle.std.specs.Prelude.{◌≡◌, false, ⊤};

    ghost connects = { λ _ _ _. ⊤ };

    ghost carries = { λ _ _ _. ⊤ };

    ghost ready = { λ c. c.in_transaction ≡ false };

    fn connect(self, path: &str) -> Result<Connection<FileStore<Fuse<Memory>>>, SqlOpenError> {
        self.asked.note(path);
        let files = Files {
            log: Fuse::new(Memory::new(self.alloc), self.log),
            db: Fuse::new(Memory::new(self.alloc), self.db),
        };
        let mut options = Options::new(7);
        options.cache_pages = CACHE_PAGES;
        match Connection::open_files(self.alloc, files, options) {
            Ok(conn) => Ok(conn),
            Err(_) => Err(SqlOpenError::Device),
        }
    }

    fn carry(
        alloc: Global,
        connection: Connection<FileStore<Fuse<Memory>>>,
        store: &kt_store::MemStore,
    ) -> Result<(), SqlOpenError> {
        carried(alloc, connection, store)
    }
}

impl Shows<SqlStore<FileStore<Fuse<Memory>>>, SqlOpenError> for OnFuses<'_> {
    ghost use Rattle.std.specs.Prelude.{⊤};

    ghost gives_copy = { λ _ _ _. ⊤ };

    fn open_copy(self, path: &str) -> Result<SqlStore<FileStore<Fuse<Memory>>>, SqlOpenError> {
        Opens::open(self, path)
    }
}

impl Texts<&'static [u8], SqlOpenError> for OnFuses<'_> {
    ghost use Rattle.std.specs.Prelude.{⊤};

    ghost gives_text = { λ _ _ _. ⊤ };

    fn open_text(&self, path: &str) -> Result<&'static [u8], SqlOpenError> {
        text_at(path)
    }
}

/// What a request left.
#[derive(Debug, Drop)]
pub(crate) struct Ended {
    pub(crate) has_read: bool,
    pub(crate) output: Vec<u8>,
    pub(crate) errors: Vec<u8>,
    pub(crate) status: u8,
}

impl Ended {
    pub(crate) fn is(&self, output: &str, errors: &str, status: u8) -> bool {
        self.output.as_slice() == output.as_bytes()
            && self.errors.as_slice() == errors.as_bytes()
            && self.status == status
    }
}

/// Nobody sits at a terminal.
pub(crate) const NOBODY: Terminals = Terminals {
    is_typed: false,
    is_watched: false,
};

pub(crate) fn end_of<
    D: Alter + Drop + Send,
    O: Opens<SqlStore<D>, SqlOpenError>
        + Carries<Connection<D>, SqlOpenError>
        + Shows<SqlStore<D>, SqlOpenError>
        + Texts<&'static [u8], SqlOpenError>,
    T: Threads + Wait + Sync,
>(
    alloc: Global,
    threads: &T,
    opener: O,
    request: Request<'_>,
    input: &str,
) -> Ended {
    end_before(alloc, threads, opener, request, NOBODY, input)
}

/// The same before somebody.
pub(crate) fn end_before<
    D: Alter + Drop + Send,
    O: Opens<SqlStore<D>, SqlOpenError>
        + Carries<Connection<D>, SqlOpenError>
        + Shows<SqlStore<D>, SqlOpenError>
        + Texts<&'static [u8], SqlOpenError>,
    T: Threads + Wait + Sync,
>(
    alloc: Global,
    threads: &T,
    opener: O,
    request: Request<'_>,
    terminals: Terminals,
    input: &str,
) -> Ended {
    let (mut reader, mut writer) = (Source::new(input.as_bytes()), Sink::new(Vec::new(alloc)));
    let mut errors = Vec::new(alloc);
    let status = run_request(
        opener,
        threads,
        alloc,
        request,
        terminals,
        &mut reader,
        &mut writer,
        &mut errors,
    );
    Ended {
        has_read: reader.calls() > 0,
        output: writer.into_inner(),
        errors,
        status,
    }
}

