//! The program over an opener that notes what it is asked.
//! Cited by whoever calls the trait `Carries` or `Opens` or `Shows` or `Texts`.
use crate::program::run_program;
use crate::tests::{NOBODY, PUT_AND_TAKE, PUT_AND_TAKE_REPORT};
use kt_command::{Carries, Opens, Shows, Texts};
use kt_scene::{Sink, Source};
use kt_sql::{SqlOpenError, SqlStore};
use sqlite::{Connection, MemStore};
use std::alloc::Global;
use std::cell::Cell;
use std::test::Fail;

/// Opens a fresh store in SQL for one path, and counts how often it is asked.
#[derive(Drop)]
struct Noting<'a> {
    rt: &'a HostRuntime,
    path: &'a str,
    asked: &'a Cell<u32>,
}

impl Opens<SqlStore<MemStore>, SqlOpenError> for Noting<'_> {
    ghost use Rattle.std.specs.Prelude.{⊤};

    ghost gives = { λ _ _ _. ⊤ };

    fn open(self, path: &str) -> Result<SqlStore<MemStore>, SqlOpenError> {
        self.asked.set(self.asked.get().saturating_add(1));
        if path != self.path {
            return Err(SqlOpenError::Damaged);
        }
        SqlStore::in_memory(self.rt.alloc())
    }

    fn put_away(store: SqlStore<MemStore>) {
        drop(store);
    }
}

/// The one scenario that it knows.
impl<'a> Texts<&'a [u8], &'static str> for Noting<'a> {
    ghost use Rattle.std.specs.Prelude.{⊤};

    ghost gives_text = { λ _ _ _. ⊤ };

    fn open_text(&self, path: &str) -> Result<&'a [u8], &'static str> {
        if path == "a.scn" {
            Ok(PUT_AND_TAKE.as_bytes())
        } else {
            Err("no such file")
        }
    }
}

/// A copy of the store at that path is a fresh one too.
impl Shows<SqlStore<MemStore>, SqlOpenError> for Noting<'_> {
    ghost use Rattle.std.specs.Prelude.{⊤};

    ghost gives_copy = { λ _ _ _. ⊤ };

    fn open_copy(self, path: &str) -> Result<SqlStore<MemStore>, SqlOpenError> {
        self.open(path)
    }
}

/// It connects to a fresh database for the same path.
impl Carries<Connection<MemStore>, SqlOpenError> for Noting<'_> {
    ghost use Rattle.std.specs.Prelude.{◌≡◌, false, ⊤};

    ghost connects = { λ _ _ _. ⊤ };

    ghost carries = { λ _ _ _. ⊤ };

    ghost ready = { λ c. c.in_transaction ≡ false };

    fn connect(self, path: &str) -> Result<Connection<MemStore>, SqlOpenError> {
        self.asked.set(self.asked.get().saturating_add(1));
        if path != self.path {
            return Err(SqlOpenError::Damaged);
        }
        Ok(Connection::open_in_memory(self.rt.alloc())?)
    }

    fn carry(
        alloc: Global,
        connection: Connection<MemStore>,
        store: &kt_store::MemStore,
    ) -> Result<(), SqlOpenError>
        requires { connection.in_transaction ≡ false }
        ensures { ⊤ }
    {
        match SqlStore::migrate(alloc, connection, store) {
            Ok(_) => Ok(()),
            Err((error, _)) => Err(error),
        }
    }
}

/// What the name means.
const NOT_FRESH: &str =
    "store NotFresh: the file holds something of an earlier command: take a new file, or go on \
with `resume`\n";

/// Words, how often the opener of `a.db` is asked, the output, the line on the errors, and the status.
const ROWS: [(&[&str], u32, &str, &str, u8); 15] = [
    (&["replay"], 0, PUT_AND_TAKE_REPORT, "", 0),
    (
        &["replay", "--store", "a.db"],
        1,
        PUT_AND_TAKE_REPORT,
        "",
        0,
    ),
    (&["replay", "--store=a.db"], 1, PUT_AND_TAKE_REPORT, "", 0),
    (&["replay", "--store", "b.db"], 1, "", "store: Damaged\n", 5),
    (&["run", "--store", "a.db"], 1, "", "line 6: 2 Word\n", 3),
    (
        &["migrate", "--store", "a.db"],
        1,
        "",
        "store: Mismatch\n",
        5,
    ),
    (&["migrate", "--store=a.db"], 1, "", "store: Mismatch\n", 5),
    (
        &["migrate", "--store", "b.db"],
        1,
        "",
        "store: Damaged\n",
        5,
    ),
    (&["replay", "--store=b.db"], 1, "", "store: Damaged\n", 5),
    (&["replay", "a.scn"], 0, PUT_AND_TAKE_REPORT, "", 0),
    (&["replay", "-"], 0, PUT_AND_TAKE_REPORT, "", 0),
    (
        &["replay", "--store", "a.db", "a.scn"],
        1,
        PUT_AND_TAKE_REPORT,
        "",
        0,
    ),
    (
        &["check", "b.scn"],
        0,
        "",
        "scenario: b.scn: no such file\n",
        7,
    ),
    (&["check", "a.scn"], 0, "steps 7\n", "", 0),
    (&["explain", "NotFresh"], 0, NOT_FRESH, "", 0),
];

/// The opener is asked once, for the path that is named, and not at all where none is.
#[test]
fn asks_the_opener_once(rt: HostRuntime) -> Result<(), Fail> {
    let alloc = rt.alloc();
    for (words, times, output, line, expected) in &ROWS {
        let asked = Cell::new(0u32);
        let opener = Noting {
            rt: &rt,
            path: "a.db",
            asked: &asked,
        };
        let mut reader = Source::new(PUT_AND_TAKE.as_bytes());
        let mut writer = Sink::new(Vec::new(alloc));
        let mut errors = Vec::new(alloc);
        let status = run_program(
            opener,
            &rt,
            alloc,
            words,
            &mut reader,
            &mut writer,
            &mut errors,
            NOBODY,
        );
        assert_eq!(rt; asked.get(), *times, "{words:?}");
        assert!(rt;
            writer.into_inner().as_slice() == output.as_bytes(),
            "{words:?}"
        );
        assert!(rt;
            errors.as_slice() == line.as_bytes() && status == *expected,
            "{words:?}"
        );
    }
    Ok(())
}
