//! The program from its words to its output, its line on the errors and its status.
use crate::copies::ShowError;
use crate::files::{Files, OldFile, StoreInFile};
use crate::holding::Holding;
use crate::program::run_program;
use kt_command::{Terminals, end_replay};
use kt_scene::{OpenError, ReplayFault, Sink, Source, StepError};
use kt_store::StoreError;
use sqlite::{File, FileStore};
use std::io::{ErrorKind, Read, Write};
use std::process::Abort;
use std::sync::Wait;
use std::test::Fail;
use std::thread::Threads;
use std::{fs, io};

pub const PUT_AND_TAKE: &str =
    "linda-kt 1\nshards 1\nworker\nout (\"a\", 1)\nin (\"a\", ?int x)\nsteps\n\
issue w1\ndeliver w1 s1\nserve s1 w1 0\ndeliver s1 w1\n\
issue w1\ndeliver w1 s1\nserve s1 w1 0\nend\n";

pub const PUT_AND_TAKE_REPORT: &str = "survivors 2\nw1.1 out (\"a\", 1) done\n\
w1.2 in (\"a\", ?int) got (\"a\", 1)\nlost 0\nspace 0\npermanent 0\n";

const NO_STEPS: &str = "linda-kt 1\nshards 1\nworker\nout (\"a\", 1)\nsteps\nend\n";

const TWO_TAKERS: &str = "linda-kt 1\nshards 1\nworker\nin (\"t\")\nworker\nin (\"t\")\nworker\n\
out (\"t\")\nsteps\nissue w1\ndeliver w1 s1\nissue w2\ndeliver w2 s1\nissue w3\ndeliver w3 s1\n\
serve s1 w3 0\nserve s1 w2 0\n";

const TWO_TAKERS_REPORT: &str = "survivors 2\nw3.1 out (\"t\") done\n\
w2.1 in (\"t\") got (\"t\")\nlost 0\nspace 0\npermanent 0\n";

const CUT_SHORT: &str = "linda-kt 1\nshards 1\nworker\nout (\"a\", 1)\nsteps\nissue w1\nissue w";

const UNLESS_SKIPS: &str = "linda-kt 1\nshards 1\nworker\ninp (\"a\")\nunless 2\n\
out (\"b\")\nout (\"c\")\nout (\"d\")\nworker\nout (\"a\")\nout (\"a\")\nout (\"a\")\n\
rdp (\"a\")\nsteps\n\
issue w1\ndeliver w1 s1\nserve s1 w1 0\ndeliver s1 w1\n\
issue w1\ndeliver w1 s1\nserve s1 w1 0\n\
issue w2\ndeliver w2 s1\nserve s1 w2 0\ndeliver s1 w2\n\
issue w2\ndeliver w2 s1\nserve s1 w2 0\ndeliver s1 w2\n\
issue w2\ndeliver w2 s1\nserve s1 w2 0\ndeliver s1 w2\n\
issue w2\ndeliver w2 s1\nserve s1 w2 2\nend\n";

const UNLESS_SKIPS_REPORT: &str = "survivors 6\nw1.1 inp (\"a\") none\nw1.2 out (\"d\") done\n\
w2.1 out (\"a\") done\nw2.2 out (\"a\") done\nw2.3 out (\"a\") done\n\
w2.4 rdp (\"a\") got (\"a\")\nlost 0\nspace 4\n(\"a\")\n(\"a\")\n(\"a\")\n(\"d\")\npermanent 0\n";

/// Behind the script's first lines.
const SATURATING_SET: &str = "out (9223372036854775807)\nin (?int x)\nset y = x + 1\nout (y)\n\
steps\nissue w1\ndeliver w1 s1\nserve s1 w1 0\ndeliver s1 w1\n\
issue w1\ndeliver w1 s1\nserve s1 w1 0\ndeliver s1 w1\n\
issue w1\ndeliver w1 s1\nserve s1 w1 0\nend\n";

const SATURATING_SET_REPORT: &str = "survivors 3\nw1.1 out (9223372036854775807) done\n\
w1.2 in (?int) got (9223372036854775807)\nw1.3 out (9223372036854775807) done\nlost 0\nspace 1\n\
(9223372036854775807)\npermanent 0\n";

/// No stream is a terminal.
pub const NOBODY: Terminals = Terminals {
    is_typed: false,
    is_watched: false,
};

/// What a run left.
#[derive(Debug, Drop, PartialEq)]
pub struct Ended {
    pub output: String,
    pub errors: String,
    pub status: u8,
}

fn text_of(bytes: Vec<u8>) -> Result<String, Fail> {
    String::from_utf8(bytes).map_err(|_| Fail::from("no text"))
}

/// The status of the program over the files of this runtime.
fn run_with<T: Threads + Wait + Sync, R: Read, W: Write, E: Write>(
    rt: &HostRuntime,
    threads: &T,
    words: &[&str],
    reader: &mut Source<R>,
    writer: &mut Sink<W>,
    errors: &mut E,
) -> u8 {
    let opener = Holding::<Files<'_>, StoreInFile>::new(Files::new(rt));
    run_program::<FileStore<File>, OldFile, ShowError, fs::File, io::Error, _, T, R, W, E>(
        opener,
        threads,
        rt.alloc(),
        words,
        reader,
        writer,
        errors,
        NOBODY,
    )
}

pub fn run<T: Threads + Wait + Sync>(
    rt: &HostRuntime,
    threads: &T,
    words: &[&str],
    input: &str,
) -> Result<Ended, Fail> {
    let alloc = rt.alloc();
    let (mut reader, mut writer) = (Source::new(input.as_bytes()), Sink::new(Vec::new(alloc)));
    let mut errors = Vec::new(alloc);
    let status = run_with(rt, threads, words, &mut reader, &mut writer, &mut errors);
    Ok(Ended {
        output: text_of(writer.into_inner())?,
        errors: text_of(errors)?,
        status,
    })
}

/// An input's parts, the output, the line on the errors, and the status.
type Row = (&'static [&'static str], &'static str, &'static str, u8);

const HEAD: &str = "linda-kt 1\nshards 1\nworker\n";

/// A check with all votes and its verdict, before which the shard fails that it is told.
const FAILS_AFTER_YES: &str = "out (\"a\", 1)\nsteps\n\
issue w1\ndeliver w1 s1\nserve s1 w1 0\ndeliver s1 w1\ncheck w1\ndeliver w1 s1\ndeliver s1 w1\n\
deliver w1 s1\ndeliver s1 w1\ndecide w1\nfail s1\n";

const FAILS_AFTER_YES_REPORT: &str = "survivors 1\nw1.1 out (\"a\", 1) done\nlost 0\nspace 1\n\
(\"a\", 1)\npermanent 1\n(\"a\", 1)\n";

const ROWS: [Row; 19] = [
    (&[PUT_AND_TAKE], PUT_AND_TAKE_REPORT, "", 0),
    (
        &[NO_STEPS],
        "survivors 0\nlost 0\nspace 0\npermanent 0\n",
        "",
        0,
    ),
    (&[TWO_TAKERS, "end\n"], TWO_TAKERS_REPORT, "", 0),
    (
        &[TWO_TAKERS, "serve s1 w1 0\nend\n"],
        "",
        "step 9: 4 NoSuchMatch\n",
        4,
    ),
    (&[UNLESS_SKIPS], UNLESS_SKIPS_REPORT, "", 0),
    (&[HEAD, SATURATING_SET], SATURATING_SET_REPORT, "", 0),
    (
        &[HEAD, "steps\nissue w2\nend\n"],
        "",
        "step 1: 1 NoNode\n",
        4,
    ),
    (
        &[HEAD, "steps\nissue w1\nend\n"],
        "",
        "step 1: 3 NothingThere\n",
        4,
    ),
    (
        &[HEAD, "steps\nfail w1\ncheck w1\nend\n"],
        "",
        "step 2: 2 WrongMode\n",
        4,
    ),
    (
        &[HEAD, "steps\ncheck w1\nlearn w1\nend\n"],
        "",
        "step 2: 5 NotDecided\n",
        4,
    ),
    (
        &[HEAD, FAILS_AFTER_YES, "restart s1\nend\n"],
        "",
        "step 12: 6 Unresolved\n",
        4,
    ),
    (
        &[HEAD, FAILS_AFTER_YES, "learn s1\nrestart s1\nend\n"],
        FAILS_AFTER_YES_REPORT,
        "",
        0,
    ),
    (&["linda-kt 2\n"], "", "line 1: 1 Header\n", 3),
    (&[HEAD, "output (1)\n"], "", "line 4: 2 Word\n", 3),
    (&[HEAD, "out (01)\n"], "", "line 4: 3 Tuple\n", 3),
    (
        &[HEAD, "set x = x + 1\n", SATURATING_SET],
        "",
        "line 4: 4 Variable\n",
        3,
    ),
    (&["linda-kt 1\nshards 9\n"], "", "line 2: 5 Limit\n", 3),
    (&[CUT_SHORT], "", "line 7: 7 End\n", 3),
    (&[""], "", "line 1: 7 End\n", 3),
];

fn assert_rows<T: Threads + Wait + Sync>(
    abort: &impl Abort,
    rt: &HostRuntime,
    threads: &T,
    rows: &[Row],
) -> Result<(), Fail> {
    for (parts, output, errors, status) in rows {
        let mut input = String::new(rt.alloc());
        for part in *parts {
            input.push_str(part)?;
        }
        let ended = run(rt, threads, &["replay"], input.as_str())?;
        assert_eq!(abort; ended.output.as_str(), *output, "{input}");
        assert_eq!(abort; ended.errors.as_str(), *errors, "{input}");
        assert_eq!(abort; ended.status, *status, "{input}");
    }
    Ok(())
}

#[test]
fn worked_scenarios(rt: HostRuntime) -> Result<(), Fail> {
    assert_rows(&rt, &rt, &rt, &ROWS)
}

/// Faults of a replay that a store in memory does not bring about, the line on the errors, and the status.
const STORE_FAULTS: [(ReplayFault, &str, u8); 7] = [
    (
        ReplayFault::Open(OpenError::NotFresh),
        "store: NotFresh\n",
        5,
    ),
    (
        ReplayFault::Open(OpenError::Store(StoreError::Device)),
        "store: Device\n",
        5,
    ),
    (ReplayFault::Open(OpenError::OutOfMemory), "memory\n", 6),
    (
        ReplayFault::Step {
            at: 3,
            cause: StepError::Store(StoreError::Damaged),
        },
        "store: Damaged\n",
        5,
    ),
    (
        ReplayFault::Step {
            at: 100_001,
            cause: StepError::StepLimit,
        },
        "step 100001: 7 StepLimit\n",
        8,
    ),
    (
        ReplayFault::Report(StoreError::Memory),
        "store: Memory\n",
        5,
    ),
    (ReplayFault::Report(StoreError::Full), "store: Full\n", 5),
];

#[test]
fn faults_of_a_store(rt: HostRuntime) -> Result<(), Fail> {
    let alloc = rt.alloc();
    for (fault, line, expected) in &STORE_FAULTS {
        let mut errors = Vec::new(alloc);
        let status = end_replay(Err(*fault), &mut errors);
        assert_eq!(rt; text_of(errors)?.as_str(), *line);
        assert_eq!(rt; status, *expected, "{line}");
    }
    Ok(())
}

#[test]
fn words(rt: HostRuntime) -> Result<(), Fail> {
    let help = run(&rt, &rt, &["--help"], "")?;
    assert!(rt;
        help.output
            .as_str()
            .starts_with("A Linda tuple space that survives failures\n")
    );
    assert!(rt; help.errors.is_empty() && help.status == 0);
    for word in ["--version", "-V"] {
        let version = run(&rt, &rt, &[word], "")?;
        assert_eq!(rt; version.output.as_str(), "linda_kt 0.1.0\n");
        assert!(rt; version.errors.is_empty() && version.status == 0);
    }
    let none = run(&rt, &rt, &[], NO_STEPS)?;
    assert!(rt;
        none.errors
            .as_str()
            .starts_with("error: 'linda_kt' requires a subcommand")
    );
    assert!(rt; none.output.is_empty() && none.status == 2);
    for word in ["walk", "--store", ""] {
        let ended = run(&rt, &rt, &[word], NO_STEPS)?;
        assert!(rt; ended.errors.as_str().starts_with("error: un"), "{word}");
        assert!(rt; ended.output.is_empty() && ended.status == 2, "{word}");
    }
    let more = run(&rt, &rt, &["replay", "one", "more"], NO_STEPS)?;
    assert!(rt; more.output.is_empty() && more.status == 2);
    let named = run(&rt, &rt, &["help", "replay"], NO_STEPS)?;
    let behind = run(&rt, &rt, &["replay", "--help"], NO_STEPS)?;
    assert!(rt; named.output.as_str() == behind.output.as_str() && named.status == 0);
    Ok(())
}

/// A reader that fails once its bytes are read.
#[derive(Drop)]
struct Broken<'a>(&'a [u8]);

impl Read for Broken<'_> {
    fn read(&mut self, buf: &mut [u8]) -> io::Result<usize> {
        if self.0.is_empty() {
            return Err(io::Error::from(ErrorKind::IsADirectory));
        }
        self.0.read(buf)
    }
}

/// A writer with room for so many bytes, each in a write of its own. It passes nothing on.
#[derive(Drop)]
struct Narrow {
    room: usize,
    held: Vec<u8>,
}

impl Write for Narrow {
    fn write(&mut self, buf: &[u8]) -> io::Result<usize> {
        match buf.first() {
            Some(byte) if self.room > 0 => {
                self.room -= 1;
                self.held.push(*byte)?;
                Ok(1)
            }
            _ => Err(io::Error::from(ErrorKind::StorageFull)),
        }
    }

    fn flush(&mut self) -> io::Result<()> {
        Err(io::Error::from(ErrorKind::StorageFull))
    }
}

/// A word, room for a front of what is printed, and the whole of it. The second has room for all, which is not
/// passed on.
const NARROW: [(&str, usize, &str); 3] = [
    ("replay", 20, PUT_AND_TAKE_REPORT),
    ("replay", 95, PUT_AND_TAKE_REPORT),
    ("--version", 4, "linda_kt 0.1.0\n"),
];

#[test]
fn streams_that_fail(rt: HostRuntime) -> Result<(), Fail> {
    let alloc = rt.alloc();
    let mut errors = Vec::new(alloc);
    let mut reader = Source::new(Broken(&NO_STEPS.as_bytes()[..20]));
    let mut writer = Sink::new(Vec::new(alloc));
    let status = run_with(&rt, &rt, &["replay"], &mut reader, &mut writer, &mut errors);
    assert!(rt; errors.as_slice() == b"read\n".as_slice() && status == 7);
    assert!(rt; writer.into_inner().is_empty());
    for (word, room, text) in &NARROW {
        let mut errors = Vec::new(alloc);
        let mut reader = Source::new(PUT_AND_TAKE.as_bytes());
        let mut writer = Sink::new(Narrow {
            room: *room,
            held: Vec::new(alloc),
        });
        let status = run_with(&rt, &rt, &[*word], &mut reader, &mut writer, &mut errors);
        assert!(rt; errors.as_slice() == b"write\n".as_slice() && status == 7);
        let front = text.as_bytes().get(..*room).ok_or("a front")?;
        assert_eq!(rt; writer.into_inner().held.as_slice(), front);
    }
    Ok(())
}
