//! A first use of each crate that a caller begins with, and programs of more than one: a module each, which stands in
//! docs/USING.md with what it gives.
#![tactic(auto)]

#[cfg(test)]
mod ckpt;
#[cfg(test)]
mod draw;
#[cfg(test)]
mod file;
#[cfg(test)]
mod gate;
#[cfg(test)]
mod history;
#[cfg(test)]
mod scene;
#[cfg(test)]
mod script;
#[cfg(test)]
mod seats;
#[cfg(test)]
mod space;
#[cfg(test)]
mod sql;
#[cfg(test)]
mod store;
#[cfg(test)]
mod trace;
#[cfg(test)]
mod tuple;
#[cfg(test)]
mod world;

use std::fs;
use std::test::Fail;

/// The checkpoint of the first worker of a scene with one shard, before it has done anything.
const FRESH_WORKER: &[u8] = b"KTCP\x02\x01\x01\0\0\0\0\0\0\0\0\x01\0\0\0\0\0\0\0\0\0\0\0\0\0\0\0\0\
    \0\0\0\0\0\0\0\0\0\0\0\0\0\0\0\0\0\0\0\0\0\0\0\0\0\0\0\0\0";

/// A scenario of three steps, by which a tuple is put.
const ONE_PUT: &[u8] = b"linda-kt 1\nshards 1\nworker\nout (7)\nsteps\n\
    issue w1\ndeliver w1 s1\nserve s1 w1 0\nend\n";

/// The report of it.
const REPORT: &[u8] = b"survivors 1\nw1.1 out (7) done\nlost 0\nspace 1\n(7)\npermanent 0\n";

/// The trace of it.
const TRACE: &str = "1 w1 asks s1: out (7)
2 s1 hears w1: out (7)
3 s1 serves w1: out (7) done
";

/// How a picture of it begins, and how it ends.
const PICTURE: (&[u8], &[u8]) = (b"<svg xmlns=\"http://www.w3.org/2000/svg\"", b"</svg>\n");

/// A worker that puts a tuple and takes it.
const PUT_AND_TAKE: &[u8] = b"linda-kt 1\nshards 1\nworker\nout (7)\nin (?int)\nfaults\nend\n";

/// The report of it.
const TAKEN: &str = "survivors 2
w1.1 out (7) done
w1.2 in (?int) got (7)
lost 0
space 0
permanent 0
";

/// The report of a world over a file, as it is stopped and in the end.
const STOPPED: &str = "survivors 2
w1.1 out (1) done
w1.2 out (2) done
lost 0
space 2
(1)
(2)
permanent 1
(1)
";

/// The report of the world that goes on from the file, before it does.
const RESUMED: &str = "survivors 1
w1.1 out (1) done
lost 0
space 1
(1)
permanent 1
(1)
";

/// The files of these tests, and the logs that SQLite keeps beside them.
const FILES: [&str; 4] = ["lives.db", "lives.db-wal", "goes_on.db", "goes_on.db-wal"];

/// Values, tuples, bags and scripts.
#[test]
fn first_uses_of_data(rt: HostRuntime) -> Result<(), Fail> {
    let alloc = rt.alloc();
    assert!(rt; tuple::does_match(alloc)?);
    let mut text = Vec::new(alloc);
    space::first_task(alloc)?
        .ok_or("a task")?
        .write_to(&mut text)?;
    assert_eq!(rt; text.as_slice(), b"(\"task\", 8)".as_slice());
    let mut text = Vec::new(alloc);
    script::first_request(alloc)?.write_to(&mut text)?;
    assert_eq!(rt; text.as_slice(), b"in (?int)".as_slice());
    Ok(())
}

/// Histories, checkpoints, stores and worlds.
#[test]
fn first_uses_of_states(rt: HostRuntime) -> Result<(), Fail> {
    let alloc = rt.alloc();
    assert_eq!(rt; history::lost_by_a_failure(alloc)?, 1);
    let bytes = ckpt::second_spelling(alloc, FRESH_WORKER)?;
    assert_eq!(rt; bytes.as_slice(), FRESH_WORKER);
    assert_eq!(rt; store::second_life(alloc)?, 2);
    assert_eq!(rt; world::first_service(alloc)?, 1);
    Ok(())
}

/// What is written of a scenario: its report, its trace and its picture.
#[test]
fn first_uses_of_texts(rt: HostRuntime) -> Result<(), Fail> {
    let alloc = rt.alloc();
    assert_eq!(rt; scene::report(alloc, ONE_PUT)?.as_slice(), REPORT);
    assert_eq!(rt; trace::trace(alloc, ONE_PUT)?.as_slice(), TRACE.as_bytes());
    let (picture, (begins, ends)) = (draw::picture(alloc, ONE_PUT)?, PICTURE);
    assert!(rt; picture.starts_with(begins) && picture.ends_with(ends));
    Ok(())
}

/// Threads of one's own, and those of a run.
#[test]
fn first_uses_of_threads(rt: HostRuntime) -> Result<(), Fail> {
    let alloc = rt.alloc();
    let (steps, report) = seats::played(&rt, alloc, PUT_AND_TAKE)?;
    assert_eq!(rt; steps, 8);
    assert_eq!(rt; report.as_slice(), TAKEN.as_bytes());
    assert_eq!(rt; gate::confirmed_in_run(&rt, alloc, PUT_AND_TAKE)?, 2);
    Ok(())
}

/// Stores in files, and a world that goes on. Each file is made anew.
#[test]
fn first_uses_of_files(rt: HostRuntime) -> Result<(), Fail> {
    for file in FILES {
        fs::remove_file(&rt, file).ok();
    }
    let [lives, _, goes_on, _] = FILES;
    assert_eq!(rt; sql::next_life(&rt, lives)?, 2);
    assert_eq!(rt; sql::next_life(&rt, lives)?, 3);
    let stopped = file::begin(&rt, goes_on)?;
    assert_eq!(rt; stopped.as_slice(), STOPPED.as_bytes());
    let (resumed, ended) = file::go_on(&rt, goes_on)?;
    assert_eq!(rt; resumed.as_slice(), RESUMED.as_bytes());
    assert_eq!(rt; ended.as_slice(), STOPPED.as_bytes());
    Ok(())
}
