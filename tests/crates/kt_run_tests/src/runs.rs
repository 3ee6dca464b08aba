//! Runs from bytes to bytes: what is written, and what a replay of the journal writes.

use kt_core::{OpenError, Start};
use kt_run::{Output, RunTextFault, run_text, run_text_returning_store};
use kt_scene::{Nobody, ReplayFault, Sink, Source, replay};
use kt_stage::{OpenGate, RunFault};
use kt_store::{CkptStore, MemStore};
use kt_tuple::NodeId;
use std::alloc::Global;
use std::process::Abort;
use std::sync::Wait;
use std::test::Fail;
use std::thread::Threads;

/// A scenario, what is reported however the threads run, and how often it is run each way.
pub(crate) type Row = (&'static [u8], &'static [u8], usize);

pub(crate) const ROWS: [Row; 4] = [
    // threads_and_a_fault
    (
        b"linda-kt 1\nshards 2\nworker\nout (\"k\")\nout (\"k\", 7)\nin (\"k\", ?int x)\nout (\"done\", x)\n\
rd (\"k\")\nfaults\nfail s1 after 3\nend\n",
        b"survivors 5\nw1.1 out (\"k\") done\nw1.2 out (\"k\", 7) done\nw1.3 in (\"k\", ?int) got (\"k\", 7)\n\
w1.4 out (\"done\", 7) done\nw1.5 rd (\"k\") got (\"k\")\nlost 4\nspace 2\n(\"done\", 7)\n(\"k\")\npermanent 0\n",
        200,
    ),
    // a script that ends, and one that waits for what nobody puts
    (
        b"linda-kt 1\nshards 1\nworker\nout (1)\nworker\nin (?str)\nfaults\nend\n",
        b"survivors 1\nw1.1 out (1) done\nlost 0\nspace 1\n(1)\npermanent 0\n",
        10,
    ),
    // nobody has anything to do
    (
        b"# none\nlinda-kt 1\nshards 8\nworker\nfaults\nend\n",
        b"survivors 0\nlost 0\nspace 0\npermanent 0\n",
        10,
    ),
    // a line that is never due
    (
        b"linda-kt 1\nshards 1\nworker\nout (1)\nfaults\nfail w1 after 100000\ncheck s1 after 99999\nend\n",
        b"survivors 1\nw1.1 out (1) done\nlost 0\nspace 1\n(1)\npermanent 0\n",
        10,
    ),
];

/// How a run of the bytes ends, and what it leaves written.
pub(crate) fn run<T: Threads + Wait + Sync>(
    rt: &T,
    alloc: Global,
    text: &[u8],
    output: Output,
) -> (Result<(), RunTextFault>, Vec<u8>) {
    let (mut source, mut sink) = (Source::new(text), Sink::new(Vec::new(alloc)));
    let answer = run_text(
        rt,
        alloc,
        &mut source,
        &mut sink,
        MemStore::new(alloc),
        output,
        &OpenGate,
    );
    (answer, sink.into_inner())
}

/// How a replay of the bytes ends, and what it leaves written.
pub(crate) fn replayed(alloc: Global, text: &[u8]) -> (Result<(), ReplayFault>, Vec<u8>) {
    let (mut source, mut sink) = (Source::new(text), Sink::new(Vec::new(alloc)));
    let answer = replay(alloc, &mut source, &mut sink, MemStore::new(alloc));
    (answer, sink.into_inner())
}

fn assert_run<T: Threads + Wait + Sync + Abort>(
    rt: &T,
    alloc: Global,
    text: &[u8],
    expected: &[u8],
) -> Result<(), Fail> {
    let (answer, report) = run(rt, alloc, text, Output::Report);
    assert!(rt; answer == Ok(()), "{answer:?}");
    assert_eq!(rt; report.as_slice(), expected);
    let (answer, journal) = run(rt, alloc, text, Output::Journal);
    assert!(rt; answer == Ok(()), "{answer:?}");
    assert!(rt; journal.starts_with(b"# survivors "), "{journal:?}");
    let (answer, report) = replayed(alloc, &journal);
    assert!(rt; answer == Ok(()), "{answer:?}");
    assert_eq!(rt; report.as_slice(), expected);
    Ok(())
}

#[test]
fn runs(rt: HostRuntime) -> Result<(), Fail> {
    for (text, expected, times) in &ROWS {
        for _ in 0..*times {
            assert_run(&rt, rt.alloc(), text, expected)?;
        }
    }
    Ok(())
}

/// The store is given back with what the run has left in it, and is not fresh for the next run, which gives it back
/// too.
#[test]
fn the_store_is_given_back(rt: HostRuntime) -> Result<(), Fail> {
    let alloc = rt.alloc();
    let text = b"linda-kt 1\nshards 1\nworker\nout (1)\nfaults\ncheck w1 after 0\nend\n".as_slice();
    let (mut source, mut sink) = (Source::new(text), Sink::new(Vec::new(alloc)));
    let store = MemStore::new(alloc);
    let (answer, left) = run_text_returning_store(
        &rt,
        alloc,
        Start::Open,
        &mut source,
        &mut sink,
        store,
        Output::Report,
        &OpenGate,
        &mut Nobody,
    );
    assert!(rt; answer == Ok(()), "{answer:?}");
    let mut left = left;
    assert!(rt; left.initiator(1) == Ok(Some(NodeId::Worker(1))));
    let (mut source, mut sink) = (Source::new(text), Sink::new(Vec::new(alloc)));
    let (answer, left) = run_text_returning_store(
        &rt,
        alloc,
        Start::Open,
        &mut source,
        &mut sink,
        left,
        Output::Report,
        &OpenGate,
        &mut Nobody,
    );
    let not_fresh = RunTextFault::Run(RunFault::Open(OpenError::NotFresh));
    assert!(rt; answer == Err(not_fresh), "{answer:?}");
    let mut left = left;
    assert!(rt; left.is_fresh() == Ok(false));
    Ok(())
}
