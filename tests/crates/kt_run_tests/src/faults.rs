//! How runs end early, and the lines that tell of it.

use crate::runs::run;
use kt_core::{OpenError, StepError};
use kt_run::{Output, RunTextFault, run_text};
use kt_scene::{ReplayFault, SceneError, Sink, Source};
use kt_stage::{CloseError, OpenGate, RunFault};
use kt_store::{MemStore, StoreError};
use kt_tuple::NodeId;
use std::io;
use std::io::{ErrorKind, Read, Write};
use std::test::Fail;

/// Texts, and the line and the fault of each.
const TEXTS: [(&[u8], usize, SceneError); 6] = [
    (b"", 1, SceneError::End),
    (
        b"linda-kt 1\nshards 1\nworker\nsteps\nend\n",
        4,
        SceneError::Word,
    ),
    (
        b"linda-kt 1\nshards 1\nworker\nfaults\nissue w1\nend\n",
        5,
        SceneError::Word,
    ),
    (
        b"linda-kt 1\nshards 1\nworker\nfaults\nfail s2 after 0\nend\n",
        5,
        SceneError::Node,
    ),
    (
        b"linda-kt 1\nshards 1\nworker\nfaults\nfail s2 after 100001\nend\n",
        5,
        SceneError::Limit,
    ),
    (
        b"linda-kt 1\nshards 1\nworker\nfaults\nend",
        5,
        SceneError::End,
    ),
];

#[test]
fn texts(rt: HostRuntime) {
    for (text, line, cause) in &TEXTS {
        for output in [Output::Report, Output::Journal] {
            let (answer, left) = run(&rt, rt.alloc(), text, output);
            let fault = ReplayFault::Scene {
                line: *line,
                cause: *cause,
            };
            assert_eq!(rt; answer, Err(RunTextFault::Text(fault)), "{text:?}");
            assert!(rt; left.is_empty());
        }
    }
}

/// Takes so many bytes and then fails.
#[derive(Drop)]
struct Short {
    bytes: Vec<u8>,
    room: usize,
}

impl Write for Short {
    fn write(&mut self, buf: &[u8]) -> io::Result<usize> {
        let count = self.room.min(buf.len());
        if count == 0 {
            return Err(io::Error::from(ErrorKind::Other));
        }
        self.room -= count;
        self.bytes.extend_from_slice(&buf[..count])?;
        Ok(count)
    }

    fn flush(&mut self) -> io::Result<()> {
        Ok(())
    }
}

/// A writer that fails has a front of what was to be there.
#[test]
fn a_front(rt: HostRuntime) -> Result<(), Fail> {
    let text = b"linda-kt 1\nshards 1\nworker\nfaults\nend\n".as_slice();
    for (output, front) in [
        (Output::Report, b"survivors 0\nlost 0\nspa".as_slice()),
        (Output::Journal, b"# survivors 0\n# lost 0\n"),
    ] {
        let room = front.len();
        let bytes = Vec::new(rt.alloc());
        let (mut source, mut sink) = (Source::new(text), Sink::new(Short { bytes, room }));
        let store = MemStore::new(rt.alloc());
        let answer = run_text(&rt, rt.alloc(), &mut source, &mut sink, store, output, &OpenGate);
        assert_eq!(rt; answer, Err(RunTextFault::Text(ReplayFault::Write)));
        assert_eq!(rt; sink.into_inner().bytes.as_slice(), front);
    }
    Ok(())
}

/// A reader that fails.
#[derive(Drop)]
struct Broken;

impl Read for Broken {
    fn read(&mut self, _buf: &mut [u8]) -> io::Result<usize> {
        Err(io::Error::from(ErrorKind::Other))
    }
}

#[test]
fn a_reader_that_fails(rt: HostRuntime) {
    let (mut source, mut sink) = (Source::new(Broken), Sink::new(Vec::new(rt.alloc())));
    let store = MemStore::new(rt.alloc());
    let answer = run_text(
        &rt,
        rt.alloc(),
        &mut source,
        &mut sink,
        store,
        Output::Report,
        &OpenGate,
    );
    assert_eq!(rt; answer, Err(RunTextFault::Text(ReplayFault::Read)));
    assert!(rt; sink.into_inner().is_empty());
}

/// The lines that tell of faults.
#[test]
fn lines(rt: HostRuntime) -> Result<(), Fail> {
    let node = NodeId::Worker(1);
    for (fault, line) in [
        (
            RunTextFault::Text(ReplayFault::Scene {
                line: 5,
                cause: SceneError::Node,
            }),
            "line 5: 6 Node",
        ),
        (RunTextFault::Text(ReplayFault::Read), "read"),
        (RunTextFault::Run(RunFault::Memory), "memory"),
        (
            RunTextFault::Run(RunFault::Open(OpenError::NotFresh)),
            "store: NotFresh",
        ),
        (
            RunTextFault::Run(RunFault::Step {
                at: 100_001,
                cause: StepError::StepLimit,
            }),
            "step 100001: 7 StepLimit",
        ),
        (
            RunTextFault::Run(RunFault::Step {
                at: 3,
                cause: StepError::Store(StoreError::Device),
            }),
            "store: Device",
        ),
        (
            RunTextFault::Run(RunFault::Close(CloseError::Unmatched { node })),
            "close: Unmatched",
        ),
        (
            RunTextFault::Run(RunFault::Close(CloseError::SeatMissing { node })),
            "close: SeatMissing",
        ),
        (
            RunTextFault::Run(RunFault::Unfinished { node }),
            "close: Unfinished",
        ),
    ] {
        assert_eq!(rt; format!(in rt.alloc(); "{fault}")?.as_str(), line);
    }
    Ok(())
}
