//! Readers and writers that give and take a little at a time, are interrupted, and fail. They have no contract: tests
//! stand on them.
#![tactic(auto)]

use std::alloc::Global;
use std::io;
use std::io::{ErrorKind, Read, Write};

/// Gives the bytes some at a time, and may be interrupted or fail. It counts its calls itself.
#[derive(Drop)]
pub struct Feed<'a> {
    pub bytes: &'a [u8],
    /// How many bytes a call gives at most.
    pub at_once: usize,
    /// How many of the next calls are interrupted.
    pub interrupted: u32,
    /// How many calls go well before one fails.
    pub good: usize,
    pub calls: u32,
}

impl Read for Feed<'_> {
    fn read(&mut self, buf: &mut [u8]) -> io::Result<usize> {
        self.calls = self.calls.saturating_add(1);
        if self.good == 0 {
            return Err(io::Error::from(ErrorKind::Other));
        }
        self.good -= 1;
        if self.interrupted > 0 {
            self.interrupted -= 1;
            return Err(io::Error::from(ErrorKind::Interrupted));
        }
        let count = self.at_once.min(buf.len()).min(self.bytes.len());
        let (front, rest) = self.bytes.split_at(count);
        buf[..count].copy_from_slice(front);
        self.bytes = rest;
        Ok(count)
    }
}

/// Takes the bytes some at a time, and may be interrupted or fail. What it took is passed on by `flush` alone.
#[derive(Drop)]
pub struct Drain {
    pub bytes: Vec<u8>,
    pub at_once: usize,
    pub interrupted: u32,
    pub good: usize,
    /// How many bytes are passed on.
    pub passed_on: usize,
}

impl Drain {
    fn call(&mut self) -> io::Result<()> {
        if self.good == 0 {
            return Err(io::Error::from(ErrorKind::Other));
        }
        self.good -= 1;
        if self.interrupted > 0 {
            self.interrupted -= 1;
            return Err(io::Error::from(ErrorKind::Interrupted));
        }
        Ok(())
    }
}

impl Write for Drain {
    fn write(&mut self, buf: &[u8]) -> io::Result<usize> {
        self.call()?;
        let count = self.at_once.min(buf.len());
        self.bytes.extend_from_slice(&buf[..count])?;
        Ok(count)
    }

    fn flush(&mut self) -> io::Result<()> {
        if self.good == 0 {
            return Err(io::Error::from(ErrorKind::Other));
        }
        self.passed_on = self.bytes.len();
        Ok(())
    }
}

/// Fails at each call in this way, and counts the calls. It writes nothing.
#[derive(Drop)]
pub struct Never {
    pub kind: ErrorKind,
    pub calls: u32,
}

impl Never {
    fn call<T: Drop>(&mut self) -> io::Result<T> {
        self.calls = self.calls.saturating_add(1);
        Err(io::Error::from(self.kind))
    }
}

impl Read for Never {
    fn read(&mut self, _buf: &mut [u8]) -> io::Result<usize> {
        self.call()
    }
}

impl Write for Never {
    fn write(&mut self, _buf: &[u8]) -> io::Result<usize> {
        self.call()
    }

    fn flush(&mut self) -> io::Result<()> {
        self.call()
    }
}

/// A reader and a writer that fails at each call in this way.
pub fn fails_with(kind: ErrorKind) -> Never {
    Never { kind, calls: 0 }
}

/// All of the bytes at once.
pub fn whole(bytes: &[u8]) -> Feed<'_> {
    Feed {
        bytes,
        at_once: 1_000_000,
        interrupted: 0,
        good: usize::MAX,
        calls: 0,
    }
}

/// Takes all at once.
pub fn empty(alloc: Global) -> Drain {
    Drain {
        bytes: Vec::new(alloc),
        at_once: 1_000_000,
        interrupted: 0,
        good: usize::MAX,
        passed_on: 0,
    }
}
