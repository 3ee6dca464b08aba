//! Which growths are refused. The library that `tests/refused` loads before the program stands between it and the
//! allocator of C, and hears the program by the sizes that it asks for: sizes that no machine has.

use std::alloc::{AllocError, Global};
use std::test::Fail;

/// From this size on the library is told which growth it is to refuse, by what is above it: 0 is none.
const REFUSE: usize = 1 << 60;

/// From this size on the library is asked whether so many growths were asked for since: it says so by an answer.
const COUNTED: usize = 1 << 61;

/// Above `REFUSE`: all growths from now on.
const ALL: usize = 1 << 40;

/// More growths than any call that is tried has.
pub(crate) const MOST: usize = 100_000;

/// Asks for a block of this size, and says whether it was given.
fn is_given(alloc: Global, size: usize) -> bool {
    let block: Result<Vec<u8>, AllocError> = Vec::with_capacity(alloc, size);
    block.is_ok()
}

fn tell(alloc: Global, what: usize) -> Result<(), Fail> {
    if is_given(alloc, REFUSE.saturating_add(what)) {
        Ok(())
    } else {
        Err(Fail::new("no library refuses growths: start this by tests/refused"))
    }
}

/// From now on the growth of this number is refused and no other, counted from 1.
pub(crate) fn refuse(alloc: Global, number: usize) -> Result<(), Fail> {
    tell(alloc, number)
}

/// From now on every growth is refused.
pub(crate) fn refuse_all(alloc: Global) -> Result<(), Fail> {
    tell(alloc, ALL)
}

/// From now on no growth is refused.
fn refuse_none(alloc: Global) -> Result<(), Fail> {
    tell(alloc, 0)
}

/// Whether at most so many growths were asked for since the library was told last.
fn were_at_most(alloc: Global, count: usize) -> bool {
    is_given(alloc, COUNTED.saturating_add(count))
}

/// Whether no growth was asked for since the library was told last. From now on none is refused.
pub(crate) fn asked_for_none(alloc: Global) -> Result<bool, Fail> {
    let none = were_at_most(alloc, 0);
    refuse_none(alloc)?;
    Ok(none)
}

/// Whether the call that was just made had fewer growths than the number of the one that was to be refused, so that
/// none was. From now on none is refused.
pub(crate) fn was_spared(alloc: Global, number: usize) -> Result<bool, Fail> {
    let is_spared = were_at_most(alloc, number.saturating_sub(1));
    refuse_none(alloc)?;
    Ok(is_spared)
}

/// The refusals of one call, each of another growth.
#[derive(Clone, Copy)]
pub(crate) struct Turns {
    of: &'static str,
    borne: usize,
}

impl Turns {
    /// None yet.
    pub(crate) fn new(of: &'static str) -> Turns {
        Turns { of, borne: 0 }
    }

    /// The call was made with the growth of this number refused, and did not mind.
    pub(crate) fn bear(&mut self) {
        self.borne = self.borne.saturating_add(1);
    }

    /// Ends the test where this is not so of the call, and says what is wrong.
    pub(crate) fn hold(&self, rt: &HostRuntime, is_so: bool, what: &str) -> Result<(), Fail> {
        if is_so {
            return Ok(());
        }
        let of = self.of;
        println!(rt; "{of}: {what}")?;
        Err(Fail::new("it is not so"))
    }

    /// The growth of this number was not there any more. Says how many there were, and without how many of them the
    /// call went well all the same.
    pub(crate) fn end(&self, rt: &HostRuntime, number: usize) -> Result<(), Fail> {
        let (of, count, borne) = (self.of, number.saturating_sub(1), self.borne);
        println!(rt; "{of}: {count} {borne}")?;
        Ok(())
    }
}

/// What a call becomes that was never made, though ever later growths of it were refused.
pub(crate) fn never() -> Fail {
    Fail::new("it was refused again and again")
}
