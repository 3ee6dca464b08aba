//! What is wrong, or kept a walk from going on.

use kt_store::StoreError;
use std::alloc::{AllocError, AllocFailed};

/// What a walk or its making came upon.
#[derive(Clone, Copy, Debug, PartialEq, Eq)]
pub enum Finding {
    /// This is not so.
    Wrong(&'static str),
    /// A scene, a script or a command cannot be made so.
    NotMade(&'static str),
    /// A call of the store was refused.
    Store(StoreError),
    /// Memory ran out.
    OutOfMemory,
}

impl From<AllocError> for Finding {
    fn from(_: AllocError) -> Finding {
        Finding::OutOfMemory
    }
}

impl<T: Drop> From<AllocFailed<T>> for Finding {
    fn from(_: AllocFailed<T>) -> Finding {
        Finding::OutOfMemory
    }
}

impl From<StoreError> for Finding {
    fn from(refusal: StoreError) -> Finding {
        Finding::Store(refusal)
    }
}

/// The finding that this is not so, unless it is.
pub fn holds(is_so: bool, what: &'static str) -> Result<(), Finding> {
    if is_so {
        Ok(())
    } else {
        Err(Finding::Wrong(what))
    }
}
