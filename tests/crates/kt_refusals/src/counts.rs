//! What a store counts, and what each refusal adds to that.

use kt_core::{OpenError, ResumeError, StepError, World};
use kt_store::{CkptStore, StoreError};

/// How often the device of a store has failed so far, and how often memory was refused.
#[derive(Clone, Copy, Debug, PartialEq, Eq)]
pub(crate) struct Counts {
    faults: u64,
    wants: u64,
}

impl Counts {
    /// What the store counts.
    pub(crate) fn of<S: CkptStore>(store: &S) -> Counts {
        Counts {
            faults: store.faults(),
            wants: store.wants(),
        }
    }

    /// What the store of the world counts.
    pub(crate) fn of_world<S: CkptStore>(world: &World<S>) -> Counts {
        Counts {
            faults: world.faults(),
            wants: world.wants(),
        }
    }

    /// These after a refusal of the store.
    fn raised_by(self, cause: StoreError) -> Counts {
        let Counts { faults, wants } = self;
        match cause {
            StoreError::Memory => Counts {
                faults,
                wants: wants.saturating_add(1),
            },
            StoreError::Device => Counts {
                faults: faults.saturating_add(1),
                wants,
            },
            StoreError::Damaged | StoreError::Full => self,
        }
    }

    /// These after a call of the store.
    pub(crate) fn after_call<T>(self, answer: &Result<T, StoreError>) -> Counts {
        match answer {
            Ok(_) => self,
            Err(cause) => self.raised_by(*cause),
        }
    }

    /// These after a step: its own want of memory leaves them.
    pub(crate) fn after_step(self, made: Result<(), StepError>) -> Counts {
        match made {
            Err(StepError::Store(cause)) => self.raised_by(cause),
            _ => self,
        }
    }

    /// These after an opening that was refused.
    pub(crate) fn after_opening(self, cause: OpenError) -> Counts {
        match cause {
            OpenError::Store(cause) => self.raised_by(cause),
            OpenError::NotFresh | OpenError::OutOfMemory => self,
        }
    }

    /// These after a resuming that was refused.
    pub(crate) fn after_resuming(self, cause: ResumeError) -> Counts {
        match cause {
            ResumeError::Store(cause) => self.raised_by(cause),
            ResumeError::Unfit { .. } | ResumeError::OutOfMemory => self,
        }
    }

    /// Whether a call can leave these others that was refused by the store, or itself had no memory and says so by the
    /// same name.
    pub(crate) fn can_become(self, after: Counts, cause: StoreError) -> bool {
        let is_of_call = cause == StoreError::Memory && after == self;
        is_of_call || after == self.raised_by(cause)
    }
}
