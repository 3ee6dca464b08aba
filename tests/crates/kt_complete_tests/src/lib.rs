//! Scenarios that were cut short.
#![tactic(auto)]

use kt_complete::*;
use kt_core::{Start, StepError};
use kt_scene::{Nobody, ReplayFault, Sink, Source};
use kt_store::MemStore;
use std::test::Fail;

/// Its worker has asked for its first operation.
const CUT_SHORT: &[u8] =
    b"linda-kt 1\nshards 1\nworker\nout (\"a\", 1)\nin (\"a\", ?int x)\nsteps\nissue w1\nend\n";

const COMPLETED: &[u8] =
    b"# survivors 2\n# w1.1 out (\"a\", 1) done\n# w1.2 in (\"a\", ?int) got (\"a\", 1)\n# lost 0\n\
# space 0\n# permanent 0\nlinda-kt 1\nshards 1\nworker\nout (\"a\", 1)\nin (\"a\", ?int x)\nsteps\nissue w1\n\
deliver w1 s1\nserve s1 w1 0\ndeliver s1 w1\nissue w1\ndeliver w1 s1\nserve s1 w1 0\ndeliver s1 w1\nend\n";

#[test]
fn completes_what_was_cut_short(rt: HostRuntime) -> Result<(), Fail> {
    let alloc = rt.alloc();
    let mut writer = Sink::new(Vec::new(alloc));
    let (answer, _) = complete_returning_store(
        alloc,
        Start::Open,
        &mut Source::new(CUT_SHORT),
        &mut writer,
        MemStore::new(alloc),
        &mut Nobody,
    );
    assert_eq!(rt; answer, Ok(()));
    assert_eq!(rt; &writer.into_inner()[..], COMPLETED);
    Ok(())
}

#[test]
fn refuses_a_step_that_is_not_enabled(rt: HostRuntime) -> Result<(), Fail> {
    let alloc = rt.alloc();
    let text = b"linda-kt 1\nshards 1\nworker\nout (1)\nsteps\nissue w1\nissue w1\nend\n";
    let mut writer = Sink::new(Vec::new(alloc));
    let (answer, _) = complete_returning_store(
        alloc,
        Start::Open,
        &mut Source::new(text.as_slice()),
        &mut writer,
        MemStore::new(alloc),
        &mut Nobody,
    );
    assert_eq!(rt;
        answer,
        Err(ReplayFault::Step {
            at: 2,
            cause: StepError::NothingThere
        })
    );
    assert_eq!(rt; writer.into_inner().len(), 0);
    Ok(())
}
