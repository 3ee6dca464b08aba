//! Scenarios that are traced, and how.

use kt_look::{Form, write_trace};
use kt_scene::{Nobody, ReplayFault, Sink, Source};
use kt_tell::Choice;
use std::alloc::{AllocError, Global};

/// A worker puts a tuple and takes it.
pub const PUT_AND_TAKE: &str =
    "linda-kt 1\nshards 1\nworker\nout (\"a\", 1)\nin (\"a\", ?int x)\nsteps\nissue w1\ndeliver w1 s1\nserve s1 w1 0\n\
deliver s1 w1\nissue w1\n# Now it is taken.\ndeliver w1 s1\nserve s1 w1 0\nend\n";

/// A worker and a shard take a checkpoint together, and then the shard fails.
pub const CHECKPOINT_OF_TWO: &str =
    "linda-kt 1\nshards 1\nworker\nout (\"a\", 1)\nsteps\nissue w1\ndeliver w1 s1\nserve s1 w1 0\ndeliver s1 w1\n\
check w1\ndeliver w1 s1\ndeliver s1 w1\ndeliver w1 s1\ndeliver s1 w1\ndecide w1\nlearn w1\ndeliver w1 s1\n\
deliver s1 w1\nfail s1\nend\n";

/// A shard fails and rolls its worker back.
pub const SHARD_FAILS: &str =
    "linda-kt 1\nshards 1\nworker\nout (\"a\", 1)\nsteps\nissue w1\ndeliver w1 s1\nserve s1 w1 0\ndeliver s1 w1\n\
fail s1\nrestart s1\ndeliver s1 w1\ndeliver w1 s1\ndeliver s1 w1\ndeliver w1 s1\ndecide s1\ndeliver s1 w1\nissue w1\n\
deliver w1 s1\ndeliver w1 s1\nserve s1 w1 0\nend\n";

/// What is answered, and what is written.
pub fn traced(
    alloc: Global,
    text: &str,
    form: Form,
    choice: Choice,
) -> (Result<(), ReplayFault>, Vec<u8>) {
    let mut writer = Sink::new(Vec::new(alloc));
    let answer = write_trace(
        alloc,
        &mut Source::new(text.as_bytes()),
        &mut writer,
        form,
        choice,
        &mut Nobody,
    );
    (answer, writer.into_inner())
}

/// The scenario of these steps and one more.
pub fn with_step(alloc: Global, text: &str, step: &str) -> Result<String, AllocError> {
    let before = text.strip_suffix("end\n").unwrap_or(text);
    format!(in alloc; "{before}{step}\nend\n")
}
