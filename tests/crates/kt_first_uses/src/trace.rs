//! A first use of kt_look: a trace.

use kt_look::{Form, write_trace};
use kt_scene::{Nobody, Sink, Source};
use kt_tell::Choice;
use std::alloc::Global;
use std::test::Fail;

/// What happens in a scenario of steps: a line of words for each step.
pub(crate) fn trace(alloc: Global, scenario: &[u8]) -> Result<Vec<u8>, Fail> {
    let mut source = Source::new(scenario);
    let mut sink = Sink::new(Vec::new(alloc));
    let (form, choice) = (Form::Words, Choice::ALL);
    write_trace(alloc, &mut source, &mut sink, form, choice, &mut Nobody)?;
    Ok(sink.into_inner())
}
