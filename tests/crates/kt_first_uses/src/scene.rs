//! A first use of kt_scene.

use kt_scene::{Sink, Source, replay};
use kt_store::MemStore;
use std::alloc::Global;
use std::test::Fail;

/// The report of a scenario of steps, from bytes to bytes.
pub(crate) fn report(alloc: Global, scenario: &[u8]) -> Result<Vec<u8>, Fail> {
    let mut source = Source::new(scenario);
    let mut sink = Sink::new(Vec::new(alloc));
    replay(alloc, &mut source, &mut sink, MemStore::new(alloc))?;
    Ok(sink.into_inner())
}
