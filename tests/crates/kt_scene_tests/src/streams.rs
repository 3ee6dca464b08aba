//! Replays from a reader to a writer that may fail.

use kt_scene::{ReplayFault, Sink, Source, replay};
use kt_store::MemStore;
use kt_streams::{Drain, Feed};
use std::alloc::Global;

/// How a replay of the bytes ends, and what it leaves written.
pub(crate) fn replayed(
    alloc: Global,
    feed: Feed<'_>,
    drain: Drain,
) -> (Result<(), ReplayFault>, Drain) {
    let (mut source, mut sink) = (Source::new(feed), Sink::new(drain));
    let answer = replay(alloc, &mut source, &mut sink, MemStore::new(alloc));
    (answer, sink.into_inner())
}
