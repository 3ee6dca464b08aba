//! A first use of kt_stage: a run by its threads, and a gate that counts what shards confirm.

use kt_scene::{Scenario, Work, WorkKind, read_scene};
use kt_stage::{Gate, run_threads};
use kt_store::{MemStore, memory_may_go};
use kt_tuple::NodeId;
use std::alloc::Global;
use std::sync::Wait;
use std::sync::atomic::{AtomicU32, Ordering};
use std::test::Fail;
use std::thread::Threads;

/// Counts how often a shard has confirmed whom it serves. A run calls it with no lock held.
#[derive(Drop)]
struct Counter {
    confirmed: AtomicU32,
}

impl Gate for Counter {
    fn before(&self, _shard: NodeId, _worker: NodeId) {}

    fn after(&self, _shard: NodeId, _worker: NodeId) {
        self.confirmed.fetch_add(1, Ordering::SeqCst);
    }
}

/// Runs the scenario of fault lines by a thread for each node, and gives how often shards confirmed.
pub(crate) fn confirmed_in_run<R>(rt: &R, alloc: Global, text: &[u8]) -> Result<u32, Fail>
where
    R: Threads + Wait + Sync,
{
    let gate = Counter {
        confirmed: AtomicU32::new(0),
    };
    let Scenario { scene, work } = read_scene(alloc, text, WorkKind::Faults)?;
    let Work::Faults(faults) = work else {
        return Err(Fail::from("fault lines"));
    };
    memory_may_go();
    let run = run_threads(rt, alloc, scene, faults, MemStore::new(alloc), &gate);
    run.ok().ok_or("a run")?;
    Ok(gate.confirmed.load(Ordering::SeqCst))
}
