//! A run whose gate holds a shard back: the other goes on meanwhile.

use crate::making::{SceneRow, report, scene};
use kt_core::Faults;
use kt_stage::{Gate, run_threads};
use kt_store::MemStore;
use kt_tuple::NodeId;
use std::process::Abort;
use std::sync::atomic::{AtomicBool, AtomicU32, Ordering};
use std::test::Fail;
use std::time::{Clock, Duration};

/// How many turns, of a millisecond each, the gate holds a shard back at most.
const MOST_TURNS: u32 = 10_000;

/// Two shards serve, each a worker of its own.
const TWO_SHARDS: SceneRow = (2, &[&["out (\"k\")"], &["out (\"k\", 7)"]]);

/// Holds the shard that comes first before its confirm until that of the other has ended.
#[derive(Drop)]
struct Holding<'a, R> {
    clock: &'a R,
    /// Whether a shard has come.
    has_first: AtomicBool,
    /// Whether the shard that came first may go on, since the other's confirm has ended.
    is_released: AtomicBool,
    /// How many shards came before their confirm, and how many came behind it.
    before: AtomicU32,
    after: AtomicU32,
    /// Whether the first went on since it was released, and not at the last turn.
    was_released: AtomicBool,
}

impl<R: Clock> Gate for Holding<'_, R> {
    fn before(&self, _shard: NodeId, _worker: NodeId) {
        self.before.fetch_add(1, Ordering::SeqCst);
        if self.has_first.swap(true, Ordering::SeqCst) {
            return;
        }
        for _ in 0..MOST_TURNS {
            if self.is_released.load(Ordering::SeqCst) {
                self.was_released.store(true, Ordering::SeqCst);
                return;
            }
            self.clock.sleep(Duration::from_millis(1));
        }
    }

    fn after(&self, _shard: NodeId, _worker: NodeId) {
        self.after.fetch_add(1, Ordering::SeqCst);
        self.is_released.store(true, Ordering::SeqCst);
    }
}

/// The shard that comes first is released by the other, which a run on one thread, or one that searches and confirms
/// under one lock, would never do. That the run ends with both served tells nothing: at the limit it does so too.
#[test]
fn two_gates(rt: HostRuntime) -> Result<(), Fail> {
    let alloc = rt.alloc();
    let gate = Holding {
        clock: &rt,
        has_first: AtomicBool::new(false),
        is_released: AtomicBool::new(false),
        before: AtomicU32::new(0),
        after: AtomicU32::new(0),
        was_released: AtomicBool::new(false),
    };
    let store = MemStore::new(alloc);
    let run = run_threads(&rt, alloc, scene(alloc, TWO_SHARDS)?, Faults::new(alloc), store, &gate);
    let journal = run.ok().ok_or("a run")?;
    assert!(rt; gate.was_released.load(Ordering::SeqCst));
    assert!(rt; gate.before.load(Ordering::SeqCst) == 2 && gate.after.load(Ordering::SeqCst) == 2);
    let report = report(alloc, &mut journal.into_world())?;
    assert!(rt; report.starts_with(b"survivors 2\n"), "{:?}", String::from_utf8(report));
    Ok(())
}
