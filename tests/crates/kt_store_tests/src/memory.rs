//! The store in memory beside a plain map.

use crate::beside::{Walk, goes_beside};
use kt_store::MemStore;
use std::test::*;

#[test]
fn twenty_thousand_calls(rt: HostRuntime) {
    let alloc = rt.alloc();
    let mut store = MemStore::new(alloc);
    // With memory checked each read costs much, so not all are made after each call.
    let walk = Walk {
        calls: 20_000,
        between: 10,
        newest: 20,
        between_all: 1000,
        never: u64::MAX,
    };
    let next = goes_beside(alloc, &mut store, walk);
    assert!(rt; matches!(next, Ok(next) if next > 2_000), "{next:?}");
}
