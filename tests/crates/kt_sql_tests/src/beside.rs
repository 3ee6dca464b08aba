//! The store in SQL beside a plain map.

use kt_sql::SqlStore;
use kt_store_tests::beside::{Walk, goes_beside};
use std::test::*;

#[test]
fn four_hundred_calls(rt: HostRuntime) -> Result<(), Fail> {
    let alloc = rt.alloc();
    let mut store = SqlStore::in_memory(alloc).ok().ok_or("the store opens")?;
    let walk = Walk {
        calls: 400,
        between: 1,
        newest: 8,
        between_all: 100,
        // The tables hold no number above 2^62.
        never: 0,
    };
    let next = goes_beside(alloc, &mut store, walk);
    assert!(rt; matches!(next, Ok(next) if next > 40), "{next:?}");
    Ok(())
}
