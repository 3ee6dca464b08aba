//! A first use of kt_store.

use kt_store::{CkptStore, MemStore};
use kt_tuple::NodeId;
use std::alloc::Global;
use std::test::Fail;

/// The incarnation of a shard that was restarted once, as a store in memory keeps it.
pub(crate) fn second_life(alloc: Global) -> Result<u64, Fail> {
    let shard = NodeId::Shard(1);
    let mut store = MemStore::new(alloc);
    store.begin_restart(shard)?;
    Ok(store.incarnation(shard)?)
}
