//! A first use of kt_sql.

use kt_sql::SqlStore;
use kt_store::CkptStore;
use kt_tuple::NodeId;
use std::test::Fail;

/// The incarnation of a shard, as the store in the file at the path keeps it, after one restart more.
pub(crate) fn next_life(rt: &HostRuntime, path: &str) -> Result<u64, Fail> {
    let shard = NodeId::Shard(1);
    let mut store = SqlStore::open(rt, path)?;
    store.begin_restart(shard)?;
    Ok(store.incarnation(shard)?)
}
