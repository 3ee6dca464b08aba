//! Stores that nothing was stored in, and writers that nothing was written to.

use kt_scene::Sink;
use kt_sql::SqlStore;
use kt_store::MemStore;
use sqlite::MemStore as Disk;
use std::alloc::Global;
use std::test::Fail;

/// A kind of store of which there is a new one whenever it is wanted.
pub(crate) trait Fresh: Sized {
    /// One that nothing was stored in.
    fn fresh(alloc: Global) -> Result<Self, Fail>;
}

impl Fresh for MemStore {
    fn fresh(alloc: Global) -> Result<MemStore, Fail> {
        Ok(MemStore::new(alloc))
    }
}

impl Fresh for SqlStore<Disk> {
    fn fresh(alloc: Global) -> Result<SqlStore<Disk>, Fail> {
        Ok(SqlStore::in_memory(alloc)?)
    }
}

/// How many bytes a text that is written here has at most.
const ROOM: usize = 1 << 16;

/// A writer that has room for all that is written, so that it asks for no memory itself.
pub(crate) fn sink(alloc: Global) -> Result<Sink<Vec<u8>>, Fail> {
    Ok(Sink::new(Vec::with_capacity(alloc, ROOM)?))
}
