//! A store in SQL of which cells are damaged while a world stands on it.

use crate::cells::Store;
use kt_ckpt::{Ckpt, CkptHeader};
use kt_sql::SqlStore;
use kt_store::{CkptStore, StoreError, Tentative, TentativeHeader, Verdict};
use kt_tuple::NodeId;
use std::alloc::Global;
use std::mem;

/// A store that a statement can be run on.
pub(crate) trait Alter {
    /// Runs it and opens the store again; nothing where that can't be done.
    fn alter(&mut self, alloc: Global, sql: &str) -> Option<()>;
}

impl Alter for Store {
    fn alter(&mut self, alloc: Global, sql: &str) -> Option<()> {
        let fresh = SqlStore::in_memory(alloc).ok()?;
        let mut conn = mem::replace(self, fresh).into_connection();
        conn.execute(sql, &[]).ok()?;
        if !conn.is_autocommit() {
            return None;
        }
        *self = SqlStore::adopt(alloc, conn).ok()?;
        Some(())
    }
}

/// The store below, on which the statement is run before the call of this number.
#[derive(Drop)]
pub(crate) struct Spoiled<S: CkptStore> {
    inner: S,
    alloc: Global,
    sql: &'static str,
    /// How many calls are left up to that one and with it, 0 where it came.
    left: u64,
}

impl<S: CkptStore + Alter> Spoiled<S> {
    pub(crate) fn new(inner: S, alloc: Global, sql: &'static str, at: u64) -> Spoiled<S> {
        Spoiled {
            inner,
            alloc,
            sql,
            left: at,
        }
    }

    /// The store below for one call.
    fn next(&mut self) -> Result<&mut S, StoreError> {
        let is_due = self.left == 1;
        self.left = self.left.saturating_sub(1);
        if is_due && self.inner.alter(self.alloc, self.sql).is_none() {
            return Err(StoreError::Device);
        }
        Ok(&mut self.inner)
    }
}

/// Its clauses are not proved: the store below is damaged.
impl<S: CkptStore + Alter> CkptStore for Spoiled<S> {
    ghost content = { λ s. S.content s.inner };

    ghost is_honest = { λ s. S.is_honest s.inner };

    ghost failures = { λ s. S.failures s.inner };

    ghost is_intact = { λ s. S.is_intact s.inner };

    ghost counts = { λ s. S.counts s.inner };

    fn faults(&self) -> u64 {
        self.inner.faults()
    }

    fn wants(&self) -> u64 {
        self.inner.wants()
    }

    fn incarnation(&mut self, node: NodeId) -> Result<u64, StoreError> {
        self.next()?.incarnation(node)
    }

    fn permanent(&mut self, alloc: Global, node: NodeId) -> Result<Option<Ckpt>, StoreError> {
        self.next()?.permanent(alloc, node)
    }

    fn tentative(&mut self, alloc: Global, node: NodeId) -> Result<Option<Tentative>, StoreError> {
        self.next()?.tentative(alloc, node)
    }

    fn permanent_header(
        &mut self,
        alloc: Global,
        node: NodeId,
    ) -> Result<Option<CkptHeader>, StoreError> {
        self.next()?.permanent_header(alloc, node)
    }

    fn tentative_header(
        &mut self,
        alloc: Global,
        node: NodeId,
    ) -> Result<Option<TentativeHeader>, StoreError> {
        self.next()?.tentative_header(alloc, node)
    }

    fn verdict(&mut self, instance: u64) -> Result<Option<Verdict>, StoreError> {
        self.next()?.verdict(instance)
    }

    fn initiator(&mut self, instance: u64) -> Result<Option<NodeId>, StoreError> {
        self.next()?.initiator(instance)
    }

    fn open_of(&mut self, node: NodeId) -> Result<Option<u64>, StoreError> {
        self.next()?.open_of(node)
    }

    fn next_instance(&mut self) -> Result<u64, StoreError> {
        self.next()?.next_instance()
    }

    fn nodes(&mut self, alloc: Global) -> Result<Vec<NodeId>, StoreError> {
        self.next()?.nodes(alloc)
    }

    fn is_fresh(&mut self) -> Result<bool, StoreError> {
        self.next()?.is_fresh()
    }

    fn begin_check(&mut self, node: NodeId, ckpt: &Ckpt) -> Result<(), StoreError> {
        self.next()?.begin_check(node, ckpt)
    }

    fn put_tentative(
        &mut self,
        node: NodeId,
        instance: u64,
        ckpt: &Ckpt,
    ) -> Result<(), StoreError> {
        self.next()?.put_tentative(node, instance, ckpt)
    }

    fn promote(&mut self, node: NodeId) -> Result<(), StoreError> {
        self.next()?.promote(node)
    }

    fn discard(&mut self, node: NodeId) -> Result<(), StoreError> {
        self.next()?.discard(node)
    }

    fn begin_restart(&mut self, node: NodeId) -> Result<(), StoreError> {
        self.next()?.begin_restart(node)
    }

    fn bump(&mut self, node: NodeId) -> Result<(), StoreError> {
        self.next()?.bump(node)
    }

    fn decide(&mut self, instance: u64, yes: bool) -> Result<(), StoreError> {
        self.next()?.decide(instance, yes)
    }
}
