//! A plain slow map of what a store holds. Its checkpoints are the lengths of their logs.

use kt_store::Verdict;
use kt_tuple::NodeId;
use std::alloc::{AllocError, Global};

/// What the map has of a node.
#[derive(Clone, Copy)]
pub(crate) struct Row {
    pub(crate) node: NodeId,
    pub(crate) incarnation: u64,
    pub(crate) permanent: Option<u64>,
    /// The instance, and the checkpoint.
    pub(crate) tentative: Option<(u64, u64)>,
}

/// A row for each node that the test names, and the instances from 1 on.
#[derive(Drop)]
pub(crate) struct Plain {
    pub(crate) rows: Vec<Row>,
    pub(crate) board: Vec<(NodeId, Verdict)>,
}

impl Plain {
    pub(crate) fn new(alloc: Global, nodes: &[NodeId]) -> Result<Plain, AllocError> {
        let mut rows = Vec::new(alloc);
        for node in nodes {
            rows.push(Row {
                node: *node,
                incarnation: 1,
                permanent: None,
                tentative: None,
            })?;
        }
        Ok(Plain {
            rows,
            board: Vec::new(alloc),
        })
    }

    pub(crate) fn next_instance(&self) -> u64 {
        (self.board.len() as u64).wrapping_add(1)
    }

    pub(crate) fn post(&mut self, node: NodeId) -> Result<(), AllocError> {
        self.board.push((node, Verdict::Open))?;
        Ok(())
    }

    pub(crate) fn instance_row(&self, instance: u64) -> Option<(NodeId, Verdict)> {
        if instance == 0 {
            return None;
        }
        self.board.get((instance - 1) as usize).copied()
    }

    pub(crate) fn decide(&mut self, instance: u64, yes: bool) {
        let place = instance.wrapping_sub(1) as usize;
        if let Some(instance_row) = self.board.get_mut(place) {
            instance_row.1 = if yes { Verdict::Yes } else { Verdict::No };
        }
    }

    pub(crate) fn open_of(&self, node: NodeId) -> Option<u64> {
        let mut instance = 0u64;
        for (initiator, verdict) in &self.board {
            instance = instance.wrapping_add(1);
            if *initiator == node && *verdict == Verdict::Open {
                return Some(instance);
            }
        }
        None
    }
}
