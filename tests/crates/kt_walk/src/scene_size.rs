//! Who takes part in a walk.

use kt_tuple::NodeId;

/// So many workers and so many shards.
#[derive(Clone, Copy)]
pub struct SceneSize {
    pub workers: u8,
    pub shards: u8,
}

impl SceneSize {
    /// How many nodes there are.
    pub fn count(self) -> u8 {
        self.workers.saturating_add(self.shards)
    }

    /// The node at this place, counted from 0: the workers first.
    pub fn node(self, place: u8) -> NodeId {
        if place < self.workers {
            NodeId::Worker(place.saturating_add(1))
        } else {
            NodeId::Shard((place - self.workers).saturating_add(1))
        }
    }
}
