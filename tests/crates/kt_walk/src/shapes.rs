//! What can be seen of a world at once: counts and modes.

use crate::scene_size::SceneSize;
use crate::scenes::Game;
use kt_core::Step;
use kt_node::Mode;
use kt_tuple::MAX_NODES;

/// Counts and modes of a world, by their places.
#[derive(Clone, Copy, PartialEq, Eq)]
pub(crate) struct Shape {
    notes: usize,
    lost: u64,
    nodes: [(Option<Mode>, u64); MAX_NODES],
}

/// What is seen of the world.
pub(crate) fn shape_of(world: &Game, size: SceneSize) -> Shape {
    let mut nodes = [(None, 0); MAX_NODES];
    let mut place = 0u8;
    for row in &mut nodes {
        if place < size.count() {
            let node = size.node(place);
            *row = (world.mode(node), world.steps_of(node));
        }
        place = place.saturating_add(1);
    }
    Shape {
        notes: world.history().notes().len(),
        lost: world.history().lost_count(),
        nodes,
    }
}

/// Whether this is what a step leaves that was made: one step more of its owner, one note more at most, and nothing
/// else of the other nodes.
pub(crate) fn is_made_by(size: SceneSize, before: Shape, after: Shape, step: Step) -> bool {
    let mut place = 0u8;
    for ((mode, own), (new_mode, new_own)) in before.nodes.iter().zip(&after.nodes) {
        let is_same = new_mode == mode && new_own == own;
        let is_more = *new_own == own.saturating_add(1);
        let is_owner = place < size.count() && size.node(place) == step.owner();
        if !(is_more && is_owner || is_same && !is_owner) {
            return false;
        }
        place = place.saturating_add(1);
    }
    before.notes <= after.notes && after.notes <= before.notes.saturating_add(1)
}
