//! Kinds of steps, drawn by weights.

use crate::scene_size::SceneSize;
use crate::draws::Draws;
use kt_core::Step;
use kt_tuple::NodeId;

#[derive(Clone, Copy)]
pub(crate) enum Kind {
    Issue,
    Repeat,
    Hear,
    Reply,
    Take,
    Serve,
    Check,
    Decide,
    Abandon,
    Learn,
    Fail,
    Restart,
}

/// What brings on what was begun, each as often as it is drawn: messages arrive often.
const DRAWN: [Kind; 16] = [
    Kind::Issue,
    Kind::Issue,
    Kind::Hear,
    Kind::Hear,
    Kind::Hear,
    Kind::Hear,
    Kind::Reply,
    Kind::Reply,
    Kind::Reply,
    Kind::Take,
    Kind::Serve,
    Kind::Serve,
    Kind::Decide,
    Kind::Learn,
    Kind::Learn,
    Kind::Restart,
];

/// One that brings on what was begun.
pub(crate) fn onward(draws: &mut Draws) -> Kind {
    match DRAWN.get(draws.below(16) as usize) {
        Some(kind) => *kind,
        None => Kind::Issue,
    }
}

/// Now and then something else: of forty draws one is a failure.
pub(crate) fn seldom(draws: &mut Draws) -> Option<Kind> {
    match draws.below(40) {
        0 => Some(Kind::Fail),
        1 | 2 => Some(Kind::Check),
        3 => Some(Kind::Abandon),
        4 => Some(Kind::Repeat),
        _ => None,
    }
}

/// Who makes a step: a worker and a shard where it is of both, else one node.
#[derive(Clone, Copy)]
pub(crate) struct Who {
    pub(crate) worker: NodeId,
    pub(crate) shard: NodeId,
    pub(crate) node: NodeId,
}

impl Who {
    /// Those of this number: so each pair is found, and each node.
    pub(crate) fn numbered(size: SceneSize, number: u64) -> Who {
        let (workers, shards) = (
            u64::from(size.workers.max(1)),
            u64::from(size.shards.max(1)),
        );
        let nodes = u64::from(size.count().max(1));
        Who {
            worker: NodeId::Worker((number % workers) as u8 + 1),
            shard: NodeId::Shard((number / workers % shards) as u8 + 1),
            node: size.node((number % nodes) as u8),
        }
    }

    /// Any, one of which may not be there.
    pub(crate) fn any(size: SceneSize, draws: &mut Draws) -> Who {
        let worker = NodeId::Worker(draws.number_to(size.workers.saturating_add(1)));
        let shard = NodeId::Shard(draws.number_to(size.shards.saturating_add(1)));
        let node = if draws.below(2) == 0 { worker } else { shard };
        Who {
            worker,
            shard,
            node,
        }
    }
}

/// How many numbers there are, of which each pair and each node has one.
pub(crate) fn numbers(size: SceneSize) -> u64 {
    let pairs = u64::from(size.workers) * u64::from(size.shards);
    pairs.max(u64::from(size.count()))
}

/// The step of this kind and place that they make.
pub(crate) fn step_of(kind: Kind, who: Who, place: u64) -> Step {
    let Who {
        worker,
        shard,
        node,
    } = who;
    match kind {
        Kind::Issue => Step::Issue { node: worker },
        Kind::Repeat => Step::Repeat { node: worker },
        Kind::Hear => Step::Deliver {
            from: worker,
            to: shard,
        },
        Kind::Reply => Step::Deliver {
            from: shard,
            to: worker,
        },
        Kind::Serve => Step::Serve {
            shard,
            worker,
            place,
        },
        _ => own_step_of(kind, node),
    }
}

/// The same of the kinds of step that are a node's own.
fn own_step_of(kind: Kind, node: NodeId) -> Step {
    match kind {
        Kind::Take => Step::Take { node },
        Kind::Check => Step::Check { node },
        Kind::Decide => Step::Decide { node },
        Kind::Abandon => Step::Abandon { node },
        Kind::Learn => Step::Learn { node },
        Kind::Fail => Step::Fail { node },
        Kind::Restart => Step::Restart { node },
        _ => Step::Issue { node },
    }
}
