//! Failures at each moment of a worked scenario.

use crate::settled::{next_of, settles};
use kt_core::{Faults, Step};
use kt_node::Mode;
use kt_tuple::NodeId;
use kt_walk::scene_size::SceneSize;
use kt_walk::finding::{Finding, holds};
use kt_walk::tally::Tally;
use kt_walk::watching::Watched;
use kt_walk::worked::Scenario;
use std::alloc::Global;

/// How many steps come between two strikes at most.
const MOST_BETWEEN: usize = 500;

/// Who fails at one moment.
#[derive(Clone, Copy)]
enum Strike {
    One(NodeId),
    Workers,
    All,
}

/// How many strikes there are.
fn strikes(size: SceneSize) -> u8 {
    size.count().saturating_add(2)
}

/// The strike of this number: the nodes come first.
fn strike_of(size: SceneSize, number: u8) -> Strike {
    if number < size.count() {
        Strike::One(size.node(number))
    } else if number == size.count() {
        Strike::Workers
    } else {
        Strike::All
    }
}

impl Strike {
    fn is_of(self, node: NodeId) -> bool {
        match self {
            Strike::One(other) => node == other,
            Strike::Workers => matches!(node, NodeId::Worker(_)),
            Strike::All => true,
        }
    }
}

/// The failures of those of the strike that are not down.
fn failures(alloc: Global, watched: &Watched, strike: Strike) -> Result<Vec<Step>, Finding> {
    let mut steps = Vec::new(alloc);
    for place in 0..watched.size().count() {
        let node = watched.size().node(place);
        if strike.is_of(node) && watched.world().mode(node) != Some(Mode::Down) {
            steps.push(Step::Fail { node })?;
        }
    }
    Ok(steps)
}

/// The world after the first so many steps of the scenario.
fn after(alloc: Global, scenario: &Scenario, count: usize) -> Result<Watched, Finding> {
    let mut watched = Watched::open(alloc, scenario.scene(alloc)?)?;
    for step in &scenario.first(alloc, count)? {
        watched.make(alloc, *step)?;
    }
    Ok(watched)
}

/// They fail, and what is left settles; nothing is done where all of them are down. After each step all holds that
/// must.
fn settles_after(
    alloc: Global,
    watched: &mut Watched,
    strike: Strike,
    tally: &mut Tally,
) -> Result<(), Finding> {
    let failures = failures(alloc, watched, strike)?;
    if failures.is_empty() {
        return Ok(());
    }
    for step in &failures {
        holds(watched.go(alloc, *step, tally)?, "a failure is enabled")?;
    }
    settles(alloc, watched, tally)?;
    watched.end(alloc, tally)
}

/// After the first so many steps of the scenario each strike in turn, and what is left settles.
pub fn struck_after(
    alloc: Global,
    scenario: &Scenario,
    count: usize,
    tally: &mut Tally,
) -> Result<(), Finding> {
    for number in 0..strikes(scenario.size) {
        let strike = strike_of(scenario.size, number);
        let mut watched = after(alloc, scenario, count)?;
        settles_after(alloc, &mut watched, strike, tally)?;
    }
    Ok(())
}

/// A strike, so many steps towards what is settled, and another strike. It answers whether there were so many steps.
fn struck_again(
    alloc: Global,
    watched: &mut Watched,
    (first, between, second): (Strike, usize, Strike),
    tally: &mut Tally,
) -> Result<bool, Finding> {
    let (size, faults) = (watched.size(), Faults::new(alloc));
    for step in &failures(alloc, watched, first)? {
        watched.make(alloc, *step)?;
    }
    for _ in 0..between {
        let Some(step) = next_of(alloc, watched.world_mut(), size, &faults)? else {
            return Ok(false);
        };
        watched.make(alloc, step)?;
    }
    settles_after(alloc, watched, second, tally)?;
    Ok(true)
}

/// After the first so many steps each strike in turn, and behind it at each step, or at each of this stride, each
/// other one.
pub fn struck_twice_after(
    alloc: Global,
    scenario: &Scenario,
    count: usize,
    stride: usize,
    tally: &mut Tally,
) -> Result<(), Finding> {
    let all = strikes(scenario.size);
    for number in 0..all {
        let first = strike_of(scenario.size, number);
        for turn in 0..MOST_BETWEEN {
            let between = turn.saturating_mul(stride);
            let mut is_there = false;
            for other in 0..all {
                let second = strike_of(scenario.size, other);
                let mut watched = after(alloc, scenario, count)?;
                is_there = struck_again(alloc, &mut watched, (first, between, second), tally)?;
            }
            if !is_there {
                break;
            }
        }
    }
    Ok(())
}
