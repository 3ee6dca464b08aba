//! What the worlds of a scenario show, one after each step, so that worlds over a store that fails can be compared.

use crate::rollbacks::text_of;
use kt_core::{Scene, Step, World};
use kt_scene::{Scenario, WorkKind, read_scene};
use kt_store::{CkptStore, FaultStore, MemStore};
use kt_tuple::NodeId;
use std::alloc::Global;
use std::test::Fail;

/// A store in memory of which one call fails.
pub(crate) type Failing = FaultStore<MemStore>;

/// What a world shows and its store holds after some steps.
#[derive(Drop)]
struct Sight {
    shown: String,
    /// How many notes there are, which are the first of those at the end.
    notes: usize,
    stored: String,
}

/// A scenario, and what there is after each of its steps where no call of the store fails.
#[derive(Drop)]
pub(crate) struct Course {
    text: Vec<u8>,
    pub(crate) steps: Vec<Step>,
    sights: Vec<Sight>,
    end: World<MemStore>,
}

fn scenario(alloc: Global, text: &[u8]) -> Result<Scenario, Fail> {
    Ok(read_scene(alloc, text, WorkKind::Steps)?)
}

/// The nodes that a scene here has at most.
const NODES: [NodeId; 6] = [
    NodeId::Worker(1),
    NodeId::Worker(2),
    NodeId::Worker(3),
    NodeId::Shard(1),
    NodeId::Shard(2),
    NodeId::Shard(3),
];

/// What the world shows of the node, as text.
fn node_shown<S: CkptStore>(alloc: Global, world: &World<S>, node: NodeId) -> Result<String, Fail> {
    let (steps, mode, ballot) = (world.steps_of(node), world.mode(node), world.ballot(node));
    let (worker, kept) = (world.worker(node), world.kept_len(node));
    let mut text = format!(in alloc; "{node:?} {steps} {mode:?} {ballot:?} {worker:?} {kept}\n")?;
    for place in 0..kept {
        let message = world.kept_at(node, place);
        text.push_str(format!(in alloc; "{message:?}\n")?.as_str())?;
    }
    if let Some(shard) = world.shard(node) {
        let (tuples, sessions) = (shard.bag().to_vec(alloc)?, shard.sessions());
        text.push_str(format!(in alloc; "{tuples:?} {sessions:?}\n")?.as_str())?;
    }
    for to in NODES {
        for place in 0..world.link_len(node, to) {
            let message = world.link_at(node, to, place);
            text.push_str(format!(in alloc; "{to:?} {message:?}\n")?.as_str())?;
        }
    }
    Ok(text)
}

/// All that the world shows, but for its notes, as text.
fn shown<S: CkptStore>(alloc: Global, world: &World<S>) -> Result<String, Fail> {
    let (made, steady, lost) = (
        world.made(),
        world.is_steady(),
        world.history().lost_count(),
    );
    let mut text = format!(in alloc; "{made} {steady} {lost}\n")?;
    for node in NODES {
        if world.mode(node).is_some() {
            text.push_str(node_shown(alloc, world, node)?.as_str())?;
        }
    }
    Ok(text)
}

/// The world of the text after so many steps, over a store in memory that does not fail.
fn world_after(alloc: Global, text: &[u8], count: usize) -> Result<World<MemStore>, Fail> {
    let Scenario { scene, work } = scenario(alloc, text)?;
    let opened = World::open(alloc, scene, MemStore::new(alloc));
    let mut world = opened.ok().ok_or("a world")?;
    for step in work.steps().iter().take(count) {
        world.step(alloc, *step)?;
    }
    Ok(world)
}

impl Course {
    /// The course of the scenario that has these parts.
    pub(crate) fn of(alloc: Global, parts: &[&str]) -> Result<Course, Fail> {
        let text = text_of(alloc, parts)?;
        let Scenario { work, .. } = scenario(alloc, &text)?;
        let steps = Vec::from_slice(alloc, work.steps())?;
        let mut sights = Vec::new(alloc);
        for count in 0..=steps.len() {
            let world = world_after(alloc, &text, count)?;
            let (shown, notes) = (shown(alloc, &world)?, world.history().notes().len());
            let store = world.into_store();
            let stored = format!(in alloc; "{store:?}")?;
            sights.push(Sight {
                shown,
                notes,
                stored,
            })?;
        }
        let end = world_after(alloc, &text, steps.len())?;
        Ok(Course {
            text,
            steps,
            sights,
            end,
        })
    }

    /// The bytes of the scenario.
    pub(crate) fn text(&self) -> &[u8] {
        &self.text
    }

    /// The scene, before any step.
    pub(crate) fn scene(&self, alloc: Global) -> Result<Scene, Fail> {
        let Scenario { scene, .. } = scenario(alloc, &self.text)?;
        Ok(scene)
    }

    /// The world after so many steps, where none of the calls up to then is the one of this number, which fails.
    pub(crate) fn played(
        &self,
        alloc: Global,
        count: usize,
        at: u64,
    ) -> Result<Option<World<Failing>>, Fail> {
        let store = FaultStore::new(MemStore::new(alloc), at);
        let Ok(mut world) = World::open(alloc, self.scene(alloc)?, store) else {
            return Ok(None);
        };
        for step in self.steps.iter().take(count) {
            if world.step(alloc, *step).is_err() {
                return Ok(None);
            }
        }
        Ok(Some(world))
    }

    /// Whether the world shows what it has to after so many steps.
    pub(crate) fn shows(
        &self,
        alloc: Global,
        world: &World<Failing>,
        count: usize,
    ) -> Result<bool, Fail> {
        let sight = self.sights.get(count).ok_or("a sight")?;
        let notes = self.end.history().notes();
        let notes = notes.get(..sight.notes).ok_or("a front")?;
        let is_noted = world.history().notes() == notes;
        Ok(is_noted && shown(alloc, world)?.as_str() == sight.shown.as_str())
    }

    /// Whether the store below holds what it has to after so many steps.
    pub(crate) fn is_stored(
        &self,
        alloc: Global,
        store: Failing,
        count: usize,
    ) -> Result<bool, Fail> {
        let sight = self.sights.get(count).ok_or("a sight")?;
        let below = store.into_inner();
        Ok(format!(in alloc; "{below:?}")?.as_str() == sight.stored.as_str())
    }
}
