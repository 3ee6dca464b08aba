//! Random scenes whose steps are chosen against progress, until they are let settle.

use crate::settled::settles;
use kt_core::Step;
use kt_node::Mode;
use kt_tuple::NodeId;
use kt_walk::scene_size::SceneSize;
use kt_walk::draws::Draws;
use kt_walk::finding::{Finding, holds};
use kt_walk::scenes::short_scene_of;
use kt_walk::tally::Tally;
use kt_walk::walking::seed_of;
use kt_walk::watching::Watched;
use std::alloc::Global;

/// How many commands a worker has at most.
const COMMANDS: u32 = 6;

/// How many failures are chosen at most, where one is chosen whenever it may be.
const MOST_FAILURES: u64 = 24;

/// By what the steps are chosen.
#[derive(Clone, Copy, Debug)]
pub enum Schedule {
    /// Of those that are enabled always the one that was made longest ago, or never.
    LongestAgo,
    /// Always a failure, where one is allowed: a while after the last one, and so many in all.
    Failing,
    /// Of the messages that can be delivered always the one that was sent last.
    Newest,
}

/// All schedules.
pub const SCHEDULES: [Schedule; 3] = [Schedule::LongestAgo, Schedule::Failing, Schedule::Newest];

/// Messages on a link, each by the turn in which it was sent.
#[derive(Drop)]
struct Sent {
    from: NodeId,
    to: NodeId,
    turns: Vec<u64>,
}

/// A scene in which steps are chosen.
#[derive(Drop)]
struct Chooser {
    schedule: Schedule,
    watched: Watched,
    draws: Draws,
    /// The steps of all nodes, those first that were made longest ago or never.
    steps: Vec<Step>,
    links: Vec<Sent>,
    /// How many turns there were.
    turns: u64,
    /// How many failures may be chosen, and how many turns go by before the next.
    failures: u64,
    pause: u64,
}

/// The steps of the worker alone, and those of both.
fn add_steps_of_worker(steps: &mut Vec<Step>, worker: u8, shards: u8) -> Result<(), Finding> {
    let node = NodeId::Worker(worker);
    steps.push(Step::Issue { node })?;
    steps.push(Step::Repeat { node })?;
    for number in 1..=shards {
        let shard = NodeId::Shard(number);
        let (from, to) = (node, shard);
        steps.push(Step::Deliver { from, to })?;
        let (from, to) = (shard, node);
        steps.push(Step::Deliver { from, to })?;
        for place in 0..2u64 {
            let worker = node;
            steps.push(Step::Serve {
                shard,
                worker,
                place,
            })?;
        }
    }
    Ok(())
}

/// All steps of all nodes.
fn all_steps(alloc: Global, size: SceneSize) -> Result<Vec<Step>, Finding> {
    let mut steps = Vec::new(alloc);
    for worker in 1..=size.workers {
        add_steps_of_worker(&mut steps, worker, size.shards)?;
    }
    for place in 0..size.count() {
        let node = size.node(place);
        steps.push(Step::Take { node })?;
        steps.push(Step::Check { node })?;
        steps.push(Step::Decide { node })?;
        steps.push(Step::Abandon { node })?;
        steps.push(Step::Learn { node })?;
        steps.push(Step::Fail { node })?;
        steps.push(Step::Restart { node })?;
    }
    Ok(steps)
}

/// The step at this place comes behind all others.
fn put_last(steps: &mut Vec<Step>, place: usize) -> Result<(), Finding> {
    if place < steps.len() {
        let step = steps.remove(place);
        steps.push(step)?;
    }
    Ok(())
}

/// The steps in an order that is drawn.
fn shuffled(alloc: Global, size: SceneSize, draws: &mut Draws) -> Result<Vec<Step>, Finding> {
    let mut steps = all_steps(alloc, size)?;
    let count = steps.len() as u64;
    for _ in 0..count.saturating_mul(2) {
        let place = draws.below(count.max(1)) as usize;
        put_last(&mut steps, place)?;
    }
    Ok(steps)
}

/// The links of all pairs, on which nothing is.
fn all_links(alloc: Global, size: SceneSize) -> Result<Vec<Sent>, Finding> {
    let mut links = Vec::new(alloc);
    for worker in 1..=size.workers {
        for shard in 1..=size.shards {
            let (worker, shard) = (NodeId::Worker(worker), NodeId::Shard(shard));
            for (from, to) in [(worker, shard), (shard, worker)] {
                let turns = Vec::new(alloc);
                links.push(Sent { from, to, turns })?;
            }
        }
    }
    Ok(links)
}

impl Sent {
    /// There are so many messages now, the new ones sent in this turn.
    fn follow(&mut self, count: usize, turn: u64) -> Result<(), Finding> {
        for _ in count..self.turns.len() {
            if !self.turns.is_empty() {
                self.turns.remove(0);
            }
        }
        for _ in self.turns.len()..count {
            self.turns.push(turn)?;
        }
        Ok(())
    }
}

impl Chooser {
    fn open(alloc: Global, schedule: Schedule, seed: u64) -> Result<Chooser, Finding> {
        let watched = Watched::open(alloc, short_scene_of(alloc, COMMANDS, seed)?)?;
        let mut draws = Draws::of(seed ^ 0x5bd1_e995);
        let size = watched.size();
        Ok(Chooser {
            schedule,
            steps: shuffled(alloc, size, &mut draws)?,
            links: all_links(alloc, size)?,
            turns: 0,
            failures: draws.below(MOST_FAILURES + 1),
            pause: 0,
            watched,
            draws,
        })
    }

    /// Whether the step is left to the order of all steps.
    fn is_wanted(schedule: Schedule, step: Step) -> bool {
        match schedule {
            Schedule::LongestAgo => true,
            Schedule::Failing => !matches!(step, Step::Fail { .. }),
            Schedule::Newest => !matches!(step, Step::Deliver { .. }),
        }
    }

    /// The place of the first step that is enabled.
    fn first_enabled(&mut self, alloc: Global) -> Result<Option<usize>, Finding> {
        for (place, step) in self.steps.iter().enumerate() {
            if Chooser::is_wanted(self.schedule, *step)
                && self.watched.world_mut().can(alloc, *step)?
            {
                return Ok(Some(place));
            }
        }
        Ok(None)
    }

    /// The first step that is enabled, which comes behind all others then.
    fn longest_ago(&mut self, alloc: Global) -> Result<Option<Step>, Finding> {
        let Some(place) = self.first_enabled(alloc)? else {
            return Ok(None);
        };
        let step = self.steps.get(place).copied();
        put_last(&mut self.steps, place)?;
        Ok(step)
    }

    /// A failure, where one is allowed.
    fn failure(&mut self) -> Option<Step> {
        if self.pause > 0 || self.failures == 0 {
            self.pause = self.pause.saturating_sub(1);
            return None;
        }
        let size = self.watched.size();
        let count = size.count().max(1);
        let first = self.draws.number_to(count);
        for turn in 0..count {
            let node = size.node(first.saturating_add(turn) % count);
            if self.watched.world().mode(node) != Some(Mode::Down) {
                self.failures = self.failures.saturating_sub(1);
                self.pause = self.draws.below(12);
                return Some(Step::Fail { node });
            }
        }
        None
    }

    /// The delivery of the message that was sent last, of those that can be delivered.
    fn newest(&self) -> Option<Step> {
        let mut found = None;
        let mut last = 0u64;
        for Sent { from, to, turns } in &self.links {
            if let Some(turn) = turns.first() {
                let is_up = self.watched.world().mode(*to) != Some(Mode::Down);
                if is_up && (found.is_none() || *turn > last) {
                    last = *turn;
                    found = Some(Step::Deliver {
                        from: *from,
                        to: *to,
                    });
                }
            }
        }
        found
    }

    /// The step that is chosen first.
    fn chosen(&mut self, alloc: Global) -> Result<Option<Step>, Finding> {
        let first = match self.schedule {
            Schedule::LongestAgo => None,
            Schedule::Failing => self.failure(),
            Schedule::Newest => {
                if self.draws.below(3) < 2 {
                    self.newest()
                } else {
                    None
                }
            }
        };
        match first {
            Some(step) => Ok(Some(step)),
            None => self.longest_ago(alloc),
        }
    }

    /// Makes the step that is chosen, where there is one. Whether it was made.
    fn turn(&mut self, alloc: Global, tally: &mut Tally) -> Result<bool, Finding> {
        self.turns = self.turns.saturating_add(1);
        let Some(step) = self.chosen(alloc)? else {
            return Ok(false);
        };
        let is_made = self.watched.go(alloc, step, tally)?;
        for link in &mut self.links {
            let count = self.watched.world().link_len(link.from, link.to);
            link.follow(count, self.turns)?;
        }
        Ok(is_made)
    }
}

/// So many steps at most, and at least half of that, of the scene of this number, of those of the seed, chosen so; and
/// then it settles.
pub fn against(
    alloc: Global,
    schedule: Schedule,
    (seed, scene): (u64, u64),
    most: u64,
    tally: &mut Tally,
) -> Result<(), Finding> {
    let mut chooser = Chooser::open(alloc, schedule, seed_of(seed, scene))?;
    let half = most / 2;
    let turns = half.saturating_add(chooser.draws.below(half.saturating_add(1)));
    for _ in 0..turns {
        let is_made = chooser.turn(alloc, tally)?;
        holds(is_made, "a step that can be made")?;
    }
    let Chooser { mut watched, .. } = chooser;
    settles(alloc, &mut watched, tally)?;
    watched.end(alloc, tally)
}
