//! Random walks: steps of all kinds, failures and refused ones among them, and what must hold after each.

use crate::scene_size::SceneSize;
use crate::draws::Draws;
use crate::finding::Finding;
use crate::kinds::{Kind, Who, numbers, onward, seldom, step_of};
use crate::scenes::scene_of;
use crate::tally::Tally;
use crate::watching::Watched;
use kt_core::Step;
use std::alloc::Global;

/// How many kinds are drawn in a turn at most.
const DRAWN_A_TURN: u8 = 5;

/// A scene that is being walked through.
#[derive(Drop)]
struct Walker {
    watched: Watched,
    draws: Draws,
}

impl Walker {
    fn open(alloc: Global, seed: u64) -> Result<Walker, Finding> {
        Ok(Walker {
            watched: Watched::open(alloc, scene_of(alloc, seed)?)?,
            draws: Draws::of(seed ^ 0x5bd1_e995),
        })
    }

    fn size(&self) -> SceneSize {
        self.watched.size()
    }

    /// Tries a step of any kind of any nodes, or something that is seldom done, or brings on what was begun.
    fn turn(&mut self, alloc: Global, tally: &mut Tally) -> Result<(), Finding> {
        if self.draws.below(8) == 0 {
            let kind = onward(&mut self.draws);
            self.try_any(alloc, kind, tally)?;
        }
        match seldom(&mut self.draws) {
            Some(kind) => self.try_any(alloc, kind, tally),
            None => self.go_on(alloc, tally),
        }
    }

    /// Tries a step of this kind of any nodes, also such as are not there.
    fn try_any(&mut self, alloc: Global, kind: Kind, tally: &mut Tally) -> Result<(), Finding> {
        let who = Who::any(self.size(), &mut self.draws);
        self.watched.go(alloc, step_of(kind, who, 0), tally)?;
        Ok(())
    }

    /// Tries steps of kinds that are drawn, until one is made.
    fn go_on(&mut self, alloc: Global, tally: &mut Tally) -> Result<(), Finding> {
        for _ in 0..DRAWN_A_TURN {
            let kind = onward(&mut self.draws);
            if self.go_some(alloc, kind, tally)? {
                break;
            }
        }
        Ok(())
    }

    /// Tries steps of this kind, of one node after the other, until one is made.
    fn go_some(&mut self, alloc: Global, kind: Kind, tally: &mut Tally) -> Result<bool, Finding> {
        let most = numbers(self.size()).max(1);
        let first = self.draws.below(most);
        let place = self.draws.below(3) / 2;
        for number in 0..most {
            let who = Who::numbered(self.size(), first.saturating_add(number));
            if self.watched.go(alloc, step_of(kind, who, place), tally)? {
                return Ok(true);
            }
        }
        Ok(false)
    }
}

/// The seed of the scene of this number, of those of the seed.
pub fn seed_of(seed: u64, scene: u64) -> u64 {
    seed.wrapping_mul(0x9e37_79b9_7f4a_7c15).wrapping_add(scene)
}

/// Goes through 60 to 200 turns of the scene of this seed.
fn walked(alloc: Global, seed: u64, tally: &mut Tally) -> Result<Walker, Finding> {
    let mut walker = Walker::open(alloc, seed)?;
    let turns = 60 + walker.draws.below(141);
    for _ in 0..turns {
        walker.turn(alloc, tally)?;
    }
    Ok(walker)
}

/// Walks through the scene of this number, of those of the seed: 60 to 200 turns.
pub fn walk(alloc: Global, seed: u64, scene: u64, tally: &mut Tally) -> Result<(), Finding> {
    walked(alloc, seed_of(seed, scene), tally)?
        .watched
        .end(alloc, tally)
}

/// The steps that a walk through the scene of this seed tries, those that are refused too.
pub fn tried_steps(alloc: Global, seed: u64) -> Result<Vec<Step>, Finding> {
    let mut tally = Tally::NONE;
    let watched = walked(alloc, seed, &mut tally)?.watched;
    watched.end(alloc, &mut tally)?;
    Ok(watched.into_tried())
}
