//! A world that is watched: its steps, and what must hold after each of them.

use crate::scene_size::SceneSize;
use crate::copies::copy_of;
use crate::cuts;
use crate::finding::{Finding, holds};
use crate::following::fits;
use crate::fronts::{agrees, has_lost, lends_bags};
use crate::scenes::Game;
use crate::shapes::{Shape, is_made_by, shape_of};
use crate::slowly::Pasts;
use crate::tally::{Tally, add_one, count, count_open, note_number, step_number};
use kt_core::{Scene, Step, StepError, World};
use kt_history::Note;
use kt_store::MemStore;
use kt_tuple::Tuple;
use std::alloc::Global;

/// A world over a store in memory, with what is worked out of its notes, and the steps that led to it.
#[derive(Drop)]
pub struct Watched {
    size: SceneSize,
    world: Game,
    /// The pasts of what is noted so far.
    pasts: Pasts,
    /// The steps that were tried.
    tried: Vec<Step>,
    /// Those of them that were made.
    made: Vec<Step>,
    /// The instances that were begun: whether it is a check.
    begun: Vec<bool>,
}

/// The world of this scene, in which nothing was done.
fn opened(alloc: Global, scene: Scene) -> Result<Game, Finding> {
    let world = World::open(alloc, scene, MemStore::new(alloc));
    world.ok().ok_or(Finding::NotMade("a world"))
}

impl Watched {
    /// The world of the scene, in which nothing was done.
    pub fn open(alloc: Global, scene: Scene) -> Result<Watched, Finding> {
        let size = SceneSize {
            workers: u8::try_from(scene.scripts().len()).unwrap_or(0),
            shards: scene.shards(),
        };
        Ok(Watched {
            size,
            pasts: Pasts::new(alloc)?,
            world: opened(alloc, scene)?,
            tried: Vec::new(alloc),
            made: Vec::new(alloc),
            begun: Vec::new(alloc),
        })
    }

    /// Who takes part.
    pub fn size(&self) -> SceneSize {
        self.size
    }

    /// The world as it is.
    pub fn world(&self) -> &Game {
        &self.world
    }

    /// The world, to ask it what asks its store too. A step that is made by it is not watched.
    pub fn world_mut(&mut self) -> &mut Game {
        &mut self.world
    }

    /// The world as it is, without what was worked out.
    pub fn into_world(self) -> Game {
        self.world
    }

    /// The steps that were tried, those that were refused too.
    pub fn into_tried(self) -> Vec<Step> {
        self.tried
    }

    /// The steps that were made.
    pub fn steps(&self) -> &[Step] {
        &self.made
    }

    fn shape(&self) -> Shape {
        shape_of(&self.world, self.size)
    }

    /// Makes the step, which has to be enabled, and checks nothing of what it leads to.
    pub fn make(&mut self, alloc: Global, step: Step) -> Result<(), Finding> {
        self.tried.push(step)?;
        let made = self.world.step(alloc, step);
        holds(made.is_ok(), "a step that is enabled")?;
        self.note_step(step)
    }

    /// Tries the step, and checks what must hold where it was made. It answers whether it was made.
    pub fn go(&mut self, alloc: Global, step: Step, tally: &mut Tally) -> Result<bool, Finding> {
        let is_made = self.try_step(alloc, step, tally)?;
        if is_made {
            self.check(alloc, tally)?;
            let is_new = matches!(step, Step::Check { .. } | Step::Restart { .. });
            if is_new && count_open(self.world.store()) > 1 {
                add_one(&mut tally.overlapping);
            }
        }
        Ok(is_made)
    }

    /// Tries the step, and answers whether it was made. `can` says so before; a refused step changes nothing, and one
    /// that is made changes its owner alone.
    fn try_step(&mut self, alloc: Global, step: Step, tally: &mut Tally) -> Result<bool, Finding> {
        let before = self.shape();
        let can = self.world.can(alloc, step)?;
        holds(self.shape() == before, "asking changes nothing")?;
        self.tried.push(step)?;
        add_one(&mut tally.tried);
        let made = self.world.step(alloc, step);
        holds(can == made.is_ok(), "what can be done is made")?;
        if let Err(refusal) = made {
            holds(self.shape() == before, "a refused step changes nothing")?;
            count_refusal(refusal, tally)?;
            return Ok(false);
        }
        holds(
            is_made_by(self.size, before, self.shape(), step),
            "only its owner changes",
        )?;
        count(&mut tally.made, step_number(step));
        self.note_step(step)?;
        Ok(true)
    }

    fn note_step(&mut self, step: Step) -> Result<(), Finding> {
        self.made.push(step)?;
        match step {
            Step::Check { .. } => self.begun.push(true)?,
            Step::Restart { .. } => self.begun.push(false)?,
            _ => {}
        }
        Ok(())
    }

    /// What must hold of the world as it is, and of what its store holds: the permanent checkpoints agree.
    pub fn check(&mut self, alloc: Global, tally: &mut Tally) -> Result<(), Finding> {
        let notes = self.world.history().notes();
        note_new(alloc, notes, self.pasts.noted(), tally)?;
        self.pasts.go_on(alloc, notes)?;
        agrees(alloc, &self.world, &self.pasts)?;
        lends_bags(&self.world)?;
        add_one(&mut tally.compared);
        if self.world.is_steady() {
            add_one(&mut tally.steady);
            if has_lost(alloc, notes)? {
                add_one(&mut tally.steady_with_lost);
            }
        }
        let permanent = self.world.permanent_space(alloc)?;
        self.is_permanent(alloc, self.world.store(), &permanent)
    }

    /// The permanent checkpoints in this store agree, and its board has what was begun.
    fn is_permanent(
        &self,
        alloc: Global,
        store: &MemStore,
        tuples: &[Tuple],
    ) -> Result<(), Finding> {
        holds(store.board().len() == self.begun.len(), "what was begun")?;
        let notes = self.world.history().notes();
        cuts::agrees(alloc, store, tuples, notes, self.size, &self.pasts)
    }

    /// The same steps lead there once more: all that were tried, those that were refused too.
    fn is_so_again(&self, alloc: Global) -> Result<(), Finding> {
        let scene = copy_of(alloc, self.world.scene())?;
        let mut again = opened(alloc, scene)?;
        if !are_tried(alloc, &mut again, &self.tried) {
            return Err(Finding::OutOfMemory);
        }
        let is_same = again.history().notes() == self.world.history().notes();
        holds(is_same, "the same once more")?;
        let permanent = again.permanent_space(alloc)?;
        self.is_permanent(alloc, again.store(), &permanent)
    }

    /// Counts how the instances and the services ended, and makes all steps once more.
    pub fn end(&self, alloc: Global, tally: &mut Tally) -> Result<(), Finding> {
        self.is_so_again(alloc)?;
        count_instances(self.world.store(), &self.begun, tally);
        let survivors = agrees(alloc, &self.world, &self.pasts)? as u64;
        tally.survivors = tally.survivors.saturating_add(survivors);
        tally.lost = tally.lost.saturating_add(self.world.history().lost_count());
        add_one(&mut tally.scenes);
        Ok(())
    }
}

/// Tries the steps, and answers whether memory was there for them.
fn are_tried(alloc: Global, world: &mut Game, steps: &[Step]) -> bool {
    let mut was_there = true;
    for step in steps {
        was_there = was_there && world.step(alloc, *step) != Err(StepError::OutOfMemory);
    }
    was_there
}

fn count_instances(store: &MemStore, begun: &[bool], tally: &mut Tally) {
    for (row, is_check) in store.board().iter().zip(begun) {
        tally.add_instance(*is_check, Some(row.verdict));
    }
}

/// Counts the refusal, which is one of the step alone.
fn count_refusal(refusal: StepError, tally: &mut Tally) -> Result<(), Finding> {
    if refusal == StepError::OutOfMemory {
        return Err(Finding::OutOfMemory);
    }
    holds(refusal.number() < 7, "no other refusal")?;
    count(&mut tally.refusals, usize::from(refusal.number()));
    Ok(())
}

/// Counts the notes behind so many, each of which makes sense after those before it.
fn note_new(alloc: Global, notes: &[Note], noted: usize, tally: &mut Tally) -> Result<(), Finding> {
    for (place, note) in notes.iter().enumerate().skip(noted) {
        let (earlier, _) = notes.split_at(place);
        holds(fits(alloc, earlier, note)?, "a note after those before it")?;
        count(&mut tally.notes, note_number(note));
    }
    Ok(())
}
