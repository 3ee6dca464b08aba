//! Worlds that are opened, and make their steps, with each growth refused in turn.

use crate::counts::Counts;
use crate::fresh::Fresh;
use crate::refusing::{MOST, Turns, asked_for_none, never, refuse, refuse_all, was_spared};
use crate::seen::{has_stored, leaves, read, seen, shows, stored};
use kt_core::{OpenError, OpenRefused, Step, StepError, World};
use kt_scene::{Scenario, WorkKind, read_scene};
use kt_store::{CkptStore, StoreError};
use std::alloc::Global;
use std::test::Fail;

/// The word for the step, as a scenario has it.
pub(crate) fn word(step: Step) -> &'static str {
    match step {
        Step::Issue { .. } => "issue",
        Step::Repeat { .. } => "repeat",
        Step::Deliver { .. } => "deliver",
        Step::Take { .. } => "take",
        Step::Serve { .. } => "serve",
        Step::Check { .. } => "check",
        Step::Decide { .. } => "decide",
        Step::Abandon { .. } => "abandon",
        Step::Learn { .. } => "learn",
        Step::Fail { .. } => "fail",
        Step::Restart { .. } => "restart",
    }
}

/// Whether the step calls no store, whatever it meets: what is refused then is its own growth.
fn calls_no_store(step: Step) -> bool {
    matches!(
        step,
        Step::Issue { .. } | Step::Repeat { .. } | Step::Serve { .. } | Step::Take { .. }
    )
}

/// Whether memory ran out, in the world or in its store where the step may call it.
pub(crate) fn is_of_memory(step: Step, error: StepError) -> bool {
    match error {
        StepError::OutOfMemory => true,
        StepError::Store(cause) => cause == StoreError::Memory && !calls_no_store(step),
        _ => false,
    }
}

/// Whether memory ran out in the opening, in the world or in its store.
pub(crate) fn is_of_opening(cause: OpenError) -> bool {
    matches!(
        cause,
        OpenError::OutOfMemory | OpenError::Store(StoreError::Memory)
    )
}

/// The scenario of steps that the text is.
pub(crate) fn scenario(alloc: Global, text: &[u8]) -> Result<Scenario, Fail> {
    Ok(read_scene(alloc, text, WorkKind::Steps)?)
}

/// What is given to an opening: the scene, and what a fresh store holds and counts.
#[derive(Drop)]
struct Given {
    scene: String,
    held: Vec<u8>,
    counts: Counts,
}

/// What an opening that was refused left is opened with memory; before that it is as it was, but that the store has
/// counted its own refusal.
fn opens_again<S: CkptStore + Drop>(
    alloc: Global,
    refused: OpenRefused<S>,
    given: &Given,
) -> Result<bool, Fail> {
    let OpenRefused {
        cause,
        scene,
        mut store,
    } = refused;
    let is_counted = Counts::of(&store) == given.counts.after_opening(cause);
    let is_same = has_stored(alloc, &mut store, &given.held)? && is_counted;
    let scene_now = format!(in alloc; "{scene:?}")?;
    let is_same = is_same && scene_now.as_str() == given.scene.as_str();
    Ok(is_of_opening(cause) && is_same && World::open(alloc, scene, store).is_ok())
}

/// What an opening came to, and whether no growth of it was refused.
type Opened<S> = (Result<World<S>, OpenRefused<S>>, bool);

/// Opens the scene of the text over a fresh store, with the growth of this number refused.
fn opened_once<S: CkptStore + Fresh + Drop>(
    alloc: Global,
    text: &[u8],
    number: usize,
) -> Result<Opened<S>, Fail> {
    let Scenario { scene, .. } = scenario(alloc, text)?;
    let store = S::fresh(alloc)?;
    refuse(alloc, number)?;
    let opened = World::open(alloc, scene, store);
    let is_spared = was_spared(alloc, number)?;
    Ok((opened, is_spared))
}

/// The scene of the text, and a fresh store.
fn before_opening<S: CkptStore + Fresh + Drop>(alloc: Global, text: &[u8]) -> Result<Given, Fail> {
    let mut store = S::fresh(alloc)?;
    let counts = Counts::of(&store);
    let held = stored(alloc, &mut store)?;
    let scenario = scenario(alloc, text)?;
    let scene = format!(in alloc; "{:?}", scenario.scene)?;
    Ok(Given {
        scene,
        held,
        counts,
    })
}

/// Opens the scene of the text with each growth refused in turn, each time over a fresh store.
pub(crate) fn opened_in_turn<S: CkptStore + Fresh + Drop>(
    rt: &HostRuntime,
    alloc: Global,
    text: &[u8],
) -> Result<(), Fail> {
    let given = before_opening::<S>(alloc, text)?;
    let mut turns = Turns::new("open");
    for number in 1..MOST {
        let (opened, is_spared) = opened_once::<S>(alloc, text, number)?;
        match opened {
            Ok(world) => {
                let is_counted = Counts::of_world(&world) == given.counts;
                turns.hold(rt, is_counted, "what the store counts")?;
                if is_spared {
                    return turns.end(rt, number);
                }
                turns.bear();
            }
            Err(refused) => {
                let is_right = opens_again(alloc, refused, &given)?;
                turns.hold(rt, is_right, "what was left")?;
            }
        }
    }
    Err(never())
}

/// The world in which these steps were made.
pub(crate) fn played<S: CkptStore + Fresh + Drop>(
    alloc: Global,
    text: &[u8],
    steps: &[Step],
) -> Result<World<S>, Fail> {
    let Scenario { scene, .. } = scenario(alloc, text)?;
    let opened = World::open(alloc, scene, S::fresh(alloc)?);
    let mut world = opened.ok().ok_or("a world")?;
    for step in steps {
        world.step(alloc, *step)?;
    }
    Ok(world)
}

/// A step of a scenario, and those before it.
#[derive(Clone, Copy)]
pub(crate) struct Moment<'a> {
    pub(crate) text: &'a [u8],
    pub(crate) before: &'a [Step],
    pub(crate) step: Step,
}

/// What the world shows and the store holds, before a step and after it.
#[derive(Drop)]
struct Sides {
    shown: Vec<u8>,
    held: Vec<u8>,
    shown_after: Vec<u8>,
    held_after: Vec<u8>,
}

/// Makes the step with the growth of this number refused, and says whether there was none such.
fn step_refused<S: CkptStore>(
    alloc: Global,
    world: &mut World<S>,
    step: Step,
    number: usize,
) -> Result<(Result<(), StepError>, bool), Fail> {
    refuse(alloc, number)?;
    let made = world.step(alloc, step);
    Ok((made, was_spared(alloc, number)?))
}

impl Moment<'_> {
    /// The world that is opened, before any step.
    pub(crate) fn opened<S: CkptStore + Fresh + Drop>(
        &self,
        alloc: Global,
    ) -> Result<World<S>, Fail> {
        played(alloc, self.text, &[])
    }

    /// A world before the step.
    pub(crate) fn world<S: CkptStore + Fresh + Drop>(
        &self,
        alloc: Global,
    ) -> Result<World<S>, Fail> {
        played(alloc, self.text, self.before)
    }

    /// A world after the step.
    fn world_after<S: CkptStore + Fresh + Drop>(&self, alloc: Global) -> Result<World<S>, Fail> {
        let mut world = self.world::<S>(alloc)?;
        world.step(alloc, self.step)?;
        Ok(world)
    }

    fn shown<S: CkptStore + Fresh + Drop>(&self, alloc: Global) -> Result<Vec<u8>, Fail> {
        let world = self.world::<S>(alloc)?;
        seen(alloc, &world)
    }

    fn held<S: CkptStore + Fresh + Drop>(&self, alloc: Global) -> Result<Vec<u8>, Fail> {
        let mut store = self.world::<S>(alloc)?.into_store();
        stored(alloc, &mut store)
    }

    /// What a world shows after the step.
    pub(crate) fn shown_after<S: CkptStore + Fresh + Drop>(
        &self,
        alloc: Global,
    ) -> Result<Vec<u8>, Fail> {
        let world = self.world_after::<S>(alloc)?;
        seen(alloc, &world)
    }

    fn held_after<S: CkptStore + Fresh + Drop>(&self, alloc: Global) -> Result<Vec<u8>, Fail> {
        let mut store = self.world_after::<S>(alloc)?.into_store();
        stored(alloc, &mut store)
    }

    fn sides<S: CkptStore + Fresh + Drop>(&self, alloc: Global) -> Result<Sides, Fail> {
        Ok(Sides {
            shown: self.shown::<S>(alloc)?,
            held: self.held::<S>(alloc)?,
            shown_after: self.shown_after::<S>(alloc)?,
            held_after: self.held_after::<S>(alloc)?,
        })
    }

    /// The world in which the step was refused for memory is as it was, and makes the step with memory.
    fn goes_on<S: CkptStore>(
        &self,
        alloc: Global,
        world: &mut World<S>,
        error: StepError,
        shown: &[u8],
    ) -> Result<bool, Fail> {
        let is_same = shows(alloc, world, shown)?;
        let is_made = world.step(alloc, self.step).is_ok();
        Ok(is_of_memory(self.step, error) && is_same && is_made)
    }

    /// Makes the step with the growth of this number refused, and then with memory, in a world of its own. Only a
    /// refusal of the store is counted. Says whether there was no such growth.
    fn made_once<S: CkptStore + Fresh + Drop>(
        &self,
        rt: &HostRuntime,
        alloc: Global,
        sides: &Sides,
        turns: &mut Turns,
        number: usize,
    ) -> Result<bool, Fail> {
        let mut world = self.world::<S>(alloc)?;
        let before = Counts::of_world(&world);
        let (made, is_spared) = step_refused(alloc, &mut world, self.step, number)?;
        let counts = before.after_step(made);
        turns.hold(
            rt,
            Counts::of_world(&world) == counts,
            "what the store counts",
        )?;
        match made {
            Ok(()) if is_spared => {}
            Ok(()) => turns.bear(),
            Err(error) => {
                let is_right = self.goes_on(alloc, &mut world, error, &sides.shown)?;
                turns.hold(rt, is_right, "refused otherwise, or not as it was")?;
            }
        }
        let is_counted = Counts::of_world(&world) == counts;
        let is_same = shows(alloc, &world, &sides.shown_after)? && is_counted;
        let is_same = leaves(alloc, world, &sides.held_after)? && is_same;
        turns.hold(rt, is_same, "the world after it")?;
        Ok(is_spared)
    }

    /// Makes the step with the growth of this number refused. The store that is left holds what it held, or, where the
    /// step was made all the same, what it holds after it. Says whether there was no such growth.
    fn keeps_once<S: CkptStore + Fresh + Drop>(
        &self,
        rt: &HostRuntime,
        alloc: Global,
        sides: &Sides,
        turns: &Turns,
        number: usize,
    ) -> Result<bool, Fail> {
        let mut world = self.world::<S>(alloc)?;
        let (made, is_spared) = step_refused(alloc, &mut world, self.step, number)?;
        let is_same = match made {
            Ok(()) => leaves(alloc, world, &sides.held_after)?,
            Err(_) => leaves(alloc, world, &sides.held)?,
        };
        turns.hold(rt, is_same, "the store")?;
        Ok(is_spared)
    }

    /// Makes the step with each growth refused in turn. Where it is refused, world and store are as they were, and the
    /// step can be made with memory.
    pub(crate) fn made_in_turn<S: CkptStore + Fresh + Drop>(
        &self,
        rt: &HostRuntime,
        alloc: Global,
    ) -> Result<(), Fail> {
        let sides = self.sides::<S>(alloc)?;
        let mut turns = Turns::new(word(self.step));
        for number in 1..MOST {
            self.keeps_once::<S>(rt, alloc, &sides, &turns, number)?;
            if self.made_once::<S>(rt, alloc, &sides, &mut turns, number)? {
                return turns.end(rt, number);
            }
        }
        Err(never())
    }

    /// Asks whether the step is enabled, with the growth of this number refused. Says what is answered where the world
    /// is as it was then and just a refusal of the store was counted, and whether there was no such growth.
    fn can_once<S: CkptStore + Fresh + Drop>(
        &self,
        alloc: Global,
        shown: &[u8],
        number: usize,
    ) -> Result<(Option<Result<bool, StoreError>>, bool), Fail> {
        let mut world = self.world::<S>(alloc)?;
        let before = Counts::of_world(&world);
        refuse(alloc, number)?;
        let answer = world.can(alloc, self.step);
        let is_spared = was_spared(alloc, number)?;
        let is_counted = Counts::of_world(&world) == before.after_call(&answer);
        let is_same = shows(alloc, &world, shown)? && is_counted;
        Ok((is_same.then_some(answer), is_spared))
    }

    /// Asks whether the step is enabled, which it is, with each growth refused in turn. The answer is yes too where
    /// memory for its plan is wanting, and a refusal of the store's where that wants it. The world is as it was.
    pub(crate) fn can_be_made<S: CkptStore + Fresh + Drop>(
        &self,
        rt: &HostRuntime,
        alloc: Global,
    ) -> Result<(), Fail> {
        let shown = self.shown::<S>(alloc)?;
        let mut turns = Turns::new("can");
        for number in 1..MOST {
            match self.can_once::<S>(alloc, &shown, number)? {
                (Some(Ok(true)), true) => return turns.end(rt, number),
                (Some(Ok(true)), false) => turns.bear(),
                (Some(Err(StoreError::Memory)), false) => {}
                _ => turns.hold(rt, false, "another answer, or the world")?,
            }
        }
        Err(never())
    }

    /// What a world shows without memory it shows with every growth refused, and asks for none.
    pub(crate) fn is_read<S: CkptStore + Fresh + Drop>(
        &self,
        rt: &HostRuntime,
        alloc: Global,
    ) -> Result<(), Fail> {
        let world = self.world::<S>(alloc)?;
        let expected = read(&world);
        refuse_all(alloc)?;
        let answer = read(&world);
        let is_without = asked_for_none(alloc)?;
        let turns = Turns::new("readers");
        turns.hold(
            rt,
            is_without && answer == expected,
            "a growth, or another answer",
        )
    }
}
