//! No wake is lost: after each step of random schedules each node that sleeps, and was not woken, has no next step.
//! A lost wake would hang no run and end none, since the last that would sleep looks at all; so no run can show it.

use crate::locked_journal::LockedJournal;
use crate::stage::{Flags, RunState};
use crate::{Naming, Seat, Stage, node_count};
use kt_core::{Fault, FaultKind, Faults, Scene, Script, World};
use kt_script::{Actual, Actuals, Command, Operation, Pattern, Slot};
use kt_store::{CkptStore, MemStore};
use kt_tuple::{Kind, MAX_NODES, NodeId, Value};
use std::alloc::Global;
use std::marker::Brand;
use std::process::Abort;
use std::sync::Wait;
use std::sync::ledger::Blank;
use std::test::Fail;

/// How many random scenes, and how many schedules of each.
const SCENES: u64 = 60;
const SCHEDULES: u64 = 4;

/// How many steps all schedules come to at least.
const LEAST_STEPS: u64 = 10_000;

/// How many wakes are seen at least.
const LEAST_WOKEN: u64 = 4_000;

/// A generator of numbers that look random (Knuth, "The Art of Computer Programming", volume 2, section 3.3.4).
#[derive(Drop)]
struct Draws(u64);

impl Draws {
    fn below(&mut self, bound: u64) -> u64 {
        self.0 = self
            .0
            .wrapping_mul(6_364_136_223_846_793_005)
            .wrapping_add(1_442_695_040_888_963_407);
        (self.0 >> 33) % bound
    }
}

/// What was seen.
#[derive(Clone, Copy, Debug)]
struct Seen {
    steps: u64,
    woken: u64,
    lost: u64,
}

/// A tuple of one number is put or taken, read or asked for.
fn command(alloc: Global, draws: &mut Draws) -> Result<Command, Fail> {
    let number = Value::Int(draws.below(3) as i64);
    if draws.below(2) == 0 {
        let mut actuals = Vec::new(alloc);
        actuals.push(Actual::Literal(number))?;
        let actuals = Actuals::new(actuals).ok_or("actuals")?;
        return Ok(Command::Ask(Operation::Out(actuals)));
    }
    let mut slots = Vec::new(alloc);
    slots.push(if draws.below(2) == 0 {
        Slot::Formal(Kind::Int, None)
    } else {
        Slot::Actual(Actual::Literal(number))
    })?;
    let pattern = Pattern::new(slots).ok_or("a pattern")?;
    Ok(Command::Ask(match draws.below(4) {
        0 => Operation::In(pattern),
        1 => Operation::Rd(pattern),
        2 => Operation::Inp(pattern),
        _ => Operation::Rdp(pattern),
    }))
}

fn scene(alloc: Global, draws: &mut Draws) -> Result<Scene, Fail> {
    let mut scripts = Vec::new(alloc);
    for _ in 0..1 + draws.below(4) {
        let mut script = Script::new(alloc);
        for _ in 0..1 + draws.below(8) {
            script.push(command(alloc, draws)?).ok().ok_or("a command")?;
        }
        scripts.push(script)?;
    }
    Ok(Scene::new(1 + draws.below(4) as u8, scripts).ok_or("a scene")?)
}

/// Up to ten fault lines of these nodes.
fn faults(alloc: Global, draws: &mut Draws, nodes: &[NodeId]) -> Result<Faults, Fail> {
    let mut faults = Faults::new(alloc);
    for _ in 0..draws.below(11) {
        let kind = if draws.below(2) == 0 { FaultKind::Fail } else { FaultKind::Check };
        let node = nodes[draws.below(nodes.len() as u64) as usize];
        faults.push(Fault { kind, node, after: 1 + draws.below(20) })?;
    }
    Ok(faults)
}

/// How many nodes sleep that have a next step.
fn lost<S: CkptStore, L: Naming>(
    alloc: Global,
    locked: &mut LockedJournal<S, L>,
    faults: &Faults,
    nodes: &[NodeId],
    asleep: &Flags,
) -> Result<u64, Fail> {
    let mut lost = 0;
    for (place, node) in nodes.iter().enumerate() {
        if asleep[place] {
            let next = locked.next_for(alloc, faults, *node);
            if next.ok().ok_or("the store is asked")?.is_some() {
                lost += 1;
            }
        }
    }
    Ok(lost)
}

/// A node that does not sleep, drawn at random; none where all sleep.
fn awake(draws: &mut Draws, count: usize, asleep: &Flags) -> Option<usize> {
    let left = asleep.iter().take(count).filter(|sleeps| !**sleeps).count() as u64;
    if left == 0 {
        return None;
    }
    let drawn = draws.below(left) as usize;
    (0..count).filter(|place| !asleep[*place]).nth(drawn)
}

/// One schedule: a node that is awake makes some of its steps, or falls asleep where it has none, until all sleep.
fn take_turns<S: CkptStore, L: Naming>(
    alloc: Global,
    run_state: &mut RunState<S, L>,
    seats: &mut [Seat<L>],
    nodes: &[NodeId],
    draws: &mut Draws,
    seen: &mut Seen,
) -> Result<(), Fail> {
    while let Some(place) = awake(draws, nodes.len(), &run_state.asleep) {
        for _ in 0..1 + draws.below(3) {
            let next = run_state.locked.next_for(alloc, &run_state.faults, nodes[place]);
            let Some(step) = next.ok().ok_or("the store is asked")? else {
                run_state.asleep[place] = true;
                break;
            };
            let mut woken = [false; MAX_NODES];
            let made = run_state.act(alloc, &mut seats[place], step, nodes, &mut woken);
            made.ok().ok_or("a next step is made")?;
            run_state.faults.spend(&step);
            seen.steps += 1;
            seen.woken += woken.iter().filter(|is_one| **is_one).count() as u64;
            seen.lost += lost(alloc, &mut run_state.locked, &run_state.faults, nodes, &run_state.asleep)?;
        }
    }
    Ok(())
}

fn play_all<L: Naming>(
    alloc: Global,
    world: World<MemStore>,
    blank: Blank,
    draws: &mut Draws,
    seen: &mut Seen,
) -> Result<(), Fail> {
    let (mut stage, mut seats) = Stage::<MemStore, L>::open(alloc, world, blank)?;
    let Stage { run_state, nodes, .. } = &mut stage;
    let run_state = run_state.get_mut();
    run_state.faults = faults(alloc, draws, nodes)?;
    take_turns(alloc, run_state, &mut seats, nodes, draws, seen)
}

#[test]
fn no_wake_is_lost(rt: HostRuntime) -> Result<(), Fail> {
    let alloc = rt.alloc();
    let mut seen = Seen { steps: 0, woken: 0, lost: 0 };
    for seed in 0..SCENES {
        for schedule in 0..SCHEDULES {
            let scene = scene(alloc, &mut Draws(seed))?;
            let world = World::open(alloc, scene, MemStore::new(alloc)).ok().ok_or("a world")?;
            let blank = Blank::new(node_count(&world));
            let mut draws = Draws(1_000_003 * seed + schedule);
            play_all::<Brand>(alloc, world, blank, &mut draws, &mut seen)?;
        }
    }
    assert!(rt; seen.lost == 0, "{seen:?}");
    assert!(rt; LEAST_STEPS <= seen.steps && LEAST_WOKEN <= seen.woken, "{seen:?}");
    Ok(())
}
