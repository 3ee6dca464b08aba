//! Many orders of the steps of three requests.

use crate::making::{SHARD_1, opened, scripts};
use crate::texts::space_texts;
use kt_core::{Step, StepError};
use kt_tuple::NodeId;
use kt_walk::draws::Draws;
use kt_walk::finding::Finding;
use kt_walk::fronts::agrees;
use kt_walk::scenes::Game;
use kt_walk::slowly::Pasts;
use std::alloc::Global;
use std::process::Abort;
use std::test::Fail;

/// How many steps are drawn from: five of each of three workers, and two of one that is not there.
const STEPS: u64 = 17;

/// The step of this number.
fn step_of(number: u64) -> Step {
    let worker = NodeId::Worker(match number / 5 {
        0 => 1,
        1 => 2,
        2 => 3,
        _ => 4,
    });
    match number % 5 {
        0 => Step::Issue { node: worker },
        1 => Step::Deliver {
            from: worker,
            to: SHARD_1,
        },
        2 => Step::Deliver {
            from: SHARD_1,
            to: worker,
        },
        place => Step::Serve {
            shard: SHARD_1,
            worker,
            place: place - 3,
        },
    }
}

/// Makes a step that is allowed, and answers whether there was one. All are tried, in an order that is drawn.
fn make_one(alloc: Global, world: &mut Game, draws: &mut Draws) -> Result<bool, Fail> {
    let first = draws.below(STEPS);
    let stride = 1 + draws.below(STEPS - 1);
    for turn in 0..STEPS {
        let step = step_of((first + turn * stride) % STEPS);
        match world.step(alloc, step) {
            Ok(()) => return Ok(true),
            Err(StepError::OutOfMemory) => return Err(Fail::from("memory")),
            Err(_) => {}
        }
    }
    Ok(false)
}

/// One worker takes what two others put.
const WORKERS: [&[&str]; 3] = [&["in (?str)"], &["out (\"a\")"], &["out (\"b\")"]];

/// The world after at most so many steps.
fn played(alloc: Global, draws: &mut Draws, most: u64) -> Result<Game, Fail> {
    let mut world = opened(alloc, 1, scripts(alloc, &WORKERS)?)?;
    for _ in 0..most {
        if !make_one(alloc, &mut world, draws)? {
            break;
        }
    }
    Ok(world)
}

/// Whether the second tuple is the one that is left.
fn second_is_left(rt: &impl Abort, alloc: Global, world: &Game) -> Result<bool, Fail> {
    let left = space_texts(alloc, world)?;
    assert!(rt; left.len() == 1);
    Ok(left.iter().any(|text| text.as_str() == "(\"b\")"))
}

/// How many services survive, of a world that is as the definitions say.
fn survivors(alloc: Global, world: &Game) -> Result<usize, Finding> {
    let mut pasts = Pasts::new(alloc)?;
    pasts.go_on(alloc, world.history().notes())?;
    agrees(alloc, world, &pasts)
}

/// Plays to the end: each request is asked, heard, served and answered. Whether the second tuple is left.
fn play_all(rt: &impl Abort, alloc: Global, draws: &mut Draws) -> Result<bool, Fail> {
    let world = played(alloc, draws, 100)?;
    assert!(rt; survivors(alloc, &world)? == 3);
    assert!(rt; world.history().notes().len() == 12);
    second_is_left(rt, alloc, &world)
}

/// Plays a front.
fn play_some(alloc: Global, draws: &mut Draws) -> Result<(), Fail> {
    let most = draws.below(12);
    let world = played(alloc, draws, most)?;
    survivors(alloc, &world)?;
    Ok(())
}

/// 250 whole orders and as many that are cut short, in turn; both tuples are taken.
#[test]
fn orders(rt: HostRuntime) -> Result<(), Fail> {
    let mut draws = Draws::of(20_250_101);
    let mut second = 0u32;
    for _ in 0..250u32 {
        second = second.saturating_add(u32::from(play_all(&rt, rt.alloc(), &mut draws)?));
        play_some(rt.alloc(), &mut draws)?;
    }
    assert!(rt; 50 < second && second < 200, "{second}");
    Ok(())
}
