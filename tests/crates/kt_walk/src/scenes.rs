//! Random scenes. Each is told by its seed.

use crate::scene_size::SceneSize;
use crate::draws::Draws;
use crate::finding::Finding;
use crate::scripts::command;
use crate::variables::{WITH_VARIABLE, with_variable};
use kt_core::{Scene, World};
use kt_script::{Command, Script};
use kt_store::MemStore;
use kt_tuple::MAX_WORKERS;
use std::alloc::Global;

/// A world over a store in memory.
pub type Game = World<MemStore>;

/// How many commands are drawn for a worker of a walk.
const COMMANDS: u32 = 24;

/// How many workers, and how many shards, a walk has at most, where it has not many workers.
const MOST: u8 = 3;

/// Where there are many workers, there are more than so many.
const FEW: u8 = 8;

/// Tuples of nine signatures are put, one of them of as many places as there may be.
const PUTS: [&str; 11] = [
    "out (\"a\")",
    "out (\"b\")",
    "out (5)",
    "out (\"a\", 1)",
    "out (1, 2)",
    "out (\"a\", \"b\", 1)",
    "out (true)",
    "out (false)",
    "out (true, 1)",
    "out (1, 2, 3, 4, 5, 6, 7, 8, 9)",
    "out (1, true, \"c\", 4, false, \"f\", 7, true, \"i\", 10, false, \"l\", 13, true, \"o\", 16)",
];

/// Each template matches one of these tuples or two.
const OTHERS: [&str; 23] = [
    "in (?str)",
    "in (?int)",
    "rd (?str)",
    "rd (?int)",
    "inp (?str)",
    "inp (\"b\")",
    "inp (?int)",
    "inp (\"a\", ?int)",
    "inp (?int, 2)",
    "inp (?str, ?str, 1)",
    "rdp (?str)",
    "rdp (?int)",
    "rdp (\"a\", ?int)",
    "rdp (?int, 2)",
    "in (?bool)",
    "rd (?bool)",
    "inp (false)",
    "inp (?bool, 1)",
    "rdp (true, ?int)",
    "inp (?int, 2, 3, 4, 5, 6, 7, 8, ?int)",
    "rd (?int, ?bool, \"c\", 4, false, ?str, 7, true, \"i\", 10, ?bool, \"l\", 13, true, \"o\", ?int)",
    "unless 1",
    "unless 2",
];

/// One of these texts.
fn one_of(draws: &mut Draws, texts: &[&'static str]) -> &'static str {
    let place = draws.below((texts.len() as u64).max(1)) as usize;
    match texts.get(place) {
        Some(text) => text,
        None => "",
    }
}

/// A command; half of them put a tuple, and every sixth has a variable.
fn random_command(alloc: Global, draws: &mut Draws) -> Result<Command, Finding> {
    match draws.below(6) {
        0 => with_variable(alloc, draws.below(WITH_VARIABLE)),
        1..=3 => command(alloc, one_of(draws, &PUTS)),
        _ => command(alloc, one_of(draws, &OTHERS)),
    }
}

/// A script; commands that may not follow those before them are left out.
fn random_script(alloc: Global, draws: &mut Draws, commands: u32) -> Result<Script, Finding> {
    let mut script = Script::new(alloc);
    for _ in 0..commands {
        let command = random_command(alloc, draws)?;
        if script.refusal_of(&command).is_none() {
            script.push(command).ok().ok_or(Finding::OutOfMemory)?;
        }
    }
    Ok(script)
}

/// A scene of this size, with so many commands at most for each worker.
fn random_scene(
    alloc: Global,
    draws: &mut Draws,
    size: SceneSize,
    commands: u32,
) -> Result<Scene, Finding> {
    let mut scripts = Vec::new(alloc);
    for _ in 0..size.workers {
        scripts.push(random_script(alloc, draws, commands)?)?;
    }
    Scene::new(size.shards, scripts).ok_or(Finding::NotMade("a scene"))
}

/// One to so many workers, and one to so many shards.
fn few(draws: &mut Draws, most: u8) -> SceneSize {
    let (workers, shards) = (draws.number_to(most), draws.number_to(most));
    SceneSize { workers, shards }
}

/// The same; but a third of them has more than `FEW` workers, up to as many as there may be.
fn few_or_many(draws: &mut Draws, most: u8) -> SceneSize {
    let mut size = few(draws, most);
    if draws.below(3) == 0 {
        size.workers = FEW.saturating_add(draws.number_to(MAX_WORKERS.saturating_sub(FEW)));
    }
    size
}

/// Who takes part in the scene of this seed that has at most so many workers and so many shards, or many workers.
pub fn size_up_to(most: u8, seed: u64) -> SceneSize {
    few_or_many(&mut Draws::of(seed), most)
}

/// The scene of this seed that has at most so many workers and so many shards, or many workers.
pub fn scene_up_to(alloc: Global, most: u8, seed: u64) -> Result<Scene, Finding> {
    let mut draws = Draws::of(seed);
    let size = few_or_many(&mut draws, most);
    random_scene(alloc, &mut draws, size, COMMANDS)
}

/// The scene of this seed that has at most as many workers and shards as a walk with few, of so many commands at most.
pub fn short_scene_of(alloc: Global, commands: u32, seed: u64) -> Result<Scene, Finding> {
    let mut draws = Draws::of(seed);
    let size = few(&mut draws, MOST);
    random_scene(alloc, &mut draws, size, commands)
}

/// Who takes part in the walk of this seed.
pub fn size_of(seed: u64) -> SceneSize {
    size_up_to(MOST, seed)
}

/// The scene of the walk of this seed.
pub fn scene_of(alloc: Global, seed: u64) -> Result<Scene, Finding> {
    scene_up_to(alloc, MOST, seed)
}
