//! Scenes that are drawn, and what is looked for.

use kt_core::{Scene, Step};
use kt_scene::{Scenario, WorkKind, read_scene};
use kt_story::Story;
use std::alloc::Global;
use std::test::Fail;

/// A shard fails with what it served in its memory alone.
pub const LOSES: &str = "linda-kt 1
shards 1
worker
out (\"<\", 1)
steps
issue w1
deliver w1 s1
serve s1 w1 0
fail s1
end
";

/// A worker puts a tuple and takes it.
pub const PUT_AND_TAKE: &str = "linda-kt 1
shards 1
worker
out (\"a\", 1)
in (\"a\", ?int x)
steps
issue w1
deliver w1 s1
serve s1 w1 0
deliver s1 w1
issue w1
deliver w1 s1
serve s1 w1 0
end
";

/// The second worker asks for what nobody has, and the third step cannot be made.
pub const REFUSED: &str = "linda-kt 1
shards 1
worker
out (\"a\", 1)
worker
in (\"b\", ?int x)
steps
issue w2
deliver w2 s1
serve s1 w2 0
end
";

pub const NO_STEPS: &str = "linda-kt 1\nshards 1\nworker\nout (1)\nsteps\nend\n";

/// The scene and the steps that the text spells.
pub fn read(alloc: Global, text: &str) -> Result<(Scene, Vec<Step>), Fail> {
    let scenario = read_scene(alloc, text.as_bytes(), WorkKind::Steps).ok();
    let Scenario { scene, work } = scenario.ok_or("a scenario")?;
    Ok((scene, Vec::from_slice(alloc, work.steps())?))
}

pub fn story_of(alloc: Global, text: &str) -> Result<Story, Fail> {
    let (scene, steps) = read(alloc, text)?;
    Ok(Story::of(alloc, scene, &steps)?)
}

/// How often the part stands in the text.
pub fn count_of(text: &[u8], part: &str) -> usize {
    let mut count = 0usize;
    for start in 0..text.len() {
        if text[start..].starts_with(part.as_bytes()) {
            count = count.saturating_add(1);
        }
    }
    count
}

/// Whether the parts stand in the text in this order, none within the one before.
pub fn has_all(text: &[u8], parts: &[&str]) -> bool {
    let mut rest = text;
    for part in parts {
        let mut found = None;
        for start in 0..rest.len() {
            if found.is_none() && rest[start..].starts_with(part.as_bytes()) {
                found = Some(start);
            }
        }
        match found {
            Some(start) => rest = &rest[start + part.len()..],
            None => return false,
        }
    }
    true
}
