//! Worked scenarios with checkpoints and failures.

use crate::scene_size::SceneSize;
use crate::finding::Finding;
use crate::lines::step;
use crate::scripts::script;
use kt_core::{Scene, Step};
use std::alloc::Global;

/// Who takes part, and the steps.
#[derive(Clone, Copy)]
pub struct Scenario {
    pub size: SceneSize,
    pub scripts: &'static [&'static [&'static str]],
    pub steps: &'static [&'static str],
}

impl Scenario {
    /// The scene in which it is played.
    pub fn scene(&self, alloc: Global) -> Result<Scene, Finding> {
        let mut scripts = Vec::new(alloc);
        for texts in self.scripts {
            scripts.push(script(alloc, texts)?)?;
        }
        Scene::new(self.size.shards, scripts).ok_or(Finding::NotMade("a scene"))
    }

    /// Its first steps, so many of them at most.
    pub fn first(&self, alloc: Global, count: usize) -> Result<Vec<Step>, Finding> {
        let mut steps = Vec::new(alloc);
        for line in self.steps.iter().take(count) {
            steps.push(step(line)?)?;
        }
        Ok(steps)
    }
}

/// A worker and a shard take a checkpoint together.
pub const CHECKPOINT_OF_TWO: Scenario = Scenario {
    size: SceneSize {
        workers: 1,
        shards: 1,
    },
    scripts: &[&["out (\"a\", 1)"]],
    steps: &[
        "issue w1",
        "deliver w1 s1",
        "serve s1 w1 0",
        "deliver s1 w1",
        "check w1",
        "deliver w1 s1",
        "deliver s1 w1",
        "deliver w1 s1",
        "deliver s1 w1",
        "decide w1",
        "learn w1",
        "deliver w1 s1",
        "deliver s1 w1",
    ],
};

/// A shard fails when its check has Yes, and learns it.
pub const FAILS_AFTER_YES: Scenario = Scenario {
    size: SceneSize {
        workers: 1,
        shards: 1,
    },
    scripts: &[&["out (\"a\", 1)"]],
    steps: &[
        "issue w1",
        "deliver w1 s1",
        "serve s1 w1 0",
        "deliver s1 w1",
        "check w1",
        "deliver w1 s1",
        "deliver s1 w1",
        "deliver w1 s1",
        "deliver s1 w1",
        "decide w1",
        "fail s1",
        "learn s1",
        "restart s1",
    ],
};

/// A reply is kept during a check; then the shard fails, and the kept reply is dropped.
pub const KEPT_REPLY_DROPPED: Scenario = Scenario {
    size: SceneSize {
        workers: 1,
        shards: 1,
    },
    scripts: &[&["out (\"a\", 1)"]],
    steps: &[
        "issue w1",
        "deliver w1 s1",
        "serve s1 w1 0",
        "check w1",
        "deliver s1 w1",
        "fail s1",
        "restart s1",
        "deliver s1 w1",
        "abandon w1",
        "learn w1",
    ],
};

/// Worker and shard fail, roll each other back, and the worker asks again.
pub const BOTH_FAIL: Scenario = Scenario {
    size: SceneSize {
        workers: 1,
        shards: 1,
    },
    scripts: &[&["out (\"a\", 1)"]],
    steps: &[
        "issue w1",
        "fail w1",
        "fail s1",
        "restart w1",
        "restart s1",
        "deliver w1 s1",
        "deliver w1 s1",
        "deliver s1 w1",
        "deliver s1 w1",
        "decide w1",
        "deliver w1 s1",
        "decide s1",
        "issue w1",
        "deliver w1 s1",
        "deliver w1 s1",
        "serve s1 w1 0",
    ],
};

/// A worker's checkpoint holds a request, of which its shard learns again after the worker failed.
pub const REQUEST_IN_CHECKPOINT: Scenario = Scenario {
    size: SceneSize {
        workers: 1,
        shards: 1,
    },
    scripts: &[&["out (\"a\", 1)"]],
    steps: &[
        "issue w1",
        "check w1",
        "decide w1",
        "learn w1",
        "deliver w1 s1",
        "serve s1 w1 0",
        "deliver s1 w1",
        "fail w1",
        "restart w1",
        "deliver w1 s1",
        "deliver s1 w1",
        "decide w1",
        "repeat w1",
        "deliver w1 s1",
        "deliver w1 s1",
        "deliver s1 w1",
    ],
};

/// Two checks that overlap, of which none succeeds.
pub const OVERLAPPING_INSTANCES: Scenario = Scenario {
    size: SceneSize {
        workers: 2,
        shards: 1,
    },
    scripts: &[&["out (\"a\", 1)"], &["out (\"b\")"]],
    steps: &[
        "issue w1",
        "deliver w1 s1",
        "serve s1 w1 0",
        "deliver s1 w1",
        "issue w2",
        "deliver w2 s1",
        "serve s1 w2 0",
        "deliver s1 w2",
        "check w1",
        "check w2",
        "deliver w1 s1",
        "deliver w2 s1",
        "deliver s1 w1",
        "deliver s1 w2",
        "deliver s1 w2",
        "decide w2",
        "deliver w1 s1",
        "deliver w2 s1",
        "deliver s1 w1",
        "decide w1",
        "learn w1",
        "learn w2",
        "learn s1",
    ],
};

/// A failed worker's rollback reaches who depends on what it put, and nobody else.
pub const CASCADE: Scenario = Scenario {
    size: SceneSize {
        workers: 3,
        shards: 3,
    },
    scripts: &[
        &["out (1, 2)"],
        &["in (?int, ?int)", "out (5)"],
        &["out (\"z\")"],
    ],
    steps: &[
        "issue w1",
        "deliver w1 s1",
        "serve s1 w1 0",
        "issue w2",
        "deliver w2 s1",
        "serve s1 w2 0",
        "deliver s1 w2",
        "issue w2",
        "deliver w2 s2",
        "serve s2 w2 0",
        "issue w3",
        "deliver w3 s3",
        "serve s3 w3 0",
        "fail w1",
        "restart w1",
        "deliver w1 s1",
        "deliver w1 s2",
        "deliver w1 s3",
        "deliver s1 w1",
        "deliver s1 w1",
        "deliver s1 w2",
        "deliver s1 w3",
        "deliver w2 s1",
        "deliver w2 s2",
        "deliver w2 s3",
        "deliver s2 w1",
        "deliver s2 w1",
        "deliver s2 w2",
        "deliver s2 w2",
        "deliver s2 w3",
        "deliver w1 s2",
        "deliver w2 s2",
        "deliver w3 s2",
        "deliver s2 w2",
        "deliver s1 w2",
        "deliver s3 w2",
        "deliver w1 s1",
        "deliver w3 s1",
        "deliver w2 s1",
        "deliver s1 w1",
        "deliver s3 w1",
        "decide w1",
        "learn s1",
        "learn w2",
        "learn s2",
    ],
};

/// Three workers over two shards: one puts what the two others take and read, and two checks go on meanwhile, of which
/// one reaches both shards.
pub const THREE_OVER_TWO: Scenario = Scenario {
    size: SceneSize {
        workers: 3,
        shards: 2,
    },
    scripts: &[
        &["out (\"a\", 1)", "out (\"b\")", "rd (\"a\")"],
        &["in (\"a\", ?int)", "out (\"a\")"],
        &["rd (\"b\")", "inp (\"a\", 1)"],
    ],
    steps: &[
        "issue w1",
        "issue w2",
        "issue w3",
        "deliver w1 s2",
        "deliver w2 s2",
        "deliver w3 s1",
        "serve s2 w1 0",
        "serve s2 w2 0",
        "deliver s2 w1",
        "issue w1",
        "deliver w1 s1",
        "check w1",
        "serve s1 w1 0",
        "serve s1 w3 0",
        "deliver s2 w2",
        "deliver w1 s2",
        "deliver s1 w3",
        "issue w2",
        "check w3",
        "deliver w2 s1",
        "serve s1 w2 0",
        "deliver s2 w1",
        "deliver s2 w2",
        "deliver w3 s1",
    ],
};
