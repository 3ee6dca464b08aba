//! Cases as texts: what a node did, and what comes of each step then.

use crate::line::Line;
use crate::solo::{Setting, Solo};
use kt_tuple::NodeId;
use std::alloc::Global;
use std::process::Abort;
use std::test::Fail;

/// A worker with two shards. The home of `(1, 1)` is s1, that of `(1)` is s2.
pub(crate) const WORKER_1: Setting = Setting {
    id: NodeId::Worker(1),
    peers: 2,
    script: &["out (1, 1)", "out (1)", "in (?int, ?int)", "in (?int)"],
};

/// A shard with two workers.
pub(crate) const SHARD_1: Setting = Setting {
    id: NodeId::Shard(1),
    peers: 2,
    script: &[],
};

/// A worker with one shard that has nothing to do.
pub(crate) const IDLE: Setting = Setting {
    id: NodeId::Worker(2),
    peers: 1,
    script: &[],
};

/// A case that is played.
#[derive(Drop)]
struct Play<'a> {
    solo: Solo,
    step: &'a str,
    found: String,
    expected: Line,
}

/// Each case comes out as it says. Cases have an empty line between them, and each begins with a node that has done
/// nothing. In a line behind `. ` stand steps, with `; ` between them, of which none is refused. A line behind `> ` has
/// one step, and the lines below it say what comes of it: what is sent, the note, the write of the store, and how the
/// node stands then; or the refusal.
pub(crate) fn tells(
    rt: &impl Abort,
    alloc: Global,
    setting: Setting,
    text: &str,
) -> Result<(), Fail> {
    for case in text.split("\n\n") {
        let solo = setting.open(alloc)?;
        tells_of(rt, alloc, solo, case)?;
    }
    Ok(())
}

/// The case comes out as it says, which begins with this node.
pub(crate) fn tells_of(rt: &impl Abort, alloc: Global, solo: Solo, case: &str) -> Result<(), Fail> {
    let mut play = Play {
        solo,
        step: "",
        found: String::new(alloc),
        expected: Line::new(alloc),
    };
    for line in case.lines() {
        play.line(rt, alloc, line.trim())?;
    }
    play.settle(rt, alloc)
}

impl<'a> Play<'a> {
    fn line(&mut self, rt: &impl Abort, alloc: Global, line: &'a str) -> Result<(), Fail> {
        if let Some(steps) = line.strip_prefix(". ") {
            self.settle(rt, alloc)?;
            self.solo.does(rt, alloc, steps)
        } else if let Some(step) = line.strip_prefix("> ") {
            self.settle(rt, alloc)?;
            self.step = step;
            self.found = self.solo.tell(alloc, step)?;
            Ok(())
        } else {
            Ok(self.expected.item(line)?)
        }
    }

    /// What came of the last step is what was said.
    fn settle(&mut self, rt: &impl Abort, alloc: Global) -> Result<(), Fail> {
        let found = std::mem::replace(&mut self.found, String::new(alloc));
        let expected = std::mem::replace(&mut self.expected, Line::new(alloc)).into_text()?;
        let step = self.step;
        assert_eq!(rt; found.as_str(), expected.as_str(), "{step}");
        Ok(())
    }
}
