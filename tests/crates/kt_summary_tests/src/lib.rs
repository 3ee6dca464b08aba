//! What is said of small worlds, worked out by hand.
#![tactic(auto)]

use kt_summary::explain_end;
use kt_core::{Faults, Step, World};
use kt_stage::next_for;
use kt_store::MemStore;
use kt_text::{Scenario, WorkKind, read_scene};
use kt_tuple::ALL_NODES;
use std::alloc::Global;
use std::process::Abort;
use std::test::Fail;

/// The second worker takes what nobody puts.
const WAITS: &str = "linda-kt 1
shards 1
worker
out (\"a\", 1)
worker
in (\"b\", ?int x)
worker
rd (\"a\", 1)
steps
issue w1
deliver w1 s1
serve s1 w1 0
deliver s1 w1
issue w2
deliver w2 s1
issue w3
end
";

const WAITS_SAID: &str = "  finished: w1
  w2 waits for the answer to its request 1, in (\"b\", ?int), at s1
  w3 waits for the answer to its request 1, rd (\"a\", 1), which no shard holds as waiting
  no service was lost
";

/// A shard fails with what it served in its memory alone.
const LOSES: &str = "linda-kt 1
shards 1
worker
out (\"a\", 1)
steps
issue w1
deliver w1 s1
serve s1 w1 0
deliver s1 w1
fail s1
restart s1
deliver s1 w1
deliver w1 s1
deliver s1 w1
deliver w1 s1
decide s1
deliver s1 w1
check w1
end
";

const LOSES_SAID: &str = "  w1 is held: it waits for the verdict on its tentative checkpoint
  1 service was lost:
  w1's request 1, out (\"a\", 1) at s1: lost when s1 failed (step 5)
  the rollback that s1 began (step 6) got Yes
  the check that w1 began (step 13) is open
";

/// One fault line is due at some time, and the others never.
const FAILS: &str = "linda-kt 1
shards 1
worker
out (\"a\", 1)
in (\"a\", ?int x)
faults
# Nobody makes as many steps.
fail w1 after 900
fail s1 after 3
check w1 after 900
check s1 after 900
fail w1 after 901
fail w1 after 902
fail w1 after 903
fail w1 after 904
end
";

const FAILS_SAID: &str = "  finished: w1
  line 8: fail w1 after 900: never came due
  line 9: fail s1 after 3: struck by step 7
  line 10: check w1 after 900: never came due
  line 11: check s1 after 900: never came due
  line 12: fail w1 after 901: never came due
  line 13: fail w1 after 902: never came due
  and 2 more
  1 service was lost:
  w1's request 1, out (\"a\", 1) at s1: lost when s1 failed (step 7)
  the rollback that s1 began (step 8) got Yes
";

/// A worker fails, and with a shard that served it another worker rolls back, so that what it did before is lost too.
const ROLLS: &str = "linda-kt 1
shards 2
worker
out (\"k\")
worker
out (\"a\", 1)
out (\"j\")
faults
fail w2 after 4
end
";

const ROLLS_SAID: &str = "  finished: w1, w2
  line 9: fail w2 after 4: struck by step 13
  3 services were lost:
  w1's request 1, out (\"k\") at s1: lost when w1 rolled back (step 32)
  w2's request 1, out (\"a\", 1) at s2: lost when w2 failed (step 13)
  w2's request 2, out (\"j\") at s1: lost when w2 failed (step 13)
  the rollback that w2 began (step 14) got Yes
";

/// What is said once these steps were made.
fn expect(
    rt: &impl Abort,
    alloc: Global,
    text: &str,
    world: &World<MemStore>,
    steps: &[Step],
    expected: &str,
) -> Result<(), Fail> {
    let said = explain_end(alloc, text.as_bytes(), world, steps)?;
    let said = str::from_utf8(&said).unwrap_or("");
    assert!(rt; said == expected, "{said}");
    Ok(())
}

/// The next step of the first node that has one.
fn next(alloc: Global, world: &mut World<MemStore>, faults: &Faults) -> Result<Option<Step>, Fail> {
    for node in ALL_NODES {
        let found = next_for(alloc, world, faults, node)
            .ok()
            .ok_or("an answer")?;
        if found.is_some() {
            return Ok(found);
        }
    }
    Ok(None)
}

#[test]
fn steps_that_a_text_spells(rt: HostRuntime) -> Result<(), Fail> {
    let alloc = rt.alloc();
    for (text, expected) in [(WAITS, WAITS_SAID), (LOSES, LOSES_SAID)] {
        let Scenario { scene, work } = read_scene(alloc, text.as_bytes(), WorkKind::Steps)?;
        let opened = World::open(alloc, scene, MemStore::new(alloc));
        let mut world = opened.ok().ok_or("a world")?;
        for step in work.steps() {
            world.step(alloc, *step)?;
        }
        expect(&rt, alloc, text, &world, work.steps(), expected)?;
    }
    Ok(())
}

/// What is said of the run of this text, node after node on one thread.
fn expect_run(rt: &impl Abort, alloc: Global, text: &str, expected: &str) -> Result<(), Fail> {
    let Scenario { scene, work } = read_scene(alloc, text.as_bytes(), WorkKind::Faults)?;
    let mut faults = work.into_faults().ok_or("fault lines")?;
    let opened = World::open(alloc, scene, MemStore::new(alloc));
    let mut world = opened.ok().ok_or("a world")?;
    let mut steps = Vec::new(alloc);
    for _ in 0..200usize {
        let Some(step) = next(alloc, &mut world, &faults)? else {
            break;
        };
        world.step(alloc, step)?;
        faults.spend(&step);
        steps.push(step)?;
    }
    expect(rt, alloc, text, &world, &steps, expected)
}

#[test]
fn steps_that_a_run_finds(rt: HostRuntime) -> Result<(), Fail> {
    let alloc = rt.alloc();
    for (text, expected) in [(FAILS, FAILS_SAID), (ROLLS, ROLLS_SAID)] {
        expect_run(&rt, alloc, text, expected)?;
    }
    Ok(())
}
