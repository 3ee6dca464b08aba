//! What happened, worked out by hand.

use crate::scenes::{LOSES, PUT_AND_TAKE, REFUSED, story_of};
use kt_core::StepError;
use kt_story::{Blame, Kind, Mark, arrows, words_of};
use kt_tuple::NodeId;
use std::test::Fail;

/// The marks of the steps, and what of them survives.
#[test]
fn marks(rt: HostRuntime) -> Result<(), Fail> {
    let alloc = rt.alloc();
    let kept = [
        Mark::Asks,
        Mark::Waits,
        Mark::Survives,
        Mark::Hears,
        Mark::Asks,
        Mark::Waits,
        Mark::Survives,
    ];
    let story = story_of(alloc, PUT_AND_TAKE)?;
    assert_eq!(rt; story.rows().len(), kept.len());
    for (row, mark) in story.rows().iter().zip(kept) {
        assert_eq!(rt; story.mark(row), mark);
        assert!(rt; !story.is_lost(row));
    }
    let lost = [Mark::Asks, Mark::Waits, Mark::Lost, Mark::Fails];
    let story = story_of(alloc, LOSES)?;
    for (row, mark) in story.rows().iter().zip(lost) {
        assert_eq!(rt; story.mark(row), mark);
    }
    let row = story.rows().get(2).ok_or("a row")?;
    let blame = Blame {
        node: NodeId::Shard(1),
        failed: true,
        step: 4,
    };
    assert!(rt; story.is_lost(row) && !story.survives(row));
    assert_eq!(rt; story.blame(row), Some(blame));
    Ok(())
}

/// A message goes from the step that sent it to the one by which it came; the last answer is still on its way.
#[test]
fn messages(rt: HostRuntime) -> Result<(), Fail> {
    let alloc = rt.alloc();
    let story = story_of(alloc, PUT_AND_TAKE)?;
    let found = arrows(alloc, &story)?;
    let wanted = [
        (1u64, Some(2u64), Kind::Request),
        (3, Some(4), Kind::Reply),
        (5, Some(6), Kind::Request),
        (7, None, Kind::Reply),
    ];
    assert_eq!(rt; found.len(), wanted.len());
    for (arrow, (sent, came, kind)) in found.iter().zip(wanted) {
        assert_eq!(rt; (arrow.sent, arrow.came, arrow.kind), (sent, came, kind));
        assert!(rt; !arrow.lost);
    }
    Ok(())
}

/// The step that was refused ends the story.
#[test]
fn a_refused_step(rt: HostRuntime) -> Result<(), Fail> {
    let alloc = rt.alloc();
    let story = story_of(alloc, REFUSED)?;
    assert_eq!(rt; story.rows().len(), 2);
    let refused = story.refused().ok_or("a refusal")?;
    assert_eq!(rt; (refused.number, refused.cause), (3, StepError::NoSuchMatch));
    Ok(())
}

/// What a picture says of a service, and why it is lost.
#[test]
fn words(rt: HostRuntime) -> Result<(), Fail> {
    let alloc = rt.alloc();
    let story = story_of(alloc, LOSES)?;
    let row = story.rows().get(2).ok_or("a row")?;
    let words = words_of(alloc, &story, row)?;
    assert!(rt; words.said.as_slice() == b"w1.1 out (\"<\", 1)".as_slice());
    assert!(rt; words.reason.as_slice() == b", lost when s1 failed (step 4)".as_slice());
    assert_eq!(rt; words.count(), 47);
    let story = story_of(alloc, PUT_AND_TAKE)?;
    let row = story.rows().get(6).ok_or("a row")?;
    let words = words_of(alloc, &story, row)?;
    assert!(rt; words.said.as_slice() == b"w1.2 in (\"a\", ?int) \x1a (\"a\", 1)".as_slice());
    assert!(rt; words.reason.is_empty());
    Ok(())
}
