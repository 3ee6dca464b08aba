//! The rows of a trace, and the lines of a text.

use crate::texts::{CHECKPOINT_OF_TWO, PUT_AND_TAKE};
use kt_scene::{Scenario, WorkKind, read_scene};
use kt_tell::{Choice, json_of, step_lines, words_of};
use kt_trace::{Saving, Traced, trace};
use kt_tuple::NodeId;
use std::test::Fail;

#[test]
fn lines_of_steps(rt: HostRuntime) -> Result<(), Fail> {
    let alloc = rt.alloc();
    let lines = step_lines(alloc, PUT_AND_TAKE.as_bytes())?;
    // The last is that of `end`.
    assert_eq!(rt; lines.as_slice(), [7u64, 8, 9, 10, 11, 13, 14, 15].as_slice());
    Ok(())
}

#[test]
fn a_row_a_step(rt: HostRuntime) -> Result<(), Fail> {
    let alloc = rt.alloc();
    let text = CHECKPOINT_OF_TWO.as_bytes();
    let Scenario { scene, work } = read_scene(alloc, text, WorkKind::Steps)?;
    let steps = work.steps();
    let lines = step_lines(alloc, text)?;
    let entries = trace(alloc, scene, steps, &lines)?;
    assert_eq!(rt; entries.len(), steps.len());
    let mut number = 0u64;
    let mut taken = 0u64;
    for entry in &entries {
        let Traced::Made(row) = entry else {
            assert!(rt; false, "a step is refused");
            return Ok(());
        };
        assert_eq!(rt; row.number, number.saturating_add(1));
        number = row.number;
        assert_eq!(rt; row.line, number.saturating_add(5));
        if row.saving == Some(Saving::Taken(1)) {
            taken = taken.saturating_add(1);
        }
    }
    assert_eq!(rt; taken, 2);
    let choice = Choice {
        from: 14,
        to: 14,
        node: Some(NodeId::Shard(1)),
    };
    let told = words_of(alloc, &entries, choice)?;
    assert!(rt; told.as_slice() == b"14 s1 fails\n".as_slice(), "{told:?}");
    let told = json_of(alloc, &entries, choice)?;
    let told = str::from_utf8(&told).unwrap_or("no text");
    assert!(rt; told.starts_with("{\"number\":14,"), "{told}");
    Ok(())
}
