//! Scripts that are made and followed, with each growth refused in turn.

use crate::refusing::{MOST, Turns, asked_for_none, never, refuse, refuse_all, was_spared};
use kt_script::{Command, Env, Script, ScriptError};
use std::alloc::Global;
use std::test::Fail;

/// A command is added. Refused, the script has none, and takes it with memory.
fn pushed_in_turn(rt: &HostRuntime, alloc: Global) -> Result<(), Fail> {
    let mut turns = Turns::new("Script::push");
    for number in 1..MOST {
        let mut script = Script::new(alloc);
        refuse(alloc, number)?;
        let pushed = script.push(Command::Unless(1));
        let is_spared = was_spared(alloc, number)?;
        match pushed {
            Ok(()) if is_spared => return turns.end(rt, number),
            Ok(()) => turns.bear(),
            Err(cause) => {
                let is_memory = cause == ScriptError::OutOfMemory;
                turns.hold(rt, is_memory, "another refusal")?;
                turns.hold(rt, script.commands().is_empty(), "a command")?;
                script.push(Command::Unless(1))?;
            }
        }
    }
    Err(never())
}

/// The values of a script that begins, and its first operation.
fn followed_in_turn(rt: &HostRuntime, alloc: Global, script: &Script) -> Result<(), Fail> {
    let mut turns = Turns::new("Env::new");
    for number in 1..MOST {
        refuse(alloc, number)?;
        let is_made = Env::new(alloc, script).is_ok();
        if was_spared(alloc, number)? {
            turns.hold(rt, is_made, "refused with memory")?;
            turns.end(rt, number)?;
            break;
        }
        if is_made {
            turns.bear();
        }
    }
    let env = Env::new(alloc, script)?;
    refuse_all(alloc)?;
    let has_next = script.has_next(0, &env);
    let turns_of_next = Turns::new("has_next");
    turns_of_next.hold(rt, asked_for_none(alloc)?, "a growth")?;
    let mut turns = Turns::new("Script::next");
    for number in 1..MOST {
        refuse(alloc, number)?;
        let next = script.next(alloc, 0, &env);
        let is_spared = was_spared(alloc, number)?;
        match next {
            Ok(found) => {
                turns.hold(rt, found.is_some() == has_next, "another operation")?;
                if is_spared {
                    return turns.end(rt, number);
                }
                turns.bear();
            }
            Err(_) => turns.hold(rt, !is_spared, "refused with memory")?,
        }
    }
    Err(never())
}

/// All that is tried of these scripts, and of one more.
pub(crate) fn scripts_in_turn(
    rt: &HostRuntime,
    alloc: Global,
    scripts: &[Script],
) -> Result<(), Fail> {
    pushed_in_turn(rt, alloc)?;
    for script in scripts {
        followed_in_turn(rt, alloc, script)?;
    }
    Ok(())
}
