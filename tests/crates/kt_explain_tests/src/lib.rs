//! Mistakes that people make, and all that is said of each.
#![tactic(auto)]

#[cfg(test)]
mod commands;
#[cfg(test)]
mod heads;
#[cfg(test)]
mod scripts;
#[cfg(test)]
mod tuples;
#[cfg(test)]
mod work;

use crate::commands::IN_COMMANDS;
use crate::heads::{
    BEHIND_END, IN_SHARDS, IN_SHARDS_OF_RUN, IN_TITLE, IN_TITLE_OF_RUN, IN_WORKERS, IN_WORKERS_OF_RUN,
};
use crate::scripts::{IN_JOURNAL, IN_NAMES, IN_RESUMED, IN_SCRIPT, IN_SCRIPT_OF_RUN};
use crate::tuples::IN_TUPLES;
use crate::work::{IN_FAULTS, IN_MORE_NODES, IN_STEPS};
use kt_explain::{Part, explain_text, meanings, meanings_of, nearest, part_of};
use kt_text::{MAX_TEXT, SceneError, SceneFault, WorkKind, read_scene};
use kt_tuple::writing::push_number;
use std::alloc::Global;
use std::process::Abort;
use std::test::Fail;

/// What the mistake is, the line that has it, and what is said of it.
pub(crate) type Row = (&'static str, &'static str, &'static str);

/// Two commands, the second of which binds `x` to ints.
const SCRIPT: &str = "linda-kt 1\nshards 1\nworker\nout (\"a\", 1)\nin (\"a\", ?int x)\n";

/// A script, and the line before its steps.
const STEPS: &str = "linda-kt 1\nshards 1\nworker\nout (\"a\", 1)\nin (\"a\", ?int x)\nsteps\n";

/// A script, and the line before its fault lines.
const FAULTS: &str = "linda-kt 1\nshards 1\nworker\nout (\"a\", 1)\nin (\"a\", ?int x)\nfaults\n";

/// The head of a journal.
const JOURNAL: &str = "# survivors 0\n# lost 0\n# space 0\n# permanent 0\n\
linda-kt 1\nshards 1\nworker\nout (\"a\", 1)\n";

/// The head of a journal of a run that went on.
const RESUMED: &str = "# resumed after instance 2\n# survivors 0\nlinda-kt 1\nshards 1\nworker\n";

/// A script that binds names to values of all kinds.
const NAMES: &str = "linda-kt 1\nshards 1\nworker\n\
in (?int n, ?str s, ?bool b)\nset m = n + 1\n# a remark\n";

/// A scenario of two workers and three shards.
const MORE_NODES: &str = "# three\nlinda-kt 1\nshards 3\nworker\nworker\nfaults\n";

/// A whole scenario.
const WHOLE: &str = "linda-kt 1\nshards 1\nworker\nsteps\nend\n";

#[test]
fn each_mistake_above_the_commands_is_named(rt: HostRuntime) -> Result<(), Fail> {
    let alloc = rt.alloc();
    assert_said(&rt, alloc, "", WorkKind::Steps, IN_TITLE)?;
    assert_said(&rt, alloc, "", WorkKind::Faults, IN_TITLE_OF_RUN)?;
    assert_said(&rt, alloc, "linda-kt 1\n", WorkKind::Steps, IN_SHARDS)?;
    assert_said(
        &rt,
        alloc,
        "linda-kt 1\nshards 1\n",
        WorkKind::Steps,
        IN_WORKERS,
    )?;
    assert_said(&rt, alloc, "linda-kt 1\n", WorkKind::Faults, IN_SHARDS_OF_RUN)?;
    assert_said(
        &rt,
        alloc,
        "linda-kt 1\nshards 1\n",
        WorkKind::Faults,
        IN_WORKERS_OF_RUN,
    )?;
    Ok(())
}

#[test]
fn each_mistake_among_the_commands_is_named(rt: HostRuntime) -> Result<(), Fail> {
    let alloc = rt.alloc();
    assert_said(&rt, alloc, SCRIPT, WorkKind::Steps, IN_SCRIPT)?;
    assert_said(&rt, alloc, SCRIPT, WorkKind::Steps, IN_COMMANDS)?;
    assert_said(&rt, alloc, SCRIPT, WorkKind::Faults, IN_SCRIPT_OF_RUN)?;
    assert_said(&rt, alloc, NAMES, WorkKind::Steps, IN_NAMES)?;
    Ok(())
}

#[test]
fn each_mistake_in_a_tuple_is_named(rt: HostRuntime) -> Result<(), Fail> {
    let alloc = rt.alloc();
    assert_said(
        &rt,
        alloc,
        "linda-kt 1\nshards 1\nworker\n",
        WorkKind::Steps,
        IN_TUPLES,
    )?;
    Ok(())
}

#[test]
fn each_mistake_in_the_work_is_named(rt: HostRuntime) -> Result<(), Fail> {
    let alloc = rt.alloc();
    assert_said(&rt, alloc, STEPS, WorkKind::Steps, IN_STEPS)?;
    assert_said(&rt, alloc, FAULTS, WorkKind::Faults, IN_FAULTS)?;
    assert_said(&rt, alloc, MORE_NODES, WorkKind::Faults, IN_MORE_NODES)?;
    assert_said(&rt, alloc, WHOLE, WorkKind::Steps, BEHIND_END)?;
    Ok(())
}

#[test]
fn journals_given_to_a_run_are_named(rt: HostRuntime) -> Result<(), Fail> {
    let alloc = rt.alloc();
    assert_said(&rt, alloc, JOURNAL, WorkKind::Faults, IN_JOURNAL)?;
    assert_said(&rt, alloc, RESUMED, WorkKind::Faults, IN_RESUMED)?;
    Ok(())
}

/// Of each line below this text it is said what its row says.
fn assert_said(
    rt: &impl Abort,
    alloc: Global,
    above: &str,
    kind: WorkKind,
    rows: &[Row],
) -> Result<(), Fail> {
    for (name, line, expected) in rows {
        let mut text = String::from_str(alloc, above)?;
        text.push_str(line)?;
        let said = said_of(rt, alloc, text.as_bytes(), kind)?;
        assert_eq!(rt; said.as_str(), *expected, "{name}");
    }
    Ok(())
}

/// What is said of the text, which is no scenario of this kind.
fn said_of(rt: &impl Abort, alloc: Global, text: &[u8], kind: WorkKind) -> Result<String, Fail> {
    match read_scene(alloc, text, kind) {
        Ok(_) => {
            assert!(rt; false, "no fault");
            Ok(String::new(alloc))
        }
        Err(fault) => {
            let said = explain_text(alloc, text, kind, fault)?;
            Ok(String::from_str(alloc, str::from_utf8(&said)?)?)
        }
    }
}

/// A line so often.
fn push_often(text: &mut Vec<u8>, line: &[u8], count: usize) -> Result<(), Fail> {
    for _ in 0..count {
        text.extend_from_slice(line)?;
    }
    Ok(())
}

#[test]
fn what_is_too_many_is_named(rt: HostRuntime) -> Result<(), Fail> {
    let alloc = rt.alloc();
    let rows: [(&[u8], usize, &str); 2] = [
        (
            b"worker\n",
            17,
            "  worker\n  ^\n  a scenario has at most 16 workers: take one away\n",
        ),
        (
            b"out (1)\n",
            201,
            "  out (1)\n  ^\n  a script has at most 200 commands: take some away\n",
        ),
    ];
    for (line, count, expected) in rows {
        let mut text = Vec::from_slice(alloc, b"linda-kt 1\nshards 1\nworker\n")?;
        push_often(&mut text, line, count)?;
        let said = said_of(&rt, alloc, &text, WorkKind::Steps)?;
        assert_eq!(rt; said.as_str(), expected);
    }
    Ok(())
}

#[test]
fn a_name_too_many_is_named(rt: HostRuntime) -> Result<(), Fail> {
    let alloc = rt.alloc();
    let mut text = Vec::from_slice(alloc, b"linda-kt 1\nshards 1\nworker\n")?;
    for number in 0..65 {
        text.extend_from_slice(b"in (?int x")?;
        push_number(&mut text, number)?;
        text.extend_from_slice(b")\n")?;
    }
    let said = said_of(&rt, alloc, &text, WorkKind::Steps)?;
    let expected =
        "  in (?int x64)\n  ^\n  a script has at most 64 names: write one here that the script has already\n";
    assert_eq!(rt; said.as_str(), expected);
    Ok(())
}

#[test]
fn a_text_too_long_is_named(rt: HostRuntime) -> Result<(), Fail> {
    let alloc = rt.alloc();
    let mut text = Vec::from_slice(alloc, b"linda-kt 1\nshards 1\nworker\n")?;
    push_often(&mut text, b"# a remark\n", MAX_TEXT / 10)?;
    let said = said_of(&rt, alloc, &text, WorkKind::Steps)?;
    assert_eq!(rt;
        said.as_str(),
        "  the text has more than 1048576 bytes: make it shorter\n"
    );
    Ok(())
}

/// Faults that the text has not: a line that is not there, and a cause that no such line has.
const UNFIT: &[(usize, SceneError)] = &[
    (0, SceneError::Word),
    (9, SceneError::Word),
    (7, SceneError::Tuple),
    (3, SceneError::Header),
    (3, SceneError::Tuple),
    (3, SceneError::Node),
    (4, SceneError::Variable),
    (4, SceneError::OutOfMemory),
];

#[test]
fn nothing_is_said_of_what_does_not_fit(rt: HostRuntime) -> Result<(), Fail> {
    let text = b"linda-kt 1\nshards 1\nworker\nout (1)\nsteps\nend\n";
    for (line, cause) in UNFIT {
        let fault = SceneFault {
            line: *line,
            cause: *cause,
        };
        let said = explain_text(rt.alloc(), text, WorkKind::Steps, fault)?;
        assert!(rt; said.is_empty(), "line {line}");
    }
    Ok(())
}

#[test]
fn each_line_has_its_part(rt: HostRuntime) -> Result<(), Fail> {
    let text = b"# a\nlinda-kt 1\nshards 1\nworker\nout (1)\nsteps\nissue w1\nend\n";
    let parts = [
        Part::Title,
        Part::Title,
        Part::Shards,
        Part::Workers,
        Part::Scripts,
        Part::Scripts,
        Part::Steps,
        Part::Steps,
        Part::Ended,
        Part::Ended,
    ];
    for (before, part) in parts.into_iter().enumerate() {
        assert!(rt;
            part_of(text, before.saturating_add(1)) == part,
            "behind {before}"
        );
    }
    assert!(rt; part_of(b"linda-kt 1\nshards 1\nworker\nfaults\n", 5) == Part::Faults);
    Ok(())
}

#[test]
fn the_nearest_word_is_found(rt: HostRuntime) -> Result<(), Fail> {
    let words = ["fail", "check", "end"];
    let rows: [(&[u8], Option<&str>); 6] = [
        (b"fial", Some("fail")),
        (b"CHECK", Some("check")),
        (b"en", Some("end")),
        (b"ed", Some("end")),
        (b"e", None),
        (b"crash", None),
    ];
    for (word, expected) in rows {
        let found = nearest(rt.alloc(), word, &words)?;
        assert!(rt; found == expected);
    }
    Ok(())
}

#[test]
fn all_meanings_of_a_word_are_told(rt: HostRuntime) -> Result<(), Fail> {
    let said = meanings_of(rt.alloc(), "8")?;
    assert_eq!(rt;
        str::from_utf8(&said)?,
        "fault 8 OutOfMemory: memory ran out while the scenario was read\n\
refusal 8 Store: a call of the store was refused\n\
status 8: there are more steps than can be made at once\n"
    );
    let said = meanings_of(rt.alloc(), "NotFresh")?;
    assert!(rt; str::from_utf8(&said)?.starts_with("store NotFresh: "));
    for word in ["", "10", "Unknown"] {
        assert!(rt; meanings_of(rt.alloc(), word)?.is_empty(), "{word}");
    }
    assert!(rt; meanings().iter().all(|meaning| !meaning.text.is_empty()));
    Ok(())
}
