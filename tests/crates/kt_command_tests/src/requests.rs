//! What a request is that opens no store, or reads another scenario than that on standard input.

use crate::openers::{
    Asked, Ended, FAILS_AFTER_YES, InMemory, NOBODY, NO_FAULTS, NO_FAULTS_REPORT, PATH, SCENE,
    STORES_NOTHING, asking, end_before,
};
use kt_command::{Command, Request, Task, Telling, Terminals};
use kt_run::Output;
use kt_scene::Start;
use kt_words::Shell;
use std::alloc::Global;
use std::sync::Wait;
use std::test::Fail;
use std::thread::Threads;

/// Does the request over fresh stores in memory, with this on standard input and these at the terminals.
fn answered<T: Threads + Wait + Sync>(
    alloc: Global,
    threads: &T,
    request: Request<'_>,
    terminals: Terminals,
    input: &str,
) -> Ended {
    let asked = Asked::nothing();
    let opener = InMemory {
        alloc,
        asked: &asked,
    };
    end_before(alloc, threads, opener, request, terminals, input)
}

/// Of a scenario in a file nothing of standard input is read; a file that is not there is told with its path.
#[test]
fn reads_the_file_that_is_named(rt: HostRuntime) -> Result<(), Fail> {
    let alloc = rt.alloc();
    let task = Task::Make {
        command: Command::Run(Start::Open, Output::Report),
        store: None,
    };
    for (file, output, errors, status) in [
        (SCENE, NO_FAULTS_REPORT, "", 0),
        ("b.scn", "", "scenario: b.scn: Device\n", 7),
    ] {
        let request = Request::Read {
            task,
            file: Some(file),
            telling: Telling::Nothing,
        };
        let left = answered(alloc, &rt, request, NOBODY, FAILS_AFTER_YES);
        assert!(rt; left.is(output, errors, status) && !left.has_read, "{left:?}");
    }
    Ok(())
}

/// A text that is checked is a scenario, of one kind of work, or the fault is told that comes later in it.
#[test]
fn says_what_a_text_is(rt: HostRuntime) -> Result<(), Fail> {
    let alloc = rt.alloc();
    for (input, output, errors, status) in [
        (FAILS_AFTER_YES, "steps 13\n", "", 0),
        (NO_FAULTS, "faults 0\n", "", 0),
        (
            "linda-kt 1\nshards 1\nworker\nout (\"a\", 1)\nsteps\nissue q1\nend\n",
            "",
            "line 6: ",
            3,
        ),
        ("linda-kt 1\nshards 1\nworker\nout (\"a\", 1)\nfaults\nfail w9\n", "", "line 6: ", 3),
    ] {
        let left = answered(alloc, &rt, asking(Task::Check), NOBODY, input);
        assert!(rt; left.output.as_slice() == output.as_bytes() && left.status == status, "{left:?}");
        assert!(rt; left.errors.starts_with(errors.as_bytes()), "{left:?}");
    }
    Ok(())
}

/// Several runs end in one tally, and a scenario that was cut short is completed to a journal.
#[test]
fn repeats_and_completes(rt: HostRuntime) -> Result<(), Fail> {
    let alloc = rt.alloc();
    let left = answered(alloc, &rt, asking(Task::Repeat { times: 3 }), NOBODY, NO_FAULTS);
    let tally = format!(in alloc; "# 3 of 3 runs\n{NO_FAULTS_REPORT}")?;
    assert!(rt; left.is(&tally, "", 0), "{left:?}");
    let left = answered(alloc, &rt, asking(Task::Complete), NOBODY, STORES_NOTHING);
    assert!(rt; left.status == 0 && left.errors.is_empty(), "{left:?}");
    assert!(rt; left.output.starts_with(b"# survivors 1\n"), "{left:?}");
    Ok(())
}

/// What is no scenario is answered with nothing read: a copy is shown, a word is explained, and the texts are written.
#[test]
fn reads_no_scenario_where_none_is_asked_for(rt: HostRuntime) -> Result<(), Fail> {
    let alloc = rt.alloc();
    let shell = Shell::Bash;
    for (request, is_json) in [
        (
            Request::Show {
                store: PATH,
                is_json: false,
            },
            false,
        ),
        (
            Request::Show {
                store: PATH,
                is_json: true,
            },
            true,
        ),
        (Request::Explain { word: "Tuple" }, false),
        (Request::Completion { shell }, false),
        (Request::Manual, false),
    ] {
        let left = answered(alloc, &rt, request, NOBODY, NO_FAULTS);
        assert!(rt; left.status == 0 && left.errors.is_empty() && !left.has_read, "{left:?}");
        assert!(rt; !left.output.is_empty() && left.output.starts_with(b"{") == is_json, "{left:?}");
    }
    let left = answered(alloc, &rt, Request::Explain { word: "tupel" }, NOBODY, NO_FAULTS);
    let line = "error: nothing that is printed has the number or the name 'tupel'\n";
    assert!(rt; left.is("", line, 2) && !left.has_read, "{left:?}");
    Ok(())
}

/// A fault is explained behind its line where that is asked for, or where somebody watches; so is an end where that is
/// asked for. Somebody who has to type the scenario is told so.
#[test]
fn explains_what_is_asked_for(rt: HostRuntime) -> Result<(), Fail> {
    let alloc = rt.alloc();
    let at_terminal = Terminals {
        is_typed: true,
        is_watched: true,
    };
    let line = b"line 5: 2 Word\n".as_slice();
    for (telling, terminals, front, is_more) in [
        (Telling::Nothing, NOBODY, line, false),
        (Telling::Words, NOBODY, line, true),
        (Telling::Json, NOBODY, line, true),
        (Telling::Nothing, at_terminal, b"The scenario is read from the terminal".as_slice(), true),
    ] {
        let request = Request::Read {
            task: Task::Make {
                command: Command::Replay(Start::Open),
                store: None,
            },
            file: None,
            telling,
        };
        let left = answered(alloc, &rt, request, terminals, NO_FAULTS);
        assert!(rt; left.status == 3 && left.output.is_empty(), "{left:?}");
        assert!(rt; left.errors.starts_with(front), "{left:?}");
        assert!(rt; (left.errors.len() > line.len()) == is_more, "{left:?}");
        let ended = answered(alloc, &rt, request, terminals, STORES_NOTHING);
        assert!(rt; ended.status == 0 && ended.errors.is_empty() != is_more, "{ended:?}");
    }
    Ok(())
}
