//! Runs by the program: its words, its output, its line on the errors and its status.
//! Cited by no other file of crates/.
use crate::tests::run;
use kt_command::end_run;
use kt_run::RunTextFault;
use kt_scene::{OpenError, ReplayFault, ResumeError, SceneError, StepError};
use kt_stage::{CloseError, RunFault};
use kt_store::StoreError;
use kt_tuple::NodeId;
use std::test::Fail;

const THREADS_AND_A_FAULT: &str =
    "linda-kt 1\nshards 2\nworker\nout (\"k\")\nout (\"k\", 7)\nin (\"k\", ?int x)\nout (\"done\", x)\nrd (\"k\")\n\
faults\nfail s1 after 3\nend\n";

const THREADS_AND_A_FAULT_REPORT: &str =
    "survivors 5\nw1.1 out (\"k\") done\nw1.2 out (\"k\", 7) done\nw1.3 in (\"k\", ?int) got (\"k\", 7)\n\
w1.4 out (\"done\", 7) done\nw1.5 rd (\"k\") got (\"k\")\nlost 4\nspace 2\n(\"done\", 7)\n(\"k\")\npermanent 0\n";

/// The report on each run; and a replay of what `--journal` prints gives it again.
#[test]
fn threads_and_a_fault(rt: HostRuntime) -> Result<(), Fail> {
    for _ in 0..10u32 {
        let ended = run(&rt, &rt, &["run"], THREADS_AND_A_FAULT)?;
        assert_eq!(rt; ended.output.as_str(), THREADS_AND_A_FAULT_REPORT);
        assert!(rt; ended.errors.is_empty() && ended.status == 0);
        let journal = run(&rt, &rt, &["run", "--journal"], THREADS_AND_A_FAULT)?;
        assert!(rt; journal.errors.is_empty() && journal.status == 0);
        let again = run(&rt, &rt, &["replay"], journal.output.as_str())?;
        assert_eq!(rt; again.output.as_str(), THREADS_AND_A_FAULT_REPORT);
    }
    Ok(())
}

/// How often each report came; and the random fault lines before a report, of which none is ever due here.
#[test]
fn several_runs_and_random_faults(rt: HostRuntime) -> Result<(), Fail> {
    let tally = run(&rt, &rt, &["run", "--times", "3"], THREADS_AND_A_FAULT)?;
    let lines = tally.output.as_str().strip_prefix("# 3 of 3 runs\n");
    assert!(rt; lines == Some(THREADS_AND_A_FAULT_REPORT));
    assert!(rt; tally.errors.is_empty() && tally.status == 0);
    let words = ["run", "--chaos", "2", "--seed", "7"];
    let few = "linda-kt 1\nshards 1\nworker\nout (1)\nfaults\nend\n";
    let shaken = run(&rt, &rt, &words, few)?;
    let told = "# fail w1 after 5\n# check w1 after 14\n\
survivors 1\nw1.1 out (1) done\nlost 0\nspace 1\n(1)\npermanent 0\n";
    assert_eq!(rt; shaken.output.as_str(), told);
    assert!(rt; shaken.errors.is_empty() && shaken.status == 0);
    Ok(())
}

/// Each command wants its own kind of work.
#[test]
fn kinds_of_work(rt: HostRuntime) -> Result<(), Fail> {
    let faults = "linda-kt 1\nshards 1\nworker\nfaults\nend\n";
    let steps = "linda-kt 1\nshards 1\nworker\nsteps\nend\n";
    for (word, text) in [("replay", faults), ("run", steps)] {
        let ended = run(&rt, &rt, &[word], text)?;
        assert_eq!(rt; ended.errors.as_str(), "line 4: 2 Word\n");
        assert!(rt; ended.output.is_empty() && ended.status == 3);
    }
    let nobody = run(
        &rt,
        &rt,
        &["run"],
        "linda-kt 1\nshards 1\nworker\nfaults\nfail s2 after 3\nend\n",
    )?;
    assert_eq!(rt; nobody.errors.as_str(), "line 5: 6 Node\n");
    assert!(rt; nobody.output.is_empty() && nobody.status == 3);
    Ok(())
}

const NODE: NodeId = NodeId::Shard(2);

/// Faults of a run, the line on the errors, and the status.
const FAULTS: [(RunTextFault, &str, u8); 13] = [
    (
        RunTextFault::Text(ReplayFault::Scene {
            line: 7,
            cause: SceneError::Node,
        }),
        "line 7: 6 Node\n",
        3,
    ),
    (
        RunTextFault::Text(ReplayFault::Report(StoreError::Full)),
        "store: Full\n",
        5,
    ),
    (RunTextFault::Text(ReplayFault::Memory), "memory\n", 6),
    (RunTextFault::Text(ReplayFault::Write), "write\n", 7),
    (
        RunTextFault::Run(RunFault::Open(OpenError::NotFresh)),
        "store: NotFresh\n",
        5,
    ),
    (
        RunTextFault::Run(RunFault::Open(OpenError::OutOfMemory)),
        "memory\n",
        6,
    ),
    (
        RunTextFault::Run(RunFault::Resume(ResumeError::Unfit {
            node: NodeId::Shard(1),
        })),
        "store: Unfit\n",
        5,
    ),
    (
        RunTextFault::Run(RunFault::Resume(ResumeError::OutOfMemory)),
        "memory\n",
        6,
    ),
    (
        RunTextFault::Run(RunFault::Step {
            at: 100_001,
            cause: StepError::StepLimit,
        }),
        "step 100001: 7 StepLimit\n",
        8,
    ),
    (
        RunTextFault::Run(RunFault::Close(CloseError::Unmatched { node: NODE })),
        "close: Unmatched\n",
        5,
    ),
    (
        RunTextFault::Run(RunFault::Close(CloseError::SeatMissing { node: NODE })),
        "close: SeatMissing\n",
        5,
    ),
    (RunTextFault::Run(RunFault::Memory), "memory\n", 6),
    (
        RunTextFault::Run(RunFault::Unfinished { node: NODE }),
        "close: Unfinished\n",
        5,
    ),
];

#[test]
fn faults_of_a_run(rt: HostRuntime) -> Result<(), Fail> {
    for (fault, line, expected) in &FAULTS {
        let mut errors = Vec::new(rt.alloc());
        let status = end_run(Err(*fault), &mut errors);
        assert_eq!(rt;
            String::from_utf8(errors).ok().ok_or("text")?.as_str(),
            *line
        );
        assert_eq!(rt; status, *expected, "{line}");
    }
    Ok(())
}
