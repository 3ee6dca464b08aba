//! Scenarios that are run several times, or with random faults.
#![tactic(auto)]

use kt_trials::*;
use kt_core::Start;
use kt_run::{Output, RunTextFault};
use kt_scene::{Nobody, ReplayFault, SceneError, Sink, Source};
use kt_stage::OpenGate;
use kt_store::MemStore;
use std::alloc::Global;
use std::sync::Wait;
use std::test::Fail;
use std::thread::Threads;

const FEW_RUNS: &[u8] = b"linda-kt 1\nshards 1\nworker\nout (1)\nfaults\nend\n";

/// One of two workers takes the tuple, so each report is one of a few.
const A_RACE: &[u8] =
    b"linda-kt 1\nshards 1\nworker\nout (1)\nworker\nin (1)\nworker\nin (1)\nfaults\nend\n";

#[test]
fn tells_each_report_once(rt: HostRuntime) -> Result<(), Fail> {
    let alloc = rt.alloc();
    let mut writer = Sink::new(Vec::new(alloc));
    let answer = run_times(
        &rt,
        alloc,
        &mut Source::new(FEW_RUNS),
        &mut writer,
        3,
        &OpenGate,
        &mut Nobody,
    );
    assert_eq!(rt; answer, Ok(()));
    let told =
        b"# 3 of 3 runs\nsurvivors 1\nw1.1 out (1) done\nlost 0\nspace 1\n(1)\npermanent 0\n";
    assert_eq!(rt; &writer.into_inner()[..], told.as_slice());
    Ok(())
}

#[test]
fn a_race_has_two_reports_at_most(rt: HostRuntime) -> Result<(), Fail> {
    let alloc = rt.alloc();
    let mut writer = Sink::new(Vec::new(alloc));
    let answer = run_times(
        &rt,
        alloc,
        &mut Source::new(A_RACE),
        &mut writer,
        20,
        &OpenGate,
        &mut Nobody,
    );
    assert_eq!(rt; answer, Ok(()));
    let told = writer.into_inner();
    let lines = told
        .split(|c| *c == b'\n')
        .filter(|line| line.starts_with(b"# "))
        .count();
    assert!(rt; 1 <= lines && lines <= 2);
    Ok(())
}

#[test]
fn a_text_that_is_none_ends_all(rt: HostRuntime) -> Result<(), Fail> {
    let alloc = rt.alloc();
    let mut writer = Sink::new(Vec::new(alloc));
    let answer = run_times(
        &rt,
        alloc,
        &mut Source::new(b"linda-kt 1\n".as_slice()),
        &mut writer,
        2,
        &OpenGate,
        &mut Nobody,
    );
    let fault = ReplayFault::Scene {
        line: 2,
        cause: SceneError::End,
    };
    assert_eq!(rt; answer, Err(RunTextFault::Text(fault)));
    assert_eq!(rt; writer.into_inner().len(), 0);
    Ok(())
}

/// How a run with random faults ends, and what it leaves written.
fn run_with<T: Threads + Wait + Sync>(
    rt: &T,
    alloc: Global,
    text: &[u8],
    chaos: Chaos,
) -> (Result<(), RunTextFault>, Vec<u8>) {
    let mut writer = Sink::new(Vec::new(alloc));
    let (answer, _) = run_chaos_returning_store(
        rt,
        alloc,
        Start::Open,
        &mut Source::new(text),
        &mut writer,
        MemStore::new(alloc),
        Output::Report,
        chaos,
        &OpenGate,
        &mut Nobody,
    );
    (answer, writer.into_inner())
}

#[test]
fn random_faults_are_kept_as_remarks(rt: HostRuntime) -> Result<(), Fail> {
    let (answer, told) = run_with(&rt, rt.alloc(), FEW_RUNS, Chaos { count: 3, seed: 7 });
    assert_eq!(rt; answer, Ok(()));
    // None of these is ever due: the nodes make fewer steps.
    let wanted = b"# fail w1 after 5\n# check w1 after 14\n# check w1 after 12\n\
survivors 1\nw1.1 out (1) done\nlost 0\nspace 1\n(1)\npermanent 0\n";
    assert_eq!(rt; &told[..], wanted.as_slice());
    Ok(())
}

#[test]
fn no_faults_for_a_text_that_is_none(rt: HostRuntime) -> Result<(), Fail> {
    let (answer, told) = run_with(
        &rt,
        rt.alloc(),
        b"linda-kt 1\n",
        Chaos { count: 3, seed: 7 },
    );
    let fault = ReplayFault::Scene {
        line: 2,
        cause: SceneError::End,
    };
    assert_eq!(rt; answer, Err(RunTextFault::Text(fault)));
    assert_eq!(rt; told.len(), 0);
    Ok(())
}
