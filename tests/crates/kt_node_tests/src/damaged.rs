//! Stored checkpoints that do not fit the node, and acts that may not stand in its log. What a step is refused for
//! without them comes before.

use crate::cases::{SHARD_1, WORKER_1, tells, tells_of};
use crate::solo::{Setting, Solo};
use kt_ckpt::Ckpt;
use kt_store::Tentative;
use kt_tuple::NodeId;
use std::alloc::Global;
use std::process::Abort;
use std::test::Fail;

/// A setting, and steps.
type Behind = (Setting, &'static str);

/// The script of w1.
const SCRIPT: &[&str] = &["out (1, 1)", "out (1)"];

const WORKER_2: Setting = Setting {
    id: NodeId::Worker(2),
    peers: 2,
    script: SCRIPT,
};

const WITH_THREE_SHARDS: Setting = Setting {
    id: NodeId::Worker(1),
    peers: 3,
    script: SCRIPT,
};

const WITH_A_SHORT_SCRIPT: Setting = Setting {
    id: NodeId::Worker(1),
    peers: 2,
    script: &["out (1, 1)"],
};

/// Who takes a checkpoint that does not fit w1 behind two acts: another node, one with other neighbours, and one that
/// has made more acts.
const MISFITS: [Behind; 3] = [
    (WORKER_2, "check"),
    (WITH_THREE_SHARDS, "check"),
    (WORKER_1, "answered; issue; check"),
];

/// The node behind the steps.
fn stands(rt: &impl Abort, alloc: Global, behind: Behind) -> Result<Solo, Fail> {
    let mut solo = behind.0.open(alloc)?;
    solo.does(rt, alloc, behind.1)?;
    Ok(solo)
}

/// The checkpoint that the node takes with these steps.
fn taken(rt: &impl Abort, alloc: Global, behind: Behind) -> Result<Ckpt, Fail> {
    stands(rt, alloc, behind)?.into_tentative()
}

/// The node comes to what is said, where the store has as its permanent checkpoint what another took.
fn tells_with(
    rt: &impl Abort,
    alloc: Global,
    taker: Behind,
    behind: Behind,
    case: &str,
) -> Result<(), Fail> {
    let mut solo = stands(rt, alloc, behind)?;
    solo.permanent = Some(taken(rt, alloc, taker)?);
    tells_of(rt, alloc, solo, case)
}

/// The same with each of the misfits, for w1 behind these steps.
fn tells_with_misfits(
    rt: &impl Abort,
    alloc: Global,
    steps: &'static str,
    case: &str,
) -> Result<(), Fail> {
    for taker in &MISFITS {
        tells_with(rt, alloc, *taker, (WORKER_1, steps), case)?;
    }
    Ok(())
}

/// The same where it is the tentative checkpoint, of instance 1, that does not fit.
fn tells_with_tentative_misfits(
    rt: &impl Abort,
    alloc: Global,
    steps: &'static str,
    case: &str,
) -> Result<(), Fail> {
    for taker in &MISFITS {
        let mut solo = stands(rt, alloc, (WORKER_1, steps))?;
        let checkpoint = taken(rt, alloc, *taker)?;
        solo.tentative = Some(Tentative {
            instance: 1,
            checkpoint,
        });
        tells_of(rt, alloc, solo, case)?;
    }
    Ok(())
}

/// Over a store that is not honest a shard may serve what it never heard, or what another worker asked for. It takes no
/// checkpoint then. An ask that is only answered is answered.
#[test]
fn acts_that_may_not_stand_in_a_line_are_in_no_checkpoint(rt: HostRuntime) -> Result<(), Fail> {
    tells(
        &rt,
        rt.alloc(),
        SHARD_1,
        ". w1: request 1 1.1 by 1 out (1, 1); serve w1 0 by 0; board 7 open
        > check
        refused: Damaged
        > w1: check-ask 7 1.1 1
        refused: Damaged
        > w1: check-ask 7 1.2 1
        to w1: vote 7 1 no
        Up

        . w1: request 1 1.1 by 1 out (1, 1); w2: request 1 1.1 by 2 out (1, 1); serve w2 0 by 1; board 7 open
        > check
        refused: Damaged
        > w1: check-ask 7 1.1 1
        to w1: vote 7 1 no
        Up
        > w2: check-ask 7 1.1 1
        refused: Damaged",
    )
}

#[test]
fn a_node_that_is_up_reads_its_permanent_checkpoint(rt: HostRuntime) -> Result<(), Fail> {
    tells_with_misfits(
        &rt,
        rt.alloc(),
        "answered; board 7 open",
        "> check
        refused: Damaged
        > s1: check-ask 7 1.1 1
        refused: Damaged
        > s1: roll-ask 7 0.0 2
        refused: Damaged
        > fail
        refused: Damaged
        > take
        refused: NothingThere
        > restart
        refused: WrongMode
        > learn
        refused: WrongMode
        > issue
        to s2: request 2 1.2 by 3 out (1)
        w1 by 0: w1.2 out (1) issue
        Up",
    )
}

#[test]
fn a_held_node_reads_its_checkpoints(rt: HostRuntime) -> Result<(), Fail> {
    let case = "> s1: check-ask 1 1.1 1
        refused: Damaged
        > fail
        refused: Damaged
        > check
        refused: WrongMode
        > restart
        refused: WrongMode
        > learn
        refused: NotDecided
        > decide
        refused: NotDecided";
    tells_with_misfits(&rt, rt.alloc(), "answered; check", case)?;
    tells_with_tentative_misfits(&rt, rt.alloc(), "answered; check", case)
}

/// With No it goes on as it is.
#[test]
fn a_participant_reads_its_permanent_checkpoint_when_it_gets_yes(
    rt: HostRuntime,
) -> Result<(), Fail> {
    tells_with_misfits(
        &rt,
        rt.alloc(),
        "answered; board 7 open; s1: roll-ask 7 0.0 3",
        "> learn
        refused: NotDecided
        > s1: verdict 7 yes
        refused: Damaged
        > fail
        refused: Damaged
        . board 7 yes
        > learn
        refused: Damaged
        . board 7 no
        > learn
        Up",
    )
}

#[test]
fn who_comes_back_reads_its_permanent_checkpoint(rt: HostRuntime) -> Result<(), Fail> {
    tells_with_misfits(
        &rt,
        rt.alloc(),
        "answered; fail",
        "> restart
        refused: Damaged
        > fail
        refused: WrongMode
        > s1: check-ask 7 0.0 1
        Down
        > s1: roll-ask 7 0.0 1
        Down
        > s1: verdict 7 yes
        Down",
    )?;
    tells_with_misfits(
        &rt,
        rt.alloc(),
        "fail; restart",
        "> restart
        refused: NotDecided
        > fail
        refused: Damaged
        . s1: vote 1 2 no; decide
        > restart
        refused: Damaged",
    )
}

/// With Yes the tentative checkpoint takes its place unread.
#[test]
fn who_is_down_reads_its_permanent_checkpoint_when_it_gets_no(rt: HostRuntime) -> Result<(), Fail> {
    tells_with_misfits(
        &rt,
        rt.alloc(),
        "answered; check; fail",
        "> restart
        refused: Unresolved
        > learn
        refused: NotDecided
        . abandon
        > learn
        refused: Damaged
        > restart
        refused: Unresolved",
    )?;
    tells_with_misfits(
        &rt,
        rt.alloc(),
        "answered; check; fail; board 1 yes",
        "> learn
        promotes
        Down",
    )
}

/// A position that the script does not have, and a worker that the scene does not have.
#[test]
fn a_state_that_does_not_fit_is_not_loaded(rt: HostRuntime) -> Result<(), Fail> {
    tells_with(
        &rt,
        rt.alloc(),
        (WORKER_1, "answered by both; check"),
        (WITH_A_SHORT_SCRIPT, "issue; repeat; repeat; repeat"),
        "> fail
        w1 is cut to 4
        Down
        > restart
        refused: Damaged",
    )?;
    tells_with(
        &rt,
        rt.alloc(),
        (SHARD_1, "w3: request 1 1.1 by 1 out (1, 1); check"),
        (SHARD_1, "asked; board 7 open; w1: roll-ask 7 0.0 2"),
        "> w1: verdict 7 yes
        refused: Damaged
        . board 7 yes
        > learn
        refused: Damaged",
    )
}
