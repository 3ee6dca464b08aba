//! Giving up: an initiator writes No, a participant votes no.

use crate::cases::{WORKER_1, tells};
use std::test::Fail;

/// It stays what it is, and tells all that it asked.
#[test]
fn an_initiator_writes_no(rt: HostRuntime) -> Result<(), Fail> {
    tells(
        &rt,
        rt.alloc(),
        WORKER_1,
        ". answered by both; check
        > abandon
        to s1: verdict 1 no
        to s2: verdict 1 no
        decides 1 no
        Held in 1, asked s1 s2, awaits s1 s2

        . answered by both; check; s1: vote 1 1 yes; s2: vote 1 1 yes
        > abandon
        to s1: verdict 1 no
        to s2: verdict 1 no
        decides 1 no
        Held in 1, asked s1 s2

        . issue; check
        > abandon
        decides 1 no
        Held in 1, asked

        . fail; restart; s1: vote 1 2 yes
        > abandon
        to s1: verdict 1 no
        to s2: verdict 1 no
        decides 1 no
        Rolling in 1, asked s1 s2, awaits s2",
    )
}

#[test]
fn an_initiator_whose_instance_has_a_verdict_has_nothing_to_give_up(
    rt: HostRuntime,
) -> Result<(), Fail> {
    tells(
        &rt,
        rt.alloc(),
        WORKER_1,
        ". answered by both; check; abandon
        > abandon
        refused: NothingThere

        . issue; check; decide
        > abandon
        refused: NothingThere

        . fail; restart; s1: vote 1 2 no; decide
        > abandon
        refused: NothingThere",
    )
}

/// The verdict of its own open instance, a check or a rollback. It tells nobody.
#[test]
fn a_node_that_is_down_writes_no(rt: HostRuntime) -> Result<(), Fail> {
    tells(
        &rt,
        rt.alloc(),
        WORKER_1,
        ". answered by both; check; fail
        > abandon
        decides 1 no
        Down
        > abandon
        refused: NothingThere

        . fail; restart; fail
        > abandon
        decides 1 no
        Down
        > abandon
        refused: NothingThere",
    )
}

#[test]
fn a_node_that_is_down_gives_up_its_own_instance_alone(rt: HostRuntime) -> Result<(), Fail> {
    tells(
        &rt,
        rt.alloc(),
        WORKER_1,
        ". answered; fail
        > abandon
        refused: NothingThere

        . answered by both; board 7 open; s1: check-ask 7 1.1 3; fail
        > abandon
        refused: NothingThere

        . answered by both; board 7 open; s1: roll-ask 7 0.0 3; fail
        > abandon
        refused: NothingThere

        . worker back; fail
        > abandon
        refused: NothingThere

        . issue; check; decide; fail
        > abandon
        refused: NothingThere",
    )
}

/// Once, whether there is a verdict or not.
#[test]
fn a_participant_that_has_not_voted_votes_no(rt: HostRuntime) -> Result<(), Fail> {
    tells(
        &rt,
        rt.alloc(),
        WORKER_1,
        ". answered by both; board 7 open; s1: check-ask 7 1.1 3
        > abandon
        to s1: vote 7 3 no
        Held in 7 for s1.3, asked s1 s2, awaits s1 s2, voted
        > abandon
        refused: NothingThere

        . answered by both; board 7 open; s1: check-ask 7 1.1 3; s1: vote 7 1 yes; board 7 no
        > abandon
        to s1: vote 7 3 no
        Held in 7 for s1.3, asked s1 s2, awaits s2, voted

        . answered by both; board 7 open; s1: roll-ask 7 0.0 3
        > abandon
        to s1: vote 7 3 no
        Rolling in 7 for s1.3, asked s1 s2, awaits s1 s2, voted
        > abandon
        refused: NothingThere",
    )
}

/// Be it yes or no.
#[test]
fn a_participant_that_has_voted_has_nothing_to_give_up(rt: HostRuntime) -> Result<(), Fail> {
    tells(
        &rt,
        rt.alloc(),
        WORKER_1,
        ". issue; board 7 open; s1: check-ask 7 1.1 3
        > abandon
        refused: NothingThere

        . answered by both; board 7 open; s1: check-ask 7 1.1 3; s2: vote 7 1 no
        > abandon
        refused: NothingThere

        . answered by both; board 7 open; s1: roll-ask 7 0.0 3; s1: vote 7 1 yes; s2: vote 7 1 yes
        > abandon
        refused: NothingThere",
    )
}
