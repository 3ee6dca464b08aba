//! Verdicts that a node is told.

use crate::cases::{WORKER_1, tells};
use std::test::Fail;

/// To all that it asked, the one that it has the verdict of among them, and to nobody else. Yes makes the tentative
/// checkpoint permanent, No gives it up.
#[test]
fn a_held_node_learns_the_verdict_and_passes_it_on(rt: HostRuntime) -> Result<(), Fail> {
    tells(
        &rt,
        rt.alloc(),
        WORKER_1,
        ". answered by both; board 7 open; s1: check-ask 7 1.1 3
        > s1: verdict 7 yes
        to s1: verdict 7 yes
        to s2: verdict 7 yes
        promotes
        Up

        . answered by both; board 7 open; s1: check-ask 7 1.1 3
        > s1: verdict 7 no
        to s1: verdict 7 no
        to s2: verdict 7 no
        discards
        Up

        . issue; board 7 open; s1: check-ask 7 1.1 3
        > s1: verdict 7 yes
        promotes
        Up

        . answered; board 7 open; s1: check-ask 7 1.1 3
        > s2: verdict 7 no
        to s1: verdict 7 no
        discards
        Up",
    )
}

/// Then a label below the first one sent since is a no.
#[test]
fn yes_clears_what_was_sent_first_and_no_does_not(rt: HostRuntime) -> Result<(), Fail> {
    tells(
        &rt,
        rt.alloc(),
        WORKER_1,
        ". answered; board 7 open; board 8 open; s1: check-ask 7 1.1 3; s1: verdict 7 yes
        . issue; s2: reply 2 1.4 by 9 done to out (1); issue
        > s1: check-ask 8 1.2 1
        to s1: vote 8 1 no
        Up

        . answered; board 7 open; board 8 open; s1: check-ask 7 1.1 3; s1: verdict 7 no
        . issue; s2: reply 2 1.4 by 9 done to out (1); issue
        > s1: check-ask 8 1.2 1
        to s1: check-ask 8 1.1 1
        to s2: check-ask 8 1.4 1
        tentative in 8: w1 acts 5 sent 1.3 1.2 received 1.1 1.4 number 3 asked
        Held in 8 for s1.1, asked s1 s2, awaits s1 s2",
    )
}

#[test]
fn a_held_initiator_learns_the_verdict_too(rt: HostRuntime) -> Result<(), Fail> {
    tells(
        &rt,
        rt.alloc(),
        WORKER_1,
        ". answered by both; check; s1: vote 1 1 yes; s2: vote 1 1 yes; decide
        > s1: verdict 1 yes
        to s1: verdict 1 yes
        to s2: verdict 1 yes
        promotes
        Up

        . answered by both; check; abandon
        > s2: verdict 1 no
        to s1: verdict 1 no
        to s2: verdict 1 no
        discards
        Up",
    )
}

/// With Yes it goes on from its permanent checkpoint, in the next incarnation; with No as it is.
#[test]
fn a_rolling_participant_learns_the_verdict_and_passes_it_on(rt: HostRuntime) -> Result<(), Fail> {
    tells(
        &rt,
        rt.alloc(),
        WORKER_1,
        ". answered by both; board 7 open; s1: roll-ask 7 0.0 3
        > s2: verdict 7 yes
        to s1: verdict 7 yes
        to s2: verdict 7 yes
        w1 is cut to 0
        bumps
        Up
        > issue
        to s1: request 1 2.1 by 6 out (1, 1)
        w1 by 0: w1.1 out (1, 1) issue
        Up

        . answered by both; board 7 open; s1: roll-ask 7 0.0 3
        > s1: verdict 7 no
        to s1: verdict 7 no
        to s2: verdict 7 no
        Up
        > issue
        to s1: request 3 1.3 by 5 in (?int, ?int)
        w1 by 0: w1.3 in (?int, ?int) issue
        Up",
    )
}

#[test]
fn a_rolling_initiator_ignores_verdicts(rt: HostRuntime) -> Result<(), Fail> {
    tells(
        &rt,
        rt.alloc(),
        WORKER_1,
        ". fail; restart
        > s1: verdict 1 yes
        Rolling in 1, asked s1 s2, awaits s1 s2
        > s1: verdict 1 no
        Rolling in 1, asked s1 s2, awaits s1 s2
        > s1: verdict 2 no
        Rolling in 1, asked s1 s2, awaits s1 s2
        . s1: vote 1 2 no; decide
        > s1: verdict 1 no
        Rolling in 1, asked s1 s2, awaits s2, refused",
    )
}

#[test]
fn a_verdict_of_another_instance_is_ignored(rt: HostRuntime) -> Result<(), Fail> {
    tells(
        &rt,
        rt.alloc(),
        WORKER_1,
        ". answered by both; board 7 open; s1: check-ask 7 1.1 3
        > s1: verdict 6 yes
        Held in 7 for s1.3, asked s1 s2, awaits s1 s2
        > s1: verdict 8 no
        Held in 7 for s1.3, asked s1 s2, awaits s1 s2

        . answered by both; board 7 open; s1: roll-ask 7 0.0 3
        > s1: verdict 6 yes
        Rolling in 7 for s1.3, asked s1 s2, awaits s1 s2
        > s1: verdict 8 no
        Rolling in 7 for s1.3, asked s1 s2, awaits s1 s2

        . answered by both; check
        > s1: verdict 2 no
        Held in 1, asked s1 s2, awaits s1 s2",
    )
}

#[test]
fn a_node_that_does_not_vote_ignores_verdicts(rt: HostRuntime) -> Result<(), Fail> {
    tells(
        &rt,
        rt.alloc(),
        WORKER_1,
        ". answered; saved by s1
        > s1: verdict 1 yes
        Up

        . worker back
        > s1: verdict 1 yes
        Up

        . answered; check; fail
        > s1: verdict 1 yes
        Down
        > s1: verdict 1 no
        Down",
    )
}
