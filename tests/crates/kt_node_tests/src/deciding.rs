//! Checks that are begun, and verdicts that initiators write.

use crate::cases::{SHARD_1, WORKER_1, tells};
use std::test::Fail;

/// The check has the next number.
#[test]
fn a_check_asks_the_cohort(rt: HostRuntime) -> Result<(), Fail> {
    tells(
        &rt,
        rt.alloc(),
        WORKER_1,
        "> check
        begins check: w1 acts 0 sent 0.0 0.0 received 0.0 0.0 number 0 answered
        Held in 1, asked

        . board 3 no; answered
        > check
        to s1: check-ask 4 1.1 1
        begins check: w1 acts 2 sent 1.1 0.0 received 1.1 0.0 number 1 answered
        Held in 4, asked s1, awaits s1

        . answered by both
        > check
        to s1: check-ask 1 1.1 1
        to s2: check-ask 1 1.4 1
        begins check: w1 acts 4 sent 1.1 1.2 received 1.1 1.4 number 2 answered
        Held in 1, asked s1 s2, awaits s1 s2

        . answered; saved by s1; issue
        > check
        begins check: w1 acts 3 sent 1.1 1.2 received 1.1 0.0 number 2 asked
        Held in 2, asked

        . worker back; issue; s1: reply 1 3.1 by 9 done to out (1, 1)
        > check
        to s1: check-ask 2 3.1 2
        begins check: w1 acts 2 sent 2.1 0.0 received 3.1 0.0 number 1 answered
        Held in 2, asked s1, awaits s1",
    )?;
    tells(
        &rt,
        rt.alloc(),
        SHARD_1,
        ". asked; w2: request 5 1.3 by 4 out (2, 2); serve w2 0 by 4
        > check
        to w1: check-ask 1 1.1 1
        to w2: check-ask 1 1.3 1
        begins check: s1 acts 3 sent 0.0 1.1 received 1.1 1.3 tuples 1 waiting 1 kept 1
        Held in 1, asked w1 w2, awaits w1 w2",
    )
}

#[test]
fn a_check_with_nobody_to_ask_is_decided_at_once(rt: HostRuntime) -> Result<(), Fail> {
    tells(
        &rt,
        rt.alloc(),
        WORKER_1,
        ". issue; check
        > decide
        decides 1 yes
        Held in 1, asked
        > decide
        refused: NothingThere",
    )
}

#[test]
fn a_check_is_decided_when_all_have_voted_or_one_refused(rt: HostRuntime) -> Result<(), Fail> {
    tells(
        &rt,
        rt.alloc(),
        WORKER_1,
        ". answered by both; check
        > decide
        refused: NotDecided
        . s2: vote 1 1 yes
        > decide
        refused: NotDecided
        . s1: vote 1 1 yes
        > decide
        to s1: verdict 1 yes
        to s2: verdict 1 yes
        decides 1 yes
        Held in 1, asked s1 s2

        . answered by both; check; s2: vote 1 1 no
        > decide
        to s1: verdict 1 no
        to s2: verdict 1 no
        decides 1 no
        Held in 1, asked s1 s2, awaits s1, refused

        . answered by both; check; s2: vote 1 1 no; s1: vote 1 1 yes
        > decide
        to s1: verdict 1 no
        to s2: verdict 1 no
        decides 1 no
        Held in 1, asked s1 s2, refused",
    )
}

/// With Yes the initiator is up, in its new incarnation and with nothing sent in it; with No it rolls on.
#[test]
fn a_rollback_is_decided_when_all_have_voted_or_one_refused(rt: HostRuntime) -> Result<(), Fail> {
    tells(
        &rt,
        rt.alloc(),
        WORKER_1,
        ". fail; restart
        > decide
        refused: NotDecided
        . s1: vote 1 2 yes
        > decide
        refused: NotDecided
        . s2: vote 1 2 yes
        > decide
        to s1: verdict 1 yes
        to s2: verdict 1 yes
        decides 1 yes
        Up
        > issue
        to s1: request 1 2.1 by 2 out (1, 1)
        w1 by 0: w1.1 out (1, 1) issue
        Up

        . fail; restart; s1: vote 1 2 no
        > decide
        to s1: verdict 1 no
        to s2: verdict 1 no
        decides 1 no
        Rolling in 1, asked s1 s2, awaits s2, refused
        > decide
        refused: NothingThere",
    )
}

/// A verdict that there is comes before votes that are missing.
#[test]
fn what_has_a_verdict_is_not_decided(rt: HostRuntime) -> Result<(), Fail> {
    tells(
        &rt,
        rt.alloc(),
        WORKER_1,
        ". answered by both; check; abandon
        > decide
        refused: NothingThere
        . s1: vote 1 1 yes; s2: vote 1 1 yes
        > decide
        refused: NothingThere

        . issue; check; board 1 yes
        > decide
        refused: NothingThere

        . fail; restart; abandon
        > decide
        refused: NothingThere",
    )
}

/// Whether votes are missing, one refused or all said yes.
#[test]
fn participants_decide_nothing(rt: HostRuntime) -> Result<(), Fail> {
    tells(
        &rt,
        rt.alloc(),
        WORKER_1,
        ". answered by both; board 7 open; s1: check-ask 7 1.1 3
        > decide
        refused: NothingThere
        . s1: vote 7 1 yes; s2: vote 7 1 yes
        > decide
        refused: NothingThere

        . answered by both; board 7 open; s1: check-ask 7 1.1 3; s1: vote 7 1 no
        > decide
        refused: NothingThere

        . answered by both; board 7 open; s1: roll-ask 7 0.0 3
        > decide
        refused: NothingThere
        . s1: vote 7 1 yes; s2: vote 7 1 yes
        > decide
        refused: NothingThere",
    )
}
