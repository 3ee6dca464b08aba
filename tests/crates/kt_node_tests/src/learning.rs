//! Verdicts that a node reads from the board. Nothing is sent.

use crate::cases::{WORKER_1, tells};
use std::test::Fail;

#[test]
fn a_held_node_learns(rt: HostRuntime) -> Result<(), Fail> {
    tells(
        &rt,
        rt.alloc(),
        WORKER_1,
        ". answered; check
        > learn
        refused: NotDecided
        . s1: vote 1 1 yes
        > learn
        refused: NotDecided
        . decide
        > learn
        promotes
        Up
        > learn
        refused: WrongMode

        . answered; check; abandon
        > learn
        discards
        Up

        . answered by both; board 7 open; s1: check-ask 7 1.1 3
        > learn
        refused: NotDecided
        . board 7 yes
        > learn
        promotes
        Up

        . answered by both; board 7 open; s1: check-ask 7 1.1 3; board 7 no
        > learn
        discards
        Up",
    )
}

/// Whatever its votes and its verdict.
#[test]
fn a_rolling_initiator_learns_nothing(rt: HostRuntime) -> Result<(), Fail> {
    tells(
        &rt,
        rt.alloc(),
        WORKER_1,
        ". fail; restart
        > learn
        refused: WrongMode
        . s1: vote 1 2 no; decide
        > learn
        refused: WrongMode",
    )
}

/// With Yes the log is cut to the permanent checkpoint, the permanent state is loaded and labels begin anew; with No
/// the node goes on as it was.
#[test]
fn a_rolling_participant_learns(rt: HostRuntime) -> Result<(), Fail> {
    tells(
        &rt,
        rt.alloc(),
        WORKER_1,
        ". answered by both; board 7 open; s1: roll-ask 7 0.0 3
        > learn
        refused: NotDecided
        . board 7 yes
        > learn
        w1 is cut to 0
        bumps
        Up
        > check
        begins check: w1 acts 0 sent 0.0 0.0 received 0.0 0.0 number 0 answered
        Held in 8, asked

        . answered by both; board 7 open; s1: roll-ask 7 0.0 3; board 7 no
        > learn
        Up
        > check
        to s1: check-ask 8 1.1 1
        to s2: check-ask 8 1.4 1
        begins check: w1 acts 4 sent 1.1 1.2 received 1.1 1.4 number 2 answered
        Held in 8, asked s1 s2, awaits s1 s2

        . answered; saved by s1; issue; s2: reply 2 1.4 by 9 done to out (1)
        . board 7 open; s2: roll-ask 7 0.0 3; board 7 yes
        > learn
        w1 is cut to 2
        bumps
        Up
        > issue
        to s2: request 2 2.1 by 6 out (1)
        w1 by 0: w1.2 out (1) issue
        Up
        > check
        begins check: w1 acts 3 sent 1.1 2.1 received 1.1 0.0 number 2 asked
        Held in 8, asked",
    )
}

/// It stays down. With No its log is cut to the permanent checkpoint.
#[test]
fn a_node_that_is_down_learns_of_its_tentative_checkpoint(rt: HostRuntime) -> Result<(), Fail> {
    tells(
        &rt,
        rt.alloc(),
        WORKER_1,
        ". answered; check; fail
        > learn
        refused: NotDecided
        . board 1 yes
        > learn
        promotes
        Down
        > learn
        refused: NothingThere

        . answered; check; fail; abandon
        > learn
        w1 is cut to 0
        discards
        Down
        > learn
        refused: NothingThere

        . answered; saved by s1; issue; check; fail; abandon
        > learn
        w1 is cut to 2
        discards
        Down

        . answered by both; board 7 open; s1: check-ask 7 1.1 3; fail
        > learn
        refused: NotDecided
        . board 7 yes
        > learn
        promotes
        Down",
    )
}

#[test]
fn a_node_that_is_down_with_nothing_tentative_learns_nothing(rt: HostRuntime) -> Result<(), Fail> {
    tells(
        &rt,
        rt.alloc(),
        WORKER_1,
        ". answered; fail
        > learn
        refused: NothingThere

        . answered; saved by s1; fail
        > learn
        refused: NothingThere

        . answered by both; board 7 open; s1: roll-ask 7 0.0 3; fail; board 7 yes
        > learn
        refused: NothingThere

        . fail; restart; fail; abandon
        > learn
        refused: NothingThere",
    )
}
