//! Asks to roll back. The label is the last one that the asker sent to the asked node before its permanent checkpoint.

use crate::cases::{SHARD_1, WORKER_1, tells};
use std::test::Fail;

/// The node has heard nothing that is undone, be the label equal to what it heard last or above.
#[test]
fn up_to_the_label_is_a_yes(rt: HostRuntime) -> Result<(), Fail> {
    tells(
        &rt,
        rt.alloc(),
        SHARD_1,
        ". asked; board 7 open
        > w1: roll-ask 7 1.1 2
        to w1: vote 7 2 yes
        Up
        > w1: roll-ask 7 1.2 3
        to w1: vote 7 3 yes
        Up
        > w2: roll-ask 7 0.0 2
        to w2: vote 7 2 yes
        Up",
    )
}

/// It asks all neighbours, with what its permanent checkpoint has sent to each. Nothing is stored or noted.
#[test]
fn above_the_label_a_node_joins_and_asks_all_neighbours(rt: HostRuntime) -> Result<(), Fail> {
    tells(
        &rt,
        rt.alloc(),
        SHARD_1,
        ". asked; board 7 open
        > w1: roll-ask 7 1.0 2
        to w1: roll-ask 7 0.0 1
        to w2: roll-ask 7 0.0 1
        Rolling in 7 for w1.2, asked w1 w2, awaits w1 w2

        . asked; board 7 open
        > w1: roll-ask 7 0.0 2
        to w1: roll-ask 7 0.0 1
        to w2: roll-ask 7 0.0 1
        Rolling in 7 for w1.2, asked w1 w2, awaits w1 w2

        . served; saved by w1; w1: request 2 1.2 by 9 out (9, 9); serve w1 0 by 9; board 7 open
        > w1: roll-ask 7 1.1 2
        to w1: roll-ask 7 1.1 1
        to w2: roll-ask 7 0.0 1
        Rolling in 7 for w1.2, asked w1 w2, awaits w1 w2

        . shard back; w2: request 1 1.1 by 4 out (1, 1); board 7 open
        > w2: roll-ask 7 0.0 2
        to w1: roll-ask 7 0.0 2
        to w2: roll-ask 7 0.0 2
        Rolling in 7 for w2.2, asked w1 w2, awaits w1 w2",
    )?;
    tells(
        &rt,
        rt.alloc(),
        WORKER_1,
        ". answered by both; board 7 open
        > s2: roll-ask 7 1.3 5
        to s1: roll-ask 7 0.0 1
        to s2: roll-ask 7 0.0 1
        Rolling in 7 for s2.5, asked s1 s2, awaits s1 s2",
    )
}

#[test]
fn labels_compare_by_incarnation_first(rt: HostRuntime) -> Result<(), Fail> {
    tells(
        &rt,
        rt.alloc(),
        SHARD_1,
        ". w1: request 1 2.1 by 1 out (1, 1); board 7 open
        > w1: roll-ask 7 3.0 3
        to w1: vote 7 3 yes
        Up
        > w1: roll-ask 7 1.9 3
        to w1: roll-ask 7 0.0 1
        to w2: roll-ask 7 0.0 1
        Rolling in 7 for w1.3, asked w1 w2, awaits w1 w2",
    )
}

/// Whatever the label, and in each mode.
#[test]
fn a_rollback_with_a_verdict_is_a_no(rt: HostRuntime) -> Result<(), Fail> {
    tells(
        &rt,
        rt.alloc(),
        SHARD_1,
        ". asked; board 7 no; board 8 yes
        > w1: roll-ask 7 1.1 2
        to w1: vote 7 2 no
        Up
        > w1: roll-ask 7 0.0 2
        to w1: vote 7 2 no
        Up
        > w1: roll-ask 8 1.1 2
        to w1: vote 8 2 no
        Up
        > w1: roll-ask 8 0.0 2
        to w1: vote 8 2 no
        Up

        . asked; check; board 7 no
        > w1: roll-ask 7 1.1 2
        to w1: vote 7 2 no
        Held in 1, asked w1, awaits w1

        . asked; board 7 open; w1: roll-ask 7 0.0 2; board 7 no
        > w1: roll-ask 7 0.0 2
        to w1: vote 7 2 no
        Rolling in 7 for w1.2, asked w1 w2, awaits w1 w2",
    )
}

/// As initiator or participant; up to what it heard it says yes.
#[test]
fn a_held_node_says_no(rt: HostRuntime) -> Result<(), Fail> {
    tells(
        &rt,
        rt.alloc(),
        SHARD_1,
        ". asked; check; board 7 open
        > w1: roll-ask 7 1.1 2
        to w1: vote 7 2 yes
        Held in 1, asked w1, awaits w1
        > w1: roll-ask 7 0.0 2
        to w1: vote 7 2 no
        Held in 1, asked w1, awaits w1

        . served; board 7 open; board 8 open; w1: check-ask 7 1.1 1
        > w1: roll-ask 8 0.0 2
        to w1: vote 8 2 no
        Held in 7 for w1.1, asked w1, awaits w1
        > w1: roll-ask 8 1.1 2
        to w1: vote 8 2 yes
        Held in 7 for w1.1, asked w1, awaits w1
        > w1: roll-ask 7 0.0 2
        to w1: vote 7 2 no
        Held in 7 for w1.1, asked w1, awaits w1",
    )
}

/// It does not join again, and it keeps its parent. In another instance it says no above the label.
#[test]
fn a_rolling_node_says_yes_in_its_instance(rt: HostRuntime) -> Result<(), Fail> {
    tells(
        &rt,
        rt.alloc(),
        SHARD_1,
        ". asked; w2: request 1 1.1 by 2 out (2, 2); board 7 open; board 8 open; w1: roll-ask 7 0.0 2
        > w1: roll-ask 7 0.0 3
        to w1: vote 7 3 yes
        Rolling in 7 for w1.2, asked w1 w2, awaits w1 w2
        > w2: roll-ask 7 0.0 5
        to w2: vote 7 5 yes
        Rolling in 7 for w1.2, asked w1 w2, awaits w1 w2
        > w1: roll-ask 8 0.0 3
        to w1: vote 8 3 no
        Rolling in 7 for w1.2, asked w1 w2, awaits w1 w2
        > w1: roll-ask 8 1.1 3
        to w1: vote 8 3 yes
        Rolling in 7 for w1.2, asked w1 w2, awaits w1 w2

        . served; saved by w1; fail; restart; board 8 open
        > w1: roll-ask 2 0.0 1
        to w1: vote 2 1 yes
        Rolling in 2, asked w1 w2, awaits w1 w2
        > w1: roll-ask 8 0.0 1
        to w1: vote 8 1 no
        Rolling in 2, asked w1 w2, awaits w1 w2
        > w1: roll-ask 8 1.1 1
        to w1: vote 8 1 yes
        Rolling in 2, asked w1 w2, awaits w1 w2",
    )
}

#[test]
fn a_node_that_is_down_drops_the_ask(rt: HostRuntime) -> Result<(), Fail> {
    tells(
        &rt,
        rt.alloc(),
        SHARD_1,
        ". asked; fail; board 7 open
        > w1: roll-ask 7 0.0 2
        Down
        > w1: roll-ask 7 1.1 2
        Down

        . asked; check; fail; board 7 open
        > w1: roll-ask 7 0.0 2
        Down",
    )
}
