//! Nodes that come back.

use crate::cases::{IDLE, SHARD_1, WORKER_1, tells};
use std::test::Fail;

/// In the next incarnation, each with what the permanent checkpoint has sent to it. Nothing is noted.
#[test]
fn what_is_down_asks_all_neighbours(rt: HostRuntime) -> Result<(), Fail> {
    tells(
        &rt,
        rt.alloc(),
        WORKER_1,
        ". answered; fail
        > restart
        to s1: roll-ask 1 0.0 2
        to s2: roll-ask 1 0.0 2
        begins restart
        Rolling in 1, asked s1 s2, awaits s1 s2

        . answered; saved by s1; issue; fail
        > restart
        to s1: roll-ask 2 1.1 2
        to s2: roll-ask 2 0.0 2
        begins restart
        Rolling in 2, asked s1 s2, awaits s1 s2

        . worker back; issue; check; decide; learn; fail
        > restart
        to s1: roll-ask 3 2.1 3
        to s2: roll-ask 3 0.0 3
        begins restart
        Rolling in 3, asked s1 s2, awaits s1 s2

        . answered by both; board 7 open; s1: roll-ask 7 0.0 3; fail
        > restart
        to s1: roll-ask 8 0.0 2
        to s2: roll-ask 8 0.0 2
        begins restart
        Rolling in 8, asked s1 s2, awaits s1 s2",
    )?;
    tells(
        &rt,
        rt.alloc(),
        SHARD_1,
        ". served; fail
        > restart
        to w1: roll-ask 1 0.0 2
        to w2: roll-ask 1 0.0 2
        begins restart
        Rolling in 1, asked w1 w2, awaits w1 w2",
    )?;
    tells(
        &rt,
        rt.alloc(),
        IDLE,
        ". fail
        > restart
        to s1: roll-ask 1 0.0 2
        begins restart
        Rolling in 1, asked s1, awaits s1",
    )
}

/// Even where its verdict is there to be learnt.
#[test]
fn a_tentative_checkpoint_stands_in_the_way(rt: HostRuntime) -> Result<(), Fail> {
    tells(
        &rt,
        rt.alloc(),
        WORKER_1,
        ". answered; check; fail
        > restart
        refused: Unresolved
        . abandon
        > restart
        refused: Unresolved
        . learn
        > restart
        to s1: roll-ask 2 0.0 2
        to s2: roll-ask 2 0.0 2
        begins restart
        Rolling in 2, asked s1 s2, awaits s1 s2

        . answered; check; s1: vote 1 1 yes; decide; fail
        > restart
        refused: Unresolved
        . learn
        > restart
        to s1: roll-ask 2 1.1 2
        to s2: roll-ask 2 0.0 2
        begins restart
        Rolling in 2, asked s1 s2, awaits s1 s2

        . answered by both; board 7 open; s1: check-ask 7 1.1 3; fail
        > restart
        refused: Unresolved",
    )
}

#[test]
fn an_open_instance_of_its_own_stands_in_the_way(rt: HostRuntime) -> Result<(), Fail> {
    tells(
        &rt,
        rt.alloc(),
        WORKER_1,
        ". fail; restart; fail
        > restart
        refused: Unresolved
        . abandon
        > restart
        to s1: roll-ask 2 0.0 3
        to s2: roll-ask 2 0.0 3
        begins restart
        Rolling in 2, asked s1 s2, awaits s1 s2",
    )
}

#[test]
fn who_began_a_rollback_that_got_no_begins_another(rt: HostRuntime) -> Result<(), Fail> {
    tells(
        &rt,
        rt.alloc(),
        WORKER_1,
        ". fail; restart
        > restart
        refused: NotDecided
        . s1: vote 1 2 no
        > restart
        refused: NotDecided
        . decide
        > restart
        to s1: roll-ask 2 0.0 3
        to s2: roll-ask 2 0.0 3
        begins restart
        Rolling in 2, asked s1 s2, awaits s1 s2
        > s1: vote 1 2 yes
        Rolling in 2, asked s1 s2, awaits s1 s2
        > s1: vote 2 3 yes
        Rolling in 2, asked s1 s2, awaits s2

        . fail; restart; abandon
        > restart
        to s1: roll-ask 2 0.0 3
        to s2: roll-ask 2 0.0 3
        begins restart
        Rolling in 2, asked s1 s2, awaits s1 s2",
    )
}
