//! What a node does of itself only while it is up.

use crate::cases::{SHARD_1, WORKER_1, tells};
use std::test::Fail;

/// Held or rolling, as initiator or participant, and down.
#[test]
fn workers_ask_and_take_only_while_up(rt: HostRuntime) -> Result<(), Fail> {
    tells(
        &rt,
        rt.alloc(),
        WORKER_1,
        ". answered by both; issue; check
        > issue
        refused: WrongMode
        > repeat
        refused: WrongMode
        > take
        refused: WrongMode

        . answered by both; issue; board 7 open; s1: check-ask 7 1.1 3
        > issue
        refused: WrongMode
        > repeat
        refused: WrongMode
        > take
        refused: WrongMode

        . answered by both; issue; fail; restart
        > issue
        refused: WrongMode
        > repeat
        refused: WrongMode
        > take
        refused: WrongMode

        . answered by both; issue; board 7 open; s1: roll-ask 7 0.0 3
        > issue
        refused: WrongMode
        > repeat
        refused: WrongMode
        > take
        refused: WrongMode

        . answered by both; issue; fail
        > issue
        refused: WrongMode
        > repeat
        refused: WrongMode
        > take
        refused: WrongMode",
    )
}

#[test]
fn shards_serve_and_take_only_while_up(rt: HostRuntime) -> Result<(), Fail> {
    tells(
        &rt,
        rt.alloc(),
        SHARD_1,
        ". served; w2: request 1 1.1 by 8 out (2, 2); check
        > serve w2 0 by 8
        refused: WrongMode
        > take
        refused: WrongMode

        . served; w2: request 1 1.1 by 8 out (2, 2); board 7 open; w1: check-ask 7 1.1 3
        > serve w2 0 by 8
        refused: WrongMode
        > take
        refused: WrongMode

        . served; w2: request 1 1.1 by 8 out (2, 2); fail; restart
        > serve w2 0 by 8
        refused: WrongMode
        > take
        refused: WrongMode

        . served; w2: request 1 1.1 by 8 out (2, 2); board 7 open; w1: roll-ask 7 0.0 3
        > serve w2 0 by 8
        refused: WrongMode
        > take
        refused: WrongMode

        . served; w2: request 1 1.1 by 8 out (2, 2); fail
        > serve w2 0 by 8
        refused: WrongMode
        > take
        refused: WrongMode",
    )
}

#[test]
fn checks_begin_only_while_up(rt: HostRuntime) -> Result<(), Fail> {
    tells(
        &rt,
        rt.alloc(),
        WORKER_1,
        ". answered by both; check
        > check
        refused: WrongMode

        . answered by both; board 7 open; s1: check-ask 7 1.1 3
        > check
        refused: WrongMode

        . answered by both; fail; restart
        > check
        refused: WrongMode

        . answered by both; board 7 open; s1: roll-ask 7 0.0 3
        > check
        refused: WrongMode

        . answered by both; fail
        > check
        refused: WrongMode",
    )?;
    tells(
        &rt,
        rt.alloc(),
        SHARD_1,
        ". served; check
        > check
        refused: WrongMode

        . served; board 7 open; w1: check-ask 7 1.1 3
        > check
        refused: WrongMode

        . served; fail; restart
        > check
        refused: WrongMode

        . served; board 7 open; w1: roll-ask 7 0.0 3
        > check
        refused: WrongMode

        . served; fail
        > check
        refused: WrongMode",
    )
}

#[test]
fn only_what_is_down_or_rolls_as_initiator_restarts(rt: HostRuntime) -> Result<(), Fail> {
    tells(
        &rt,
        rt.alloc(),
        WORKER_1,
        ". answered by both; check
        > restart
        refused: WrongMode

        . answered by both; board 7 open; s1: check-ask 7 1.1 3
        > restart
        refused: WrongMode

        . answered by both; board 7 open; s1: roll-ask 7 0.0 3
        > restart
        refused: WrongMode

        . answered
        > restart
        refused: WrongMode",
    )
}

#[test]
fn only_what_votes_decides(rt: HostRuntime) -> Result<(), Fail> {
    tells(
        &rt,
        rt.alloc(),
        WORKER_1,
        ". answered
        > decide
        refused: WrongMode

        . answered by both; fail
        > decide
        refused: WrongMode",
    )
}

#[test]
fn what_is_up_abandons_and_learns_nothing(rt: HostRuntime) -> Result<(), Fail> {
    tells(
        &rt,
        rt.alloc(),
        WORKER_1,
        ". answered
        > abandon
        refused: WrongMode
        > learn
        refused: WrongMode

        . answered; saved by s1
        > abandon
        refused: WrongMode
        > learn
        refused: WrongMode

        . worker back
        > abandon
        refused: WrongMode
        > learn
        refused: WrongMode",
    )
}

#[test]
fn what_is_down_does_not_fail(rt: HostRuntime) -> Result<(), Fail> {
    tells(
        &rt,
        rt.alloc(),
        WORKER_1,
        ". answered by both; fail
        > fail
        refused: WrongMode

        . answered by both; check; fail
        > fail
        refused: WrongMode",
    )
}
