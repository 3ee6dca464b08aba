//! Nodes that fail. The log is cut to the tentative checkpoint if there is one whose verdict is not No, else to the
//! permanent one.

use crate::cases::{SHARD_1, WORKER_1, tells};
use std::test::Fail;

#[test]
fn what_is_up_is_cut_to_the_permanent_checkpoint(rt: HostRuntime) -> Result<(), Fail> {
    tells(
        &rt,
        rt.alloc(),
        WORKER_1,
        "> fail
        w1 is cut to 0
        Down

        . answered
        > fail
        w1 is cut to 0
        Down

        . answered; saved by s1; issue
        > fail
        w1 is cut to 2
        Down",
    )?;
    tells(
        &rt,
        rt.alloc(),
        SHARD_1,
        ". served; saved by w1; w1: request 2 1.2 by 9 in (?int, ?int)
        > fail
        s1 is cut to 2
        Down",
    )
}

/// As initiator or participant, before it has learnt the verdict.
#[test]
fn what_is_held_is_cut_to_the_tentative_checkpoint_unless_there_is_a_no(
    rt: HostRuntime,
) -> Result<(), Fail> {
    tells(
        &rt,
        rt.alloc(),
        WORKER_1,
        ". answered; check
        > fail
        w1 is cut to 2
        Down

        . answered; saved by s1; issue; check
        > fail
        w1 is cut to 3
        Down

        . answered; check; s1: vote 1 1 yes; decide
        > fail
        w1 is cut to 2
        Down

        . answered; check; abandon
        > fail
        w1 is cut to 0
        Down

        . answered; saved by s1; issue; check; abandon
        > fail
        w1 is cut to 2
        Down

        . answered by both; board 7 open; s1: check-ask 7 1.1 3
        > fail
        w1 is cut to 4
        Down

        . answered by both; board 7 open; s1: check-ask 7 1.1 3; board 7 yes
        > fail
        w1 is cut to 4
        Down

        . answered by both; board 7 open; s1: check-ask 7 1.1 3; board 7 no
        > fail
        w1 is cut to 0
        Down",
    )
}

/// Whatever its verdict.
#[test]
fn what_rolls_is_cut_to_the_permanent_checkpoint(rt: HostRuntime) -> Result<(), Fail> {
    tells(
        &rt,
        rt.alloc(),
        WORKER_1,
        ". answered; saved by s1; issue; fail; restart
        > fail
        w1 is cut to 2
        Down

        . answered by both; board 7 open; s1: roll-ask 7 0.0 3
        > fail
        w1 is cut to 0
        Down

        . answered by both; board 7 open; s1: roll-ask 7 0.0 3; board 7 yes
        > fail
        w1 is cut to 0
        Down

        . answered; saved by s1; issue; s2: reply 2 1.4 by 9 done to out (1); board 7 open; s2: roll-ask 7 0.0 3
        > fail
        w1 is cut to 2
        Down",
    )
}
