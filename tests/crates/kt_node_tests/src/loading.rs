//! What a node is when it has loaded its permanent checkpoint.

use crate::cases::{SHARD_1, WORKER_1, tells};
use std::test::Fail;

#[test]
fn a_worker_asks_for_what_it_had_asked_for(rt: HostRuntime) -> Result<(), Fail> {
    tells(
        &rt,
        rt.alloc(),
        WORKER_1,
        ". issue; check; decide; learn; s1: reply 1 1.1 by 3 done to out (1, 1); issue
        . fail; restart; s1: vote 2 2 yes; s2: vote 2 2 yes; decide
        > worker
        number 1 asked
        > issue
        refused: NothingThere
        > repeat
        to s1: request 1 2.1 by 5 out (1, 1)
        w1 by 0: w1.1 out (1, 1) repeat
        Up
        > s1: reply 1 1.2 by 9 done to out (1, 1)
        w1 by 9: w1.1 out (1, 1) accepted done
        Up
        > issue
        to s2: request 2 2.2 by 7 out (1)
        w1 by 0: w1.2 out (1) issue
        Up",
    )
}

#[test]
fn a_worker_without_a_checkpoint_begins_anew(rt: HostRuntime) -> Result<(), Fail> {
    tells(
        &rt,
        rt.alloc(),
        WORKER_1,
        ". answered by both; issue; worker back
        > repeat
        refused: NothingThere
        > issue
        to s1: request 1 2.1 by 7 out (1, 1)
        w1 by 0: w1.1 out (1, 1) issue
        Up",
    )
}

#[test]
fn a_shard_has_its_tuples_and_answers_again(rt: HostRuntime) -> Result<(), Fail> {
    tells(
        &rt,
        rt.alloc(),
        SHARD_1,
        ". served; w2: request 1 1.1 by 2 in (7, 7); check; w1: vote 1 1 yes; w2: vote 1 1 yes; decide; learn
        . w1: request 2 1.2 by 9 in (?int, ?int); serve w1 0 by 9
        . fail; restart; w1: vote 2 2 yes; w2: vote 2 2 yes; decide
        > w1: request 1 1.3 by 11 out (1, 1)
        to w1: reply 1 2.1 by 7 done to out (1, 1)
        s1 by 11: w1.1 out (1, 1) again done
        Up
        > w1: request 2 1.4 by 12 in (?int, ?int)
        s1 by 12: w1.2 in (?int, ?int) heard
        Up
        > serve w2 0 by 2
        refused: NoSuchMatch
        > serve w1 0 by 12
        to w1: reply 2 2.2 by 9 got (1, 1) to in (?int, ?int)
        s1 by 12: w1.2 in (?int, ?int) served got (1, 1)
        Up",
    )
}

#[test]
fn a_shard_without_a_checkpoint_begins_anew(rt: HostRuntime) -> Result<(), Fail> {
    tells(
        &rt,
        rt.alloc(),
        SHARD_1,
        ". served; asked; shard back
        > serve w1 0 by 1
        refused: NothingThere
        > w1: request 1 1.3 by 11 out (1, 1)
        s1 by 11: w1.1 out (1, 1) heard
        Up
        > check
        to w1: check-ask 2 1.3 2
        begins check: s1 acts 1 sent 0.0 0.0 received 1.3 0.0 tuples 0 waiting 1 kept 0
        Held in 2, asked w1, awaits w1",
    )
}

/// What was heard of s1 is 1.1 again and of s2 nothing; s1 was sent 1.1 and s2 nothing, and nothing since.
#[test]
fn labels_are_those_of_the_checkpoint(rt: HostRuntime) -> Result<(), Fail> {
    tells(
        &rt,
        rt.alloc(),
        WORKER_1,
        ". answered; saved by s1; issue; s2: reply 2 1.4 by 9 done to out (1); fail; restart
        . s1: vote 2 2 yes; s2: vote 2 2 yes; decide; board 7 open; board 8 open
        > s2: check-ask 8 1.2 1
        to s2: vote 8 1 no
        Up
        > s1: check-ask 8 1.1 1
        to s1: vote 8 1 yes
        Up
        > s2: roll-ask 7 0.0 2
        to s2: vote 7 2 yes
        Up
        > s1: roll-ask 7 1.1 2
        to s1: vote 7 2 yes
        Up
        > s1: roll-ask 7 1.0 2
        to s1: roll-ask 7 1.1 2
        to s2: roll-ask 7 0.0 2
        Rolling in 7 for s1.2, asked s1 s2, awaits s1 s2",
    )
}
