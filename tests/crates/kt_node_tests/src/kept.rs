//! Underlying messages that come while a node is not simply up.

use crate::cases::{SHARD_1, WORKER_1, tells};
use std::test::Fail;

/// They are taken in the order in which they came, once the node is up, whatever the verdict.
#[test]
fn what_comes_while_held_is_kept(rt: HostRuntime) -> Result<(), Fail> {
    tells(
        &rt,
        rt.alloc(),
        SHARD_1,
        ". check
        > w1: request 1 1.1 by 1 out (1, 1)
        Held in 1, asked
        > w2: request 1 1.1 by 2 out (2, 2)
        Held in 1, asked
        > take
        refused: WrongMode
        . abandon; learn
        > take
        s1 by 1: w1.1 out (1, 1) heard
        Up
        > take
        s1 by 2: w2.1 out (2, 2) heard
        Up
        > take
        refused: NothingThere

        . check; w1: request 1 1.1 by 1 out (1, 1); decide; learn
        > take
        s1 by 1: w1.1 out (1, 1) heard
        Up

        . served; board 7 open; w1: check-ask 7 1.1 3
        > w1: request 2 1.2 by 4 out (2, 2)
        Held in 7 for w1.3, asked w1, awaits w1
        . board 7 yes; learn
        > take
        s1 by 4: w1.2 out (2, 2) heard
        Up",
    )
}

#[test]
fn what_comes_while_something_is_kept_is_kept_too(rt: HostRuntime) -> Result<(), Fail> {
    tells(
        &rt,
        rt.alloc(),
        SHARD_1,
        ". check; w1: request 1 1.1 by 1 out (1, 1); abandon; learn
        > w2: request 1 1.1 by 2 out (2, 2)
        Up
        > take
        s1 by 1: w1.1 out (1, 1) heard
        Up
        > w1: request 2 1.2 by 5 out (3, 3)
        Up
        > take
        s1 by 2: w2.1 out (2, 2) heard
        Up
        > take
        s1 by 5: w1.2 out (3, 3) heard
        Up
        > w2: request 2 1.2 by 9 out (4, 4)
        s1 by 9: w2.2 out (4, 4) heard
        Up",
    )
}

#[test]
fn what_is_kept_was_not_received(rt: HostRuntime) -> Result<(), Fail> {
    tells(
        &rt,
        rt.alloc(),
        SHARD_1,
        ". check; w1: request 1 1.1 by 1 out (1, 1); abandon; learn
        > check
        begins check: s1 acts 0 sent 0.0 0.0 received 0.0 0.0 tuples 0 waiting 0 kept 0
        Held in 2, asked
        . abandon; learn; take
        > check
        to w1: check-ask 3 1.1 1
        begins check: s1 acts 1 sent 0.0 0.0 received 1.1 0.0 tuples 0 waiting 1 kept 0
        Held in 3, asked w1, awaits w1",
    )
}

#[test]
fn a_kept_message_is_heard_as_it_would_have_been(rt: HostRuntime) -> Result<(), Fail> {
    tells(
        &rt,
        rt.alloc(),
        SHARD_1,
        ". served; check; w1: request 1 1.2 by 4 out (1, 1); abandon; learn
        > take
        to w1: reply 1 1.2 by 3 done to out (1, 1)
        s1 by 4: w1.1 out (1, 1) again done
        Up",
    )?;
    tells(
        &rt,
        rt.alloc(),
        WORKER_1,
        ". issue; check; s1: reply 1 1.1 by 3 done to out (1, 1); abandon; learn
        > take
        w1 by 3: w1.1 out (1, 1) accepted done
        Up
        > issue
        to s2: request 2 1.2 by 3 out (1)
        w1 by 0: w1.2 out (1) issue
        Up",
    )
}

#[test]
fn issue_alone_waits_for_what_is_kept(rt: HostRuntime) -> Result<(), Fail> {
    tells(
        &rt,
        rt.alloc(),
        WORKER_1,
        ". answered; check; s1: reply 1 1.2 by 5 done to out (1, 1); abandon; learn
        > issue
        refused: NothingThere
        > take
        w1 by 5: w1.1 out (1, 1) ignored done
        Up
        > issue
        to s2: request 2 1.2 by 4 out (1)
        w1 by 0: w1.2 out (1) issue
        Up

        . issue; check; s1: reply 1 1.1 by 3 done to out (1, 1); abandon; learn
        > repeat
        to s1: request 1 1.2 by 2 out (1, 1)
        w1 by 0: w1.1 out (1, 1) repeat
        Up
        > take
        w1 by 3: w1.1 out (1, 1) accepted done
        Up",
    )?;
    tells(
        &rt,
        rt.alloc(),
        SHARD_1,
        ". asked; check; w2: request 1 1.1 by 9 out (2, 2); abandon; learn
        > serve w1 0 by 1
        to w1: reply 1 1.1 by 2 done to out (1, 1)
        s1 by 1: w1.1 out (1, 1) served done
        Up
        > take
        s1 by 9: w2.1 out (2, 2) heard
        Up",
    )
}

/// As participant or initiator, with something kept or not.
#[test]
fn what_comes_while_rolling_is_dropped(rt: HostRuntime) -> Result<(), Fail> {
    tells(
        &rt,
        rt.alloc(),
        SHARD_1,
        ". served; board 7 open; w1: roll-ask 7 0.0 2
        > w2: request 1 1.1 by 9 out (2, 2)
        Rolling in 7 for w1.2, asked w1 w2, awaits w1 w2
        . board 7 no; learn
        > take
        refused: NothingThere
        > w2: request 2 1.2 by 10 out (2, 2)
        s1 by 10: w2.2 out (2, 2) heard
        Up

        . fail; restart
        > w2: request 1 1.1 by 9 out (2, 2)
        Rolling in 1, asked w1 w2, awaits w1 w2
        . w1: vote 1 2 yes; w2: vote 1 2 yes; decide
        > take
        refused: NothingThere

        . asked; check; w2: request 1 1.1 by 9 out (2, 2); abandon; learn; board 7 open; w1: roll-ask 7 0.0 2
        > w2: request 2 1.2 by 10 out (2, 2)
        Rolling in 7 for w1.2, asked w1 w2, awaits w1 w2
        > take
        refused: WrongMode
        . board 7 no; learn
        > take
        s1 by 9: w2.1 out (2, 2) heard
        Up
        > take
        refused: NothingThere",
    )
}

#[test]
fn what_comes_while_down_is_dropped(rt: HostRuntime) -> Result<(), Fail> {
    tells(
        &rt,
        rt.alloc(),
        SHARD_1,
        ". fail
        > w2: request 1 1.1 by 9 out (2, 2)
        Down
        . restart; w1: vote 1 2 yes; w2: vote 1 2 yes; decide
        > take
        refused: NothingThere",
    )
}

#[test]
fn loading_and_failing_empty_what_is_kept(rt: HostRuntime) -> Result<(), Fail> {
    tells(
        &rt,
        rt.alloc(),
        SHARD_1,
        ". asked; check; w2: request 1 1.1 by 9 out (2, 2); abandon; learn; board 7 open; w1: roll-ask 7 0.0 2
        . board 7 yes; learn
        > take
        refused: NothingThere
        > w2: request 2 1.2 by 10 out (2, 2)
        s1 by 10: w2.2 out (2, 2) heard
        Up

        . check; w2: request 1 1.1 by 9 out (2, 2); abandon; learn
        . fail; restart; w1: vote 2 2 yes; w2: vote 2 2 yes; decide
        > take
        refused: NothingThere",
    )
}
