//! What workers and shards do of themselves, and what they make of each other's messages, while they are up and nothing
//! is kept.

use crate::cases::{IDLE, SHARD_1, WORKER_1, tells};
use std::test::Fail;

/// The next operation gets the next number and goes to its home. Labels count the messages to all shards together.
#[test]
fn issue_asks_the_home_of_the_next_operation(rt: HostRuntime) -> Result<(), Fail> {
    tells(
        &rt,
        rt.alloc(),
        WORKER_1,
        "> worker
        number 0 answered
        > issue
        to s1: request 1 1.1 by 1 out (1, 1)
        w1 by 0: w1.1 out (1, 1) issue
        Up
        > worker
        number 1 asked
        . s1: reply 1 1.1 by 3 done to out (1, 1)
        > issue
        to s2: request 2 1.2 by 3 out (1)
        w1 by 0: w1.2 out (1) issue
        Up",
    )
}

#[test]
fn issue_wants_an_operation_and_nothing_unanswered(rt: HostRuntime) -> Result<(), Fail> {
    tells(
        &rt,
        rt.alloc(),
        WORKER_1,
        "> issue
        to s1: request 1 1.1 by 1 out (1, 1)
        w1 by 0: w1.1 out (1, 1) issue
        Up
        > issue
        refused: NothingThere",
    )?;
    tells(
        &rt,
        rt.alloc(),
        IDLE,
        "> issue
        refused: NothingThere
        > repeat
        refused: NothingThere",
    )
}

/// The request is the same, its label is a new one.
#[test]
fn repeat_asks_once_more_for_what_is_unanswered(rt: HostRuntime) -> Result<(), Fail> {
    tells(
        &rt,
        rt.alloc(),
        WORKER_1,
        "> repeat
        refused: NothingThere
        . issue
        > repeat
        to s1: request 1 1.2 by 2 out (1, 1)
        w1 by 0: w1.1 out (1, 1) repeat
        Up
        > repeat
        to s1: request 1 1.3 by 3 out (1, 1)
        w1 by 0: w1.1 out (1, 1) repeat
        Up
        . s1: reply 1 1.1 by 5 done to out (1, 1)
        > repeat
        refused: NothingThere",
    )
}

#[test]
fn a_shard_is_no_worker_and_what_is_down_has_none(rt: HostRuntime) -> Result<(), Fail> {
    tells(
        &rt,
        rt.alloc(),
        SHARD_1,
        "> worker
        none",
    )?;
    tells(
        &rt,
        rt.alloc(),
        WORKER_1,
        ". answered; fail
        > worker
        none
        . restart
        > worker
        number 0 answered",
    )
}

#[test]
fn take_wants_a_kept_message(rt: HostRuntime) -> Result<(), Fail> {
    tells(
        &rt,
        rt.alloc(),
        WORKER_1,
        "> take
        refused: NothingThere",
    )?;
    tells(
        &rt,
        rt.alloc(),
        SHARD_1,
        "> take
        refused: NothingThere",
    )
}

/// The cause is the act that sent the request. Labels count the messages to all workers together.
#[test]
fn serve_answers_who_waits(rt: HostRuntime) -> Result<(), Fail> {
    tells(
        &rt,
        rt.alloc(),
        SHARD_1,
        "> serve w1 0 by 1
        refused: NothingThere
        . asked
        > serve w2 0 by 1
        refused: NothingThere
        > serve w1 0 by 1
        to w1: reply 1 1.1 by 2 done to out (1, 1)
        s1 by 1: w1.1 out (1, 1) served done
        Up
        > serve w1 0 by 1
        refused: NothingThere
        . w2: request 4 2.7 by 5 in (?int, ?int)
        > serve w2 0 by 5
        to w2: reply 4 1.2 by 4 got (1, 1) to in (?int, ?int)
        s1 by 5: w2.4 in (?int, ?int) served got (1, 1)
        Up",
    )
}

/// Who does not wait comes before which match.
#[test]
fn serve_wants_the_match(rt: HostRuntime) -> Result<(), Fail> {
    tells(
        &rt,
        rt.alloc(),
        SHARD_1,
        "> serve w1 3 by 1
        refused: NothingThere

        . asked
        > serve w1 1 by 1
        refused: NoSuchMatch

        . w1: request 1 1.1 by 1 in (?int)
        > serve w1 0 by 1
        refused: NoSuchMatch

        . w1: request 1 1.1 by 1 rd (?int)
        > serve w1 0 by 1
        refused: NoSuchMatch",
    )
}

#[test]
fn what_does_not_wait_is_answered_none_only_where_nothing_matches(
    rt: HostRuntime,
) -> Result<(), Fail> {
    tells(
        &rt,
        rt.alloc(),
        SHARD_1,
        ". w1: request 1 1.1 by 1 inp (?int)
        > serve w1 1 by 1
        refused: NoSuchMatch
        > serve w1 0 by 1
        to w1: reply 1 1.1 by 2 none to inp (?int)
        s1 by 1: w1.1 inp (?int) served none
        Up

        . served; w2: request 1 1.1 by 1 rdp (?int)
        > serve w2 1 by 1
        refused: NoSuchMatch
        > serve w2 0 by 1
        to w2: reply 1 1.2 by 4 none to rdp (?int)
        s1 by 1: w2.1 rdp (?int) served none
        Up

        . served; w2: request 1 1.1 by 1 inp (?int, ?int)
        > serve w2 1 by 1
        refused: NoSuchMatch
        > serve w2 0 by 1
        to w2: reply 1 1.2 by 4 got (1, 1) to inp (?int, ?int)
        s1 by 1: w2.1 inp (?int, ?int) served got (1, 1)
        Up",
    )
}

#[test]
fn matches_count_in_order_of_arrival(rt: HostRuntime) -> Result<(), Fail> {
    tells(
        &rt,
        rt.alloc(),
        SHARD_1,
        ". served; w1: request 2 1.2 by 4 out (1, 2); serve w1 0 by 4; w2: request 1 1.1 by 6 in (?int, ?int)
        > serve w2 2 by 6
        refused: NoSuchMatch
        > serve w2 1 by 6
        to w2: reply 1 1.3 by 6 got (1, 2) to in (?int, ?int)
        s1 by 6: w2.1 in (?int, ?int) served got (1, 2)
        Up
        . w2: request 2 1.2 by 8 in (?int, ?int)
        > serve w2 1 by 8
        refused: NoSuchMatch
        > serve w2 0 by 8
        to w2: reply 2 1.4 by 8 got (1, 1) to in (?int, ?int)
        s1 by 8: w2.2 in (?int, ?int) served got (1, 1)
        Up",
    )
}

#[test]
fn what_is_read_stays(rt: HostRuntime) -> Result<(), Fail> {
    tells(
        &rt,
        rt.alloc(),
        SHARD_1,
        ". served; w2: request 1 1.1 by 6 rd (?int, ?int); serve w2 0 by 6; w2: request 2 1.2 by 8 rdp (1, ?int)
        > serve w2 0 by 8
        to w2: reply 2 1.3 by 6 got (1, 1) to rdp (1, ?int)
        s1 by 8: w2.2 rdp (1, ?int) served got (1, 1)
        Up
        . w2: request 3 1.3 by 9 in (?int, ?int)
        > serve w2 0 by 9
        to w2: reply 3 1.4 by 8 got (1, 1) to in (?int, ?int)
        s1 by 9: w2.3 in (?int, ?int) served got (1, 1)
        Up",
    )
}

/// A number above what a worker waits with waits in its place; what is not above is ignored while it waits.
#[test]
fn a_new_request_waits(rt: HostRuntime) -> Result<(), Fail> {
    tells(
        &rt,
        rt.alloc(),
        SHARD_1,
        "> w1: request 1 1.1 by 1 out (1, 1)
        s1 by 1: w1.1 out (1, 1) heard
        Up
        > w1: request 1 1.2 by 2 out (1, 1)
        s1 by 2: w1.1 out (1, 1) ignored
        Up
        > w1: request 3 1.3 by 5 in (?int)
        s1 by 5: w1.3 in (?int) heard
        Up
        > w1: request 2 1.4 by 6 out (1, 1)
        s1 by 6: w1.2 out (1, 1) ignored
        Up
        > serve w1 0 by 5
        refused: NoSuchMatch",
    )
}

/// The last request that was served is answered again so, unless the worker waits.
#[test]
fn a_served_request_is_answered_again(rt: HostRuntime) -> Result<(), Fail> {
    tells(
        &rt,
        rt.alloc(),
        SHARD_1,
        ". served
        > w1: request 1 1.2 by 4 out (1, 1)
        to w1: reply 1 1.2 by 3 done to out (1, 1)
        s1 by 4: w1.1 out (1, 1) again done
        Up
        > w1: request 1 1.3 by 5 out (1, 2)
        s1 by 5: w1.1 out (1, 2) ignored
        Up
        > w2: request 1 1.1 by 8 out (1, 1)
        s1 by 8: w2.1 out (1, 1) heard
        Up
        > w1: request 2 1.4 by 9 in (1, 7)
        s1 by 9: w1.2 in (1, 7) heard
        Up
        > w1: request 1 1.5 by 10 out (1, 1)
        s1 by 10: w1.1 out (1, 1) ignored
        Up

        . served; w1: request 3 1.2 by 4 out (1, 2); serve w1 0 by 4
        > w1: request 2 1.3 by 9 out (1, 1)
        s1 by 9: w1.2 out (1, 1) ignored
        Up
        > w1: request 1 1.4 by 10 out (1, 1)
        s1 by 10: w1.1 out (1, 1) ignored
        Up",
    )
}

#[test]
fn a_reply_to_what_is_unanswered_is_accepted(rt: HostRuntime) -> Result<(), Fail> {
    tells(
        &rt,
        rt.alloc(),
        WORKER_1,
        "> s1: reply 1 1.1 by 3 done to out (1, 1)
        w1 by 3: w1.1 out (1, 1) ignored done
        Up

        . issue
        > s1: reply 2 1.1 by 3 done to out (1, 1)
        w1 by 3: w1.2 out (1, 1) ignored done
        Up
        > s1: reply 1 1.2 by 4 done to out (1, 2)
        w1 by 4: w1.1 out (1, 2) ignored done
        Up
        > worker
        number 1 asked
        > s1: reply 1 1.3 by 5 done to out (1, 1)
        w1 by 5: w1.1 out (1, 1) accepted done
        Up
        > worker
        number 1 answered
        > s1: reply 1 1.4 by 6 done to out (1, 1)
        w1 by 6: w1.1 out (1, 1) ignored done
        Up",
    )
}

/// What is ignored was received too, and an answer that is given again was sent.
#[test]
fn what_is_heard_and_sent_shows_in_a_checkpoint(rt: HostRuntime) -> Result<(), Fail> {
    tells(
        &rt,
        rt.alloc(),
        WORKER_1,
        ". issue; s1: reply 2 1.3 by 3 done to out (1, 1)
        > check
        to s1: check-ask 1 1.3 1
        begins check: w1 acts 2 sent 1.1 0.0 received 1.3 0.0 number 1 asked
        Held in 1, asked s1, awaits s1",
    )?;
    tells(
        &rt,
        rt.alloc(),
        SHARD_1,
        ". served; w1: request 1 1.2 by 4 out (1, 1)
        > check
        to w1: check-ask 1 1.2 1
        begins check: s1 acts 3 sent 1.2 0.0 received 1.2 0.0 tuples 1 waiting 0 kept 1
        Held in 1, asked w1, awaits w1",
    )
}
