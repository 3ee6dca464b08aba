//! Asks to take a tentative checkpoint. The label is the last one that the asker received from the asked node.

use crate::cases::{SHARD_1, WORKER_1, tells};
use std::test::Fail;

/// It votes at once: there is nobody to ask. The vote repeats the incarnation of the ask.
#[test]
fn a_joiner_with_an_empty_cohort_votes_yes_at_once(rt: HostRuntime) -> Result<(), Fail> {
    tells(
        &rt,
        rt.alloc(),
        WORKER_1,
        ". issue; board 7 open
        > s1: check-ask 7 1.1 3
        to s1: vote 7 3 yes
        tentative in 7: w1 acts 1 sent 1.1 0.0 received 0.0 0.0 number 1 asked
        Held in 7 for s1.3, asked, voted",
    )
}

/// It asks those of whom it has heard since its permanent checkpoint, the asker too, and no others.
#[test]
fn a_joiner_asks_its_cohort(rt: HostRuntime) -> Result<(), Fail> {
    tells(
        &rt,
        rt.alloc(),
        WORKER_1,
        ". answered; board 7 open
        > s1: check-ask 7 1.1 3
        to s1: check-ask 7 1.1 1
        tentative in 7: w1 acts 2 sent 1.1 0.0 received 1.1 0.0 number 1 answered
        Held in 7 for s1.3, asked s1, awaits s1

        . answered by both; board 7 open
        > s2: check-ask 7 1.2 1
        to s1: check-ask 7 1.1 1
        to s2: check-ask 7 1.4 1
        tentative in 7: w1 acts 4 sent 1.1 1.2 received 1.1 1.4 number 2 answered
        Held in 7 for s2.1, asked s1 s2, awaits s1 s2

        . answered; saved by s1; issue; s2: reply 2 1.4 by 9 done to out (1); board 7 open
        > s2: check-ask 7 1.2 1
        to s2: check-ask 7 1.4 1
        tentative in 7: w1 acts 4 sent 1.1 1.2 received 1.1 1.4 number 2 answered
        Held in 7 for s2.1, asked s2, awaits s2

        . answered; saved by s1; s1: reply 1 1.5 by 8 done to out (1, 1); issue; board 7 open
        > s2: check-ask 7 1.2 1
        to s1: check-ask 7 1.5 1
        tentative in 7: w1 acts 4 sent 1.1 1.2 received 1.5 0.0 number 2 asked
        Held in 7 for s2.1, asked s1, awaits s1

        . worker back; issue; s1: reply 1 3.1 by 9 done to out (1, 1); board 7 open
        > s1: check-ask 7 2.1 4
        to s1: check-ask 7 3.1 2
        tentative in 7: w1 acts 2 sent 2.1 0.0 received 3.1 0.0 number 1 answered
        Held in 7 for s1.4, asked s1, awaits s1",
    )?;
    tells(
        &rt,
        rt.alloc(),
        SHARD_1,
        ". served; board 7 open
        > w1: check-ask 7 1.1 1
        to w1: check-ask 7 1.1 1
        tentative in 7: s1 acts 2 sent 1.1 0.0 received 1.1 0.0 tuples 1 waiting 0 kept 1
        Held in 7 for w1.1, asked w1, awaits w1",
    )
}

/// What is kept was not received.
#[test]
fn a_joiner_does_not_ask_for_what_it_keeps(rt: HostRuntime) -> Result<(), Fail> {
    tells(
        &rt,
        rt.alloc(),
        WORKER_1,
        ". issue; check; s1: reply 1 1.1 by 3 done to out (1, 1); abandon; learn; board 7 open
        > s1: check-ask 7 1.1 1
        to s1: vote 7 1 yes
        tentative in 7: w1 acts 1 sent 1.1 0.0 received 0.0 0.0 number 1 asked
        Held in 7 for s1.1, asked, voted",
    )
}

/// From the first label that was sent to the asker since the permanent checkpoint to the last one.
#[test]
fn a_node_joins_between_its_first_label_and_its_last(rt: HostRuntime) -> Result<(), Fail> {
    tells(
        &rt,
        rt.alloc(),
        WORKER_1,
        ". issue; repeat; repeat; board 7 open
        > s1: check-ask 7 1.4 1
        to s1: vote 7 1 no
        Up
        > s1: check-ask 7 1.3 1
        to s1: vote 7 1 yes
        tentative in 7: w1 acts 3 sent 1.3 0.0 received 0.0 0.0 number 1 asked
        Held in 7 for s1.1, asked, voted

        . issue; repeat; repeat; board 7 open
        > s1: check-ask 7 1.2 1
        to s1: vote 7 1 yes
        tentative in 7: w1 acts 3 sent 1.3 0.0 received 0.0 0.0 number 1 asked
        Held in 7 for s1.1, asked, voted

        . issue; repeat; repeat; board 7 open
        > s1: check-ask 7 1.1 1
        to s1: vote 7 1 yes
        tentative in 7: w1 acts 3 sent 1.3 0.0 received 0.0 0.0 number 1 asked
        Held in 7 for s1.1, asked, voted",
    )
}

/// Each neighbour has its own first label. A permanent checkpoint clears them, a check that got No does not.
#[test]
fn below_the_first_label_is_a_no(rt: HostRuntime) -> Result<(), Fail> {
    tells(
        &rt,
        rt.alloc(),
        WORKER_1,
        ". issue; board 7 open
        > s2: check-ask 7 1.1 1
        to s2: vote 7 1 no
        Up

        . answered; saved by s1; issue; s2: reply 2 1.4 by 9 done to out (1); issue; board 7 open
        > s1: check-ask 7 1.2 1
        to s1: vote 7 1 no
        Up
        > s1: check-ask 7 1.3 1
        to s2: check-ask 7 1.4 1
        tentative in 7: w1 acts 5 sent 1.3 1.2 received 1.1 1.4 number 3 asked
        Held in 7 for s1.1, asked s2, awaits s2

        . issue; check; abandon; learn; repeat; board 7 open
        > s1: check-ask 7 1.1 1
        to s1: vote 7 1 yes
        tentative in 7: w1 acts 2 sent 1.2 0.0 received 0.0 0.0 number 1 asked
        Held in 7 for s1.1, asked, voted",
    )
}

/// Nothing is taken then. Without a permanent checkpoint that is the label of no message.
#[test]
fn what_the_permanent_checkpoint_has_sent_is_a_yes(rt: HostRuntime) -> Result<(), Fail> {
    tells(
        &rt,
        rt.alloc(),
        WORKER_1,
        ". issue; board 7 open
        > s1: check-ask 7 0.0 2
        to s1: vote 7 2 yes
        Up

        . issue; repeat; check; decide; learn; repeat; board 7 open
        > s1: check-ask 7 1.1 1
        to s1: vote 7 1 yes
        Up
        > s1: check-ask 7 1.2 1
        to s1: vote 7 1 yes
        Up
        > s1: check-ask 7 1.3 1
        to s1: vote 7 1 yes
        tentative in 7: w1 acts 3 sent 1.3 0.0 received 0.0 0.0 number 1 asked
        Held in 7 for s1.1, asked, voted
        > s1: check-ask 7 1.2 4
        to s1: vote 7 4 yes
        Held in 7 for s1.1, asked, voted",
    )
}

/// Whatever the label, and in each mode.
#[test]
fn a_check_with_a_verdict_is_a_no(rt: HostRuntime) -> Result<(), Fail> {
    tells(
        &rt,
        rt.alloc(),
        WORKER_1,
        ". issue; board 7 yes; board 8 no
        > s1: check-ask 7 0.0 1
        to s1: vote 7 1 no
        Up
        > s1: check-ask 7 1.1 1
        to s1: vote 7 1 no
        Up
        > s1: check-ask 8 0.0 2
        to s1: vote 8 2 no
        Up
        > s1: check-ask 8 1.1 2
        to s1: vote 8 2 no
        Up

        . issue; check; decide
        > s1: check-ask 1 1.1 1
        to s1: vote 1 1 no
        Held in 1, asked

        . issue; check; abandon
        > s1: check-ask 1 0.0 1
        to s1: vote 1 1 no
        Held in 1, asked

        . issue; fail; restart; board 7 no
        > s1: check-ask 7 0.0 1
        to s1: vote 7 1 no
        Rolling in 1, asked s1 s2, awaits s1 s2",
    )
}

/// As initiator or participant. Nothing is taken a second time.
#[test]
fn a_held_node_says_yes_in_its_instance_up_to_what_its_checkpoint_has_sent(
    rt: HostRuntime,
) -> Result<(), Fail> {
    tells(
        &rt,
        rt.alloc(),
        WORKER_1,
        ". issue; check
        > s1: check-ask 1 1.1 1
        to s1: vote 1 1 yes
        Held in 1, asked
        > s1: check-ask 1 1.2 1
        to s1: vote 1 1 no
        Held in 1, asked
        > s2: check-ask 1 0.0 1
        to s2: vote 1 1 yes
        Held in 1, asked
        > s2: check-ask 1 1.1 1
        to s2: vote 1 1 no
        Held in 1, asked

        . answered by both; board 7 open; s1: check-ask 7 1.1 3
        > s2: check-ask 7 1.2 1
        to s2: vote 7 1 yes
        Held in 7 for s1.3, asked s1 s2, awaits s1 s2
        > s1: check-ask 7 1.2 3
        to s1: vote 7 3 no
        Held in 7 for s1.3, asked s1 s2, awaits s1 s2",
    )
}

/// Up to what its permanent checkpoint has sent it says yes all the same.
#[test]
fn a_held_node_says_no_in_another_instance(rt: HostRuntime) -> Result<(), Fail> {
    tells(
        &rt,
        rt.alloc(),
        WORKER_1,
        ". issue; check; board 8 open
        > s1: check-ask 8 1.1 1
        to s1: vote 8 1 no
        Held in 1, asked
        > s1: check-ask 8 0.0 1
        to s1: vote 8 1 yes
        Held in 1, asked

        . issue; check; decide; learn; repeat; check; board 8 open
        > s1: check-ask 8 1.1 1
        to s1: vote 8 1 yes
        Held in 2, asked
        > s1: check-ask 8 1.2 1
        to s1: vote 8 1 no
        Held in 2, asked
        > s1: check-ask 2 1.2 1
        to s1: vote 2 1 yes
        Held in 2, asked

        . issue; board 7 open; board 8 open; s1: check-ask 7 1.1 3
        > s1: check-ask 8 1.1 3
        to s1: vote 8 3 no
        Held in 7 for s1.3, asked, voted",
    )
}

/// As participant or initiator; up to what its permanent checkpoint has sent it says yes.
#[test]
fn a_rolling_node_says_no(rt: HostRuntime) -> Result<(), Fail> {
    tells(
        &rt,
        rt.alloc(),
        WORKER_1,
        ". answered; board 7 open; board 8 open; s1: roll-ask 7 0.0 2
        > s1: check-ask 8 1.1 1
        to s1: vote 8 1 no
        Rolling in 7 for s1.2, asked s1 s2, awaits s1 s2
        > s1: check-ask 8 0.0 1
        to s1: vote 8 1 yes
        Rolling in 7 for s1.2, asked s1 s2, awaits s1 s2

        . issue; fail; restart; board 8 open
        > s1: check-ask 8 1.1 1
        to s1: vote 8 1 no
        Rolling in 1, asked s1 s2, awaits s1 s2
        > s1: check-ask 8 0.0 1
        to s1: vote 8 1 yes
        Rolling in 1, asked s1 s2, awaits s1 s2

        . issue; check; decide; learn; fail; restart; board 8 open
        > s1: check-ask 8 1.1 1
        to s1: vote 8 1 yes
        Rolling in 2, asked s1 s2, awaits s1 s2",
    )
}

#[test]
fn a_node_that_is_down_drops_the_ask(rt: HostRuntime) -> Result<(), Fail> {
    tells(
        &rt,
        rt.alloc(),
        WORKER_1,
        ". issue; fail; board 7 open
        > s1: check-ask 7 1.1 1
        Down
        > s1: check-ask 7 0.0 1
        Down

        . issue; check; fail
        > s1: check-ask 1 1.1 1
        Down",
    )
}

#[test]
fn labels_compare_by_incarnation_first(rt: HostRuntime) -> Result<(), Fail> {
    tells(
        &rt,
        rt.alloc(),
        WORKER_1,
        ". worker back; issue; board 7 open
        > s1: check-ask 7 1.9 1
        to s1: vote 7 1 no
        Up
        > s1: check-ask 7 2.1 1
        to s1: vote 7 1 yes
        tentative in 7: w1 acts 1 sent 2.1 0.0 received 0.0 0.0 number 1 asked
        Held in 7 for s1.1, asked, voted
        . board 7 yes; learn; board 8 open
        > s1: check-ask 8 1.9 1
        to s1: vote 8 1 yes
        Up",
    )
}
