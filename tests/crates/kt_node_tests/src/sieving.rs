//! What an ask to roll back drops of the kept messages: those from the asker above the label, whatever is answered.
//! s1 has heard 1.1 of w1 and keeps 1.2 of w1, 1.1 of w2 and 1.3 of w1, in this order.

use crate::cases::{SHARD_1, tells};
use std::test::Fail;

#[test]
fn a_yes_while_held_drops_what_is_above_the_label(rt: HostRuntime) -> Result<(), Fail> {
    tells(
        &rt,
        rt.alloc(),
        SHARD_1,
        ". keeps three; board 7 open
        > w1: roll-ask 7 1.2 2
        to w1: vote 7 2 yes
        Held in 1, asked w1, awaits w1
        . abandon; learn
        > take
        s1 by 3: w1.2 out (2, 2) heard
        Up
        > take
        s1 by 4: w2.1 out (3, 3) heard
        Up
        > take
        refused: NothingThere

        . keeps three; board 7 open
        > w1: roll-ask 7 1.3 2
        to w1: vote 7 2 yes
        Held in 1, asked w1, awaits w1
        . abandon; learn
        > take
        s1 by 3: w1.2 out (2, 2) heard
        Up
        > take
        s1 by 4: w2.1 out (3, 3) heard
        Up
        > take
        s1 by 5: w1.2 out (2, 2) ignored
        Up
        > take
        refused: NothingThere

        . keeps three; board 7 open
        > w2: roll-ask 7 0.0 2
        to w2: vote 7 2 yes
        Held in 1, asked w1, awaits w1
        . abandon; learn
        > take
        s1 by 3: w1.2 out (2, 2) heard
        Up
        > take
        s1 by 5: w1.2 out (2, 2) ignored
        Up
        > take
        refused: NothingThere",
    )
}

/// Because there is a verdict, or because the node is held and has heard something above the label.
#[test]
fn a_no_drops_it_too(rt: HostRuntime) -> Result<(), Fail> {
    tells(
        &rt,
        rt.alloc(),
        SHARD_1,
        ". keeps three; board 7 no
        > w1: roll-ask 7 1.2 2
        to w1: vote 7 2 no
        Held in 1, asked w1, awaits w1
        . abandon; learn
        > take
        s1 by 3: w1.2 out (2, 2) heard
        Up
        > take
        s1 by 4: w2.1 out (3, 3) heard
        Up
        > take
        refused: NothingThere

        . keeps three; board 7 open
        > w1: roll-ask 7 1.0 2
        to w1: vote 7 2 no
        Held in 1, asked w1, awaits w1
        . abandon; learn
        > take
        s1 by 4: w2.1 out (3, 3) heard
        Up
        > take
        refused: NothingThere",
    )
}

#[test]
fn a_node_that_is_up_drops_it_whatever_it_answers(rt: HostRuntime) -> Result<(), Fail> {
    tells(
        &rt,
        rt.alloc(),
        SHARD_1,
        ". keeps three; abandon; learn; board 7 open
        > w1: roll-ask 7 1.1 2
        to w1: vote 7 2 yes
        Up
        > take
        s1 by 4: w2.1 out (3, 3) heard
        Up
        > take
        refused: NothingThere

        . keeps three; abandon; learn; board 7 yes
        > w1: roll-ask 7 1.2 2
        to w1: vote 7 2 no
        Up
        > take
        s1 by 3: w1.2 out (2, 2) heard
        Up
        > take
        s1 by 4: w2.1 out (3, 3) heard
        Up
        > take
        refused: NothingThere

        . keeps three; abandon; learn; board 7 open
        > w1: roll-ask 7 0.0 2
        to w1: roll-ask 7 0.0 1
        to w2: roll-ask 7 0.0 1
        Rolling in 7 for w1.2, asked w1 w2, awaits w1 w2
        . board 7 no; learn
        > take
        s1 by 4: w2.1 out (3, 3) heard
        Up
        > take
        refused: NothingThere",
    )
}

#[test]
fn a_node_that_rolls_drops_it_whatever_it_answers(rt: HostRuntime) -> Result<(), Fail> {
    tells(
        &rt,
        rt.alloc(),
        SHARD_1,
        ". w2: request 1 1.0 by 7 in (9); keeps three; abandon; learn; board 7 open; board 8 open; w2: roll-ask 7 0.0 2
        > w1: roll-ask 7 1.2 2
        to w1: vote 7 2 yes
        Rolling in 7 for w2.2, asked w1 w2, awaits w1 w2
        . board 7 no; learn
        > take
        s1 by 3: w1.2 out (2, 2) heard
        Up
        > take
        refused: NothingThere

        . w2: request 1 1.0 by 7 in (9); keeps three; abandon; learn; board 7 open; board 8 open; w2: roll-ask 7 0.0 2
        > w1: roll-ask 8 1.0 2
        to w1: vote 8 2 no
        Rolling in 7 for w2.2, asked w1 w2, awaits w1 w2
        . board 7 no; learn
        > take
        refused: NothingThere

        . w2: request 1 1.0 by 7 in (9); keeps three; abandon; learn; board 7 open; board 8 open; w2: roll-ask 7 0.0 2
        > w1: roll-ask 7 1.0 2
        to w1: vote 7 2 yes
        Rolling in 7 for w2.2, asked w1 w2, awaits w1 w2
        . board 7 no; learn
        > take
        refused: NothingThere",
    )
}

/// Nothing of what is kept was heard.
#[test]
fn what_is_kept_does_not_make_a_node_join(rt: HostRuntime) -> Result<(), Fail> {
    tells(
        &rt,
        rt.alloc(),
        SHARD_1,
        ". check; w1: request 1 1.1 by 1 out (1, 1); abandon; learn; board 7 open
        > w1: roll-ask 7 0.0 2
        to w1: vote 7 2 yes
        Up
        > take
        refused: NothingThere

        . check; w1: request 1 2.1 by 1 out (1, 1); abandon; learn; board 7 open
        > w1: roll-ask 7 1.9 3
        to w1: vote 7 3 yes
        Up
        > take
        refused: NothingThere

        . check; w1: request 1 1.9 by 1 out (1, 1); abandon; learn; board 7 open
        > w1: roll-ask 7 2.1 3
        to w1: vote 7 3 yes
        Up
        > take
        s1 by 1: w1.1 out (1, 1) heard
        Up",
    )
}
