//! Votes on what a node asked.

use crate::cases::{WORKER_1, tells};
use std::test::Fail;

/// An initiator has nobody to vote to.
#[test]
fn an_initiator_counts(rt: HostRuntime) -> Result<(), Fail> {
    tells(
        &rt,
        rt.alloc(),
        WORKER_1,
        ". answered by both; check
        > s1: vote 1 1 yes
        Held in 1, asked s1 s2, awaits s2
        > s2: vote 1 1 yes
        Held in 1, asked s1 s2

        . answered by both; check
        > s2: vote 1 1 no
        Held in 1, asked s1 s2, awaits s1, refused
        > s1: vote 1 1 yes
        Held in 1, asked s1 s2, refused

        . answered by both; fail; restart
        > s1: vote 1 2 yes
        Rolling in 1, asked s1 s2, awaits s2
        > s2: vote 1 2 yes
        Rolling in 1, asked s1 s2

        . answered by both; fail; restart
        > s2: vote 1 2 no
        Rolling in 1, asked s1 s2, awaits s1, refused
        > s1: vote 1 2 yes
        Rolling in 1, asked s1 s2, refused",
    )
}

/// At the first no it votes no, and no later vote makes it vote again. Where all said yes it votes yes with the last.
#[test]
fn a_held_participant_votes_as_its_cohort_does(rt: HostRuntime) -> Result<(), Fail> {
    tells(
        &rt,
        rt.alloc(),
        WORKER_1,
        ". answered by both; board 7 open; s1: check-ask 7 1.1 3
        > s2: vote 7 1 yes
        Held in 7 for s1.3, asked s1 s2, awaits s1
        > s1: vote 7 1 yes
        to s1: vote 7 3 yes
        Held in 7 for s1.3, asked s1 s2, voted

        . answered by both; board 7 open; s1: check-ask 7 1.1 3
        > s2: vote 7 1 no
        to s1: vote 7 3 no
        Held in 7 for s1.3, asked s1 s2, awaits s1, refused, voted
        > s1: vote 7 1 yes
        Held in 7 for s1.3, asked s1 s2, refused, voted

        . answered by both; board 7 open; s1: check-ask 7 1.1 3
        > s1: vote 7 1 yes
        Held in 7 for s1.3, asked s1 s2, awaits s2
        > s2: vote 7 1 no
        to s1: vote 7 3 no
        Held in 7 for s1.3, asked s1 s2, refused, voted

        . answered by both; board 7 open; s1: check-ask 7 1.1 3; s1: vote 7 1 no
        > s2: vote 7 1 no
        Held in 7 for s1.3, asked s1 s2, refused, voted",
    )
}

#[test]
fn a_rolling_participant_votes_as_its_neighbours_do(rt: HostRuntime) -> Result<(), Fail> {
    tells(
        &rt,
        rt.alloc(),
        WORKER_1,
        ". answered by both; board 7 open; s1: roll-ask 7 0.0 3
        > s2: vote 7 1 yes
        Rolling in 7 for s1.3, asked s1 s2, awaits s1
        > s1: vote 7 1 yes
        to s1: vote 7 3 yes
        Rolling in 7 for s1.3, asked s1 s2, voted

        . answered by both; board 7 open; s1: roll-ask 7 0.0 3
        > s2: vote 7 1 no
        to s1: vote 7 3 no
        Rolling in 7 for s1.3, asked s1 s2, awaits s1, refused, voted
        > s1: vote 7 1 yes
        Rolling in 7 for s1.3, asked s1 s2, refused, voted

        . answered by both; board 7 open; s1: roll-ask 7 0.0 3
        > s1: vote 7 1 yes
        Rolling in 7 for s1.3, asked s1 s2, awaits s2
        > s2: vote 7 1 no
        to s1: vote 7 3 no
        Rolling in 7 for s1.3, asked s1 s2, refused, voted

        . answered by both; board 7 open; s1: roll-ask 7 0.0 3; s1: vote 7 1 no
        > s2: vote 7 1 no
        Rolling in 7 for s1.3, asked s1 s2, refused, voted",
    )
}

/// Of another instance, of another incarnation, of a node that was not asked, or that has voted already.
#[test]
fn a_vote_that_is_not_awaited_is_ignored(rt: HostRuntime) -> Result<(), Fail> {
    tells(
        &rt,
        rt.alloc(),
        WORKER_1,
        ". answered by both; check
        > s1: vote 2 1 no
        Held in 1, asked s1 s2, awaits s1 s2
        > s1: vote 1 2 no
        Held in 1, asked s1 s2, awaits s1 s2
        > s1: vote 1 0 no
        Held in 1, asked s1 s2, awaits s1 s2
        > s3: vote 1 1 no
        Held in 1, asked s1 s2, awaits s1 s2
        > w2: vote 1 1 no
        Held in 1, asked s1 s2, awaits s1 s2
        . s1: vote 1 1 yes
        > s1: vote 1 1 no
        Held in 1, asked s1 s2, awaits s2

        . answered by both; fail; restart
        > s1: vote 2 2 no
        Rolling in 1, asked s1 s2, awaits s1 s2
        > s1: vote 1 3 no
        Rolling in 1, asked s1 s2, awaits s1 s2
        > s1: vote 1 1 no
        Rolling in 1, asked s1 s2, awaits s1 s2
        > s3: vote 1 2 no
        Rolling in 1, asked s1 s2, awaits s1 s2
        > w2: vote 1 2 no
        Rolling in 1, asked s1 s2, awaits s1 s2
        . s1: vote 1 2 yes
        > s1: vote 1 2 no
        Rolling in 1, asked s1 s2, awaits s2

        . answered by both; board 7 open; s1: check-ask 7 1.1 3
        > s1: vote 8 1 no
        Held in 7 for s1.3, asked s1 s2, awaits s1 s2
        > s1: vote 7 2 no
        Held in 7 for s1.3, asked s1 s2, awaits s1 s2
        > s1: vote 7 0 no
        Held in 7 for s1.3, asked s1 s2, awaits s1 s2
        > s3: vote 7 1 no
        Held in 7 for s1.3, asked s1 s2, awaits s1 s2
        > w2: vote 7 1 no
        Held in 7 for s1.3, asked s1 s2, awaits s1 s2
        . s1: vote 7 1 yes
        > s1: vote 7 1 no
        Held in 7 for s1.3, asked s1 s2, awaits s2

        . answered by both; board 7 open; s1: roll-ask 7 0.0 3
        > s1: vote 8 1 no
        Rolling in 7 for s1.3, asked s1 s2, awaits s1 s2
        > s1: vote 7 2 no
        Rolling in 7 for s1.3, asked s1 s2, awaits s1 s2
        > s1: vote 7 0 no
        Rolling in 7 for s1.3, asked s1 s2, awaits s1 s2
        > s3: vote 7 1 no
        Rolling in 7 for s1.3, asked s1 s2, awaits s1 s2
        > w2: vote 7 1 no
        Rolling in 7 for s1.3, asked s1 s2, awaits s1 s2
        . s1: vote 7 1 yes
        > s1: vote 7 1 no
        Rolling in 7 for s1.3, asked s1 s2, awaits s2",
    )
}

#[test]
fn a_node_that_has_abandoned_votes_no_more(rt: HostRuntime) -> Result<(), Fail> {
    tells(
        &rt,
        rt.alloc(),
        WORKER_1,
        ". answered by both; board 7 open; s1: check-ask 7 1.1 3; abandon
        > s1: vote 7 1 yes
        Held in 7 for s1.3, asked s1 s2, awaits s2, voted
        > s2: vote 7 1 yes
        Held in 7 for s1.3, asked s1 s2, voted

        . answered by both; board 7 open; s1: roll-ask 7 0.0 3; abandon
        > s1: vote 7 1 no
        Rolling in 7 for s1.3, asked s1 s2, awaits s2, refused, voted",
    )
}

/// It is counted, and may make a participant vote.
#[test]
fn a_vote_behind_the_verdict_is_a_vote(rt: HostRuntime) -> Result<(), Fail> {
    tells(
        &rt,
        rt.alloc(),
        WORKER_1,
        ". answered by both; board 7 open; s1: check-ask 7 1.1 3; board 7 no; s1: vote 7 1 yes
        > s2: vote 7 1 yes
        to s1: vote 7 3 yes
        Held in 7 for s1.3, asked s1 s2, voted

        . answered by both; board 7 open; s1: roll-ask 7 0.0 3; board 7 no
        > s2: vote 7 1 no
        to s1: vote 7 3 no
        Rolling in 7 for s1.3, asked s1 s2, awaits s1, refused, voted

        . answered by both; check; abandon
        > s2: vote 1 1 yes
        Held in 1, asked s1 s2, awaits s1",
    )
}

#[test]
fn a_node_that_asks_nothing_ignores_votes(rt: HostRuntime) -> Result<(), Fail> {
    tells(
        &rt,
        rt.alloc(),
        WORKER_1,
        ". answered by both; check; abandon; learn
        > s1: vote 1 1 yes
        Up

        . worker back
        > s1: vote 1 2 no
        Up

        . answered by both; check; fail
        > s1: vote 1 1 yes
        Down",
    )
}
