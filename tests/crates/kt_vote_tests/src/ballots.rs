//! A ballot in instance 5 of a node in incarnation 3.

use kt_tuple::NodeId;
use kt_vote::{Asker, Ballot, Vote};
use std::alloc::{AllocError, Global};
use std::process::Abort;
use std::test::Fail;

/// The shard 1 in its incarnation 7.
const ASKER: Asker = Asker {
    node: NodeId::Shard(1),
    incarnation: 7,
};

/// Whose vote comes, its instance and incarnation, whether it agrees; whether it is counted, and what the votes come
/// to then. The workers 1 to 3 are asked.
type Row = (NodeId, u64, u64, bool, bool, Option<bool>);

/// All say yes, among votes that are not counted.
const AGREED: [Row; 9] = [
    (NodeId::Worker(2), 5, 3, true, true, None),
    (NodeId::Worker(2), 5, 3, true, false, None),
    (NodeId::Worker(2), 5, 3, false, false, None),
    (NodeId::Worker(1), 4, 3, true, false, None),
    (NodeId::Worker(1), 5, 2, false, false, None),
    (NodeId::Worker(4), 5, 3, true, false, None),
    (NodeId::Shard(1), 5, 3, false, false, None),
    (NodeId::Worker(3), 5, 3, true, true, None),
    (NodeId::Worker(1), 5, 3, true, true, Some(true)),
];

/// One says no, and later votes change nothing of that.
const REFUSED: [Row; 4] = [
    (NodeId::Worker(1), 5, 3, true, true, None),
    (NodeId::Worker(3), 5, 3, false, true, Some(false)),
    (NodeId::Worker(3), 5, 3, true, false, Some(false)),
    (NodeId::Worker(2), 5, 3, true, true, Some(false)),
];

#[test]
fn votes_are_counted_once_and_a_no_stays(rt: HostRuntime) -> Result<(), Fail> {
    assert_counted(&rt, rt.alloc(), &AGREED)?;
    assert_counted(&rt, rt.alloc(), &REFUSED)
}

fn assert_counted(rt: &impl Abort, alloc: Global, rows: &[Row]) -> Result<(), Fail> {
    let mut ballot = asking_workers(alloc, 3)?;
    for (from, instance, incarnation, yes, is_counted, outcome) in rows {
        let awaited = ballot.awaits(*from);
        let vote = Vote {
            instance: *instance,
            incarnation: *incarnation,
            yes: *yes,
        };
        let counted = ballot.count_vote(*from, vote);
        assert_eq!(rt; counted, *is_counted);
        assert_eq!(rt; ballot.awaits(*from), awaited && !counted);
        assert!(rt; ballot.outcome() == *outcome);
        assert_eq!(rt; ballot.refused(), *outcome == Some(false));
    }
    assert!(rt; ballot.complete());
    Ok(())
}

#[test]
fn a_ballot_tells_what_it_is_and_a_copy_is_apart(rt: HostRuntime) -> Result<(), Fail> {
    let mut ballot = asking_workers(rt.alloc(), 2)?;
    let copy = ballot.copy(rt.alloc())?;
    ballot.mark_voted();
    assert!(rt; ballot.has_voted() && !copy.has_voted());
    assert!(rt; copy.instance() == 5 && copy.incarnation() == 3);
    assert!(rt; copy.parent() == Some(ASKER));
    assert!(rt; copy.asked() == [NodeId::Worker(1), NodeId::Worker(2)].as_slice());
    assert!(rt; copy.awaits(NodeId::Worker(1)) && !copy.complete());
    let alone = asking_workers(rt.alloc(), 0)?;
    assert!(rt; alone.complete() && alone.outcome() == Some(true));
    Ok(())
}

#[test]
fn a_ballot_made_whole_awaits_all_that_it_asks(rt: HostRuntime) -> Result<(), Fail> {
    let nodes = [NodeId::Worker(3), NodeId::Shard(1)];
    let ballot = asking_these(rt.alloc(), nodes)?;
    assert!(rt; ballot.instance() == 5 && ballot.incarnation() == 3);
    assert!(rt; ballot.parent().is_none() && !ballot.has_voted());
    assert!(rt; ballot.asked() == nodes.as_slice());
    assert!(rt; ballot.awaits(NodeId::Worker(3)) && ballot.awaits(NodeId::Shard(1)));
    assert!(rt; ballot.outcome().is_none());
    Ok(())
}

/// Of a node that began the instance, and made whole.
fn asking_these(alloc: Global, nodes: [NodeId; 2]) -> Result<Ballot, AllocError> {
    Ballot::asking(alloc, 5, 3, None, Vec::from_slice(alloc, &nodes)?)
}

/// Asked by the shard 1, and asking the workers up to this number.
fn asking_workers(alloc: Global, last: u8) -> Result<Ballot, AllocError> {
    let mut ballot = Ballot::new(alloc, 5, 3, Some(ASKER));
    for number in 1..=last {
        ballot.ask(NodeId::Worker(number))?;
    }
    Ok(ballot)
}
