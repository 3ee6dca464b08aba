//! Links with messages on them, call by call.
#![tactic(auto)]

use kt_link::{Label, Links};
use kt_tuple::NodeId;
use std::test::Fail;

const LABELS: [(u64, u64); 5] = [(0, 0), (0, 7), (1, 0), (1, 6), (2, 1)];

#[test]
fn labels_rise_by_incarnation_first(rt: HostRuntime) -> Result<(), Fail> {
    for (place, (incarnation, count)) in LABELS.into_iter().enumerate() {
        let label = Label { incarnation, count };
        for (other_place, (incarnation, count)) in LABELS.into_iter().enumerate() {
            let other = Label { incarnation, count };
            assert_eq!(rt; label.is_below(other), place < other_place);
            assert_eq!(rt; label.cmp(&other), place.cmp(&other_place));
        }
    }
    assert!(rt;
        Label::default()
            == (Label {
                incarnation: 0,
                count: 0
            })
    );
    Ok(())
}

#[test]
fn each_ordered_pair_of_neighbours_has_its_queue(rt: HostRuntime) -> Result<(), Fail> {
    let w1 = NodeId::Worker(1);
    let w2 = NodeId::Worker(2);
    let s3 = NodeId::Shard(3);
    let mut links = Links::new(rt.alloc(), 2, 3)?;
    links.push(w2, s3, 'a')?;
    links.push(w2, s3, 'b')?;
    links.push(s3, w2, 'c')?;
    links.reserve(w1, s3, 1)?;
    links.push_reserved(w1, s3, 'd');
    assert_eq!(rt; links.len(w2, s3), 2);
    assert!(rt; links.get(w2, s3, 1) == Some(&'b'));
    assert!(rt; links.pop(w2, s3) == Some('a'));
    assert!(rt; links.front(w2, s3) == Some(&'b'));
    assert!(rt; links.front(s3, w2) == Some(&'c'));
    assert!(rt; links.front(w1, s3) == Some(&'d'));
    for (from, to) in [
        (w1, w2),
        (s3, s3),
        (NodeId::Worker(3), s3),
        (w1, NodeId::Shard(0)),
    ] {
        assert!(rt; !links.is_link(from, to));
        assert!(rt; links.pop(from, to).is_none());
        assert_eq!(rt; links.len(from, to), 0);
    }
    Ok(())
}
