//! Histories with two cuts and more, worked out by hand.
#![tactic(auto)]

use kt_history::{Act, History, Note, What};
use kt_losses::losses;
use kt_tuple::{Answer, NodeId, Op, Tuple};
use std::alloc::Global;
use std::process::Abort;
use std::test::Fail;

/// A worker asks a shard to keep a tuple, and the shard serves it: three acts.
fn serve(
    rt: &impl Abort,
    alloc: Global,
    history: &mut History,
    worker: u8,
    shard: u8,
) -> Result<(), Fail> {
    let asked = history.notes().len() as u64 + 1;
    for (place, what) in [What::Issue, What::Heard, What::Served(Answer::Done)]
        .into_iter()
        .enumerate()
    {
        let note = Note::Act(Act {
            node: if place == 0 {
                NodeId::Worker(worker)
            } else {
                NodeId::Shard(shard)
            },
            by: if place == 0 { 0 } else { asked },
            worker,
            number: 1,
            op: Op::Out(Tuple::parse(alloc, b"(1)")?),
            what,
        });
        assert!(rt; history.may_follow(&note));
        history.push(note)?;
    }
    Ok(())
}

fn cut(rt: &impl Abort, history: &mut History, node: NodeId, keep: u64) -> Result<(), Fail> {
    let note = Note::Cut { node, keep };
    assert!(rt; history.may_follow(&note));
    history.push(note)?;
    Ok(())
}

fn expect(
    rt: &impl Abort,
    alloc: Global,
    history: &History,
    expected: &[(u64, u64)],
) -> Result<(), Fail> {
    let found = losses(alloc, history)?;
    assert_eq!(rt; found.len(), expected.len());
    for (place, loss) in found.iter().enumerate() {
        assert_eq!(rt; (loss.service, loss.cut), expected[place]);
    }
    assert_eq!(rt; history.lost_count(), expected.len() as u64);
    Ok(())
}

#[test]
fn each_cut_loses_what_rests_on_it(rt: HostRuntime) -> Result<(), Fail> {
    let alloc = rt.alloc();
    let mut history = History::new(alloc);
    expect(&rt, alloc, &history, &[])?;
    // The first cut takes nothing away.
    cut(&rt, &mut history, NodeId::Shard(1), 0)?;
    serve(&rt, alloc, &mut history, 1, 1)?;
    serve(&rt, alloc, &mut history, 2, 2)?;
    serve(&rt, alloc, &mut history, 3, 3)?;
    expect(&rt, alloc, &history, &[])?;
    cut(&rt, &mut history, NodeId::Shard(2), 1)?;
    expect(&rt, alloc, &history, &[(7, 11)])?;
    // What the worker asked is lost, and with it the service; what was lost already stays lost by its cut.
    cut(&rt, &mut history, NodeId::Worker(1), 0)?;
    cut(&rt, &mut history, NodeId::Worker(2), 0)?;
    expect(&rt, alloc, &history, &[(4, 12), (7, 11)])
}

#[test]
fn what_rests_on_what_is_lost_is_lost_by_the_same_cut(rt: HostRuntime) -> Result<(), Fail> {
    let alloc = rt.alloc();
    let mut history = History::new(alloc);
    serve(&rt, alloc, &mut history, 1, 1)?;
    cut(&rt, &mut history, NodeId::Worker(1), 0)?;
    // The shard still remembers what it heard of the first worker.
    serve(&rt, alloc, &mut history, 2, 1)?;
    serve(&rt, alloc, &mut history, 3, 2)?;
    expect(&rt, alloc, &history, &[(3, 4), (7, 4)])?;
    cut(&rt, &mut history, NodeId::Shard(1), 0)?;
    serve(&rt, alloc, &mut history, 1, 1)?;
    cut(&rt, &mut history, NodeId::Shard(2), 1)?;
    expect(&rt, alloc, &history, &[(3, 4), (7, 4), (10, 15)])
}
