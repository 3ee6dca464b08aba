//! Histories of acts and cuts, and what survives of them.

use kt_history::{Act, History, Note, What};
use kt_tuple::{Answer, NodeId, Op, Template, Tuple};
use std::alloc::Global;
use std::process::Abort;
use std::test::Fail;

/// A request of a worker: who asks, under which number, and what.
#[derive(Drop)]
struct Request {
    worker: u8,
    number: u64,
    op: Op,
}

/// Appends an act about the request, once it is seen that it may come next.
fn act(
    rt: &impl Abort,
    alloc: Global,
    history: &mut History,
    node: NodeId,
    by: u64,
    request: &Request,
    what: What,
) -> Result<(), Fail> {
    let serves = matches!(what, What::Served(_));
    let note = Note::Act(Act {
        node,
        by,
        worker: request.worker,
        number: request.number,
        op: request.op.copy(alloc)?,
        what,
    });
    assert_eq!(rt; note.is_service(), serves);
    assert!(rt; history.may_follow(&note));
    history.push(note)?;
    Ok(())
}

fn cut(rt: &impl Abort, history: &mut History, node: NodeId, keep: u64) -> Result<(), Fail> {
    let note = Note::Cut { node, keep };
    assert!(rt; history.may_follow(&note));
    history.make_room(note.node())?;
    history.add(note);
    Ok(())
}

/// A worker asks, a shard hears it and serves it.
fn serve(
    rt: &impl Abort,
    alloc: Global,
    history: &mut History,
    request: &Request,
    shard: NodeId,
    answer: Answer,
) -> Result<(), Fail> {
    let worker = NodeId::Worker(request.worker);
    act(rt, alloc, history, worker, 0, request, What::Issue)?;
    let issue = history.notes().len() as u64;
    act(rt, alloc, history, shard, issue, request, What::Heard)?;
    act(
        rt,
        alloc,
        history,
        shard,
        issue,
        request,
        What::Served(answer),
    )
}

#[test]
fn cascade(rt: HostRuntime) -> Result<(), Fail> {
    let alloc = rt.alloc();
    let mut history = History::new(alloc);
    let (w1, w2) = (NodeId::Worker(1), NodeId::Worker(2));
    let (s1, s2, s3) = (NodeId::Shard(1), NodeId::Shard(2), NodeId::Shard(3));
    let put = Request {
        worker: 1,
        number: 1,
        op: Op::Out(Tuple::parse(alloc, b"(1, 2)")?),
    };
    let take = Request {
        worker: 2,
        number: 1,
        op: Op::In(Template::parse(alloc, b"(?int, ?int)")?),
    };
    let five = Request {
        worker: 2,
        number: 2,
        op: Op::Out(Tuple::parse(alloc, b"(5)")?),
    };
    let other = Request {
        worker: 3,
        number: 1,
        op: Op::Out(Tuple::parse(alloc, b"(\"z\")")?),
    };
    serve(&rt, alloc, &mut history, &put, s1, Answer::Done)?;
    let got = Answer::Got(Tuple::parse(alloc, b"(1, 2)")?);
    serve(&rt, alloc, &mut history, &take, s1, got)?;
    let got = Answer::Got(Tuple::parse(alloc, b"(1, 2)")?);
    act(&rt, alloc, &mut history, w2, 6, &take, What::Accepted(got))?;
    serve(&rt, alloc, &mut history, &five, s2, Answer::Done)?;
    serve(&rt, alloc, &mut history, &other, s3, Answer::Done)?;
    assert_eq!(rt; history.lost_count(), 0);
    assert_eq!(rt; history.line(w2), [4, 7, 8].as_slice());

    cut(&rt, &mut history, w1, 0)?;
    // The second request of w2 has no cause, and all of its log stands: what is lost lies further back.
    assert!(rt; !history.survives(8));
    assert_eq!(rt; history.line(w2), [4, 7, 8].as_slice());
    only_the_other_survives(&rt, alloc, &history)?;

    cut(&rt, &mut history, s1, 0)?;
    cut(&rt, &mut history, w2, 0)?;
    cut(&rt, &mut history, s2, 0)?;
    only_the_other_survives(&rt, alloc, &history)?;
    for node in [w1, s1, w2, s2] {
        assert!(rt; history.line(node).is_empty());
    }
    assert_eq!(rt; history.line(s3), [12, 13].as_slice());
    Ok(())
}

/// Of the cascade nothing survives but the service of the third worker, and three are lost.
fn only_the_other_survives(rt: &impl Abort, alloc: Global, history: &History) -> Result<(), Fail> {
    let survivors = history.survivors(alloc)?;
    assert_eq!(rt; survivors.len(), 1);
    assert_eq!(rt; survivors[0].worker, 3);
    assert_eq!(rt; survivors[0].number, 1);
    assert_eq!(rt; history.lost_count(), 3);
    Ok(())
}

#[test]
fn answered_again(rt: HostRuntime) -> Result<(), Fail> {
    let alloc = rt.alloc();
    let mut history = History::new(alloc);
    let (w1, s1) = (NodeId::Worker(1), NodeId::Shard(1));
    let put = Request {
        worker: 1,
        number: 1,
        op: Op::Out(Tuple::parse(alloc, b"(\"a\")")?),
    };
    serve(&rt, alloc, &mut history, &put, s1, Answer::Done)?;
    act(&rt, alloc, &mut history, w1, 0, &put, What::Repeat)?;
    let again = What::Again(Answer::Done);
    act(&rt, alloc, &mut history, s1, 4, &put, again)?;
    let accepted = What::Accepted(Answer::Done);
    act(&rt, alloc, &mut history, w1, 3, &put, accepted)?;
    let ignored = What::Ignored(Some(Answer::Done));
    act(&rt, alloc, &mut history, w1, 5, &put, ignored)?;
    let survivors = history.survivors(alloc)?;
    assert_eq!(rt; survivors.len(), 1);
    assert_eq!(rt; survivors[0].number, 1);
    assert_eq!(rt; history.lost_count(), 0);
    assert_eq!(rt; history.line(w1), [1, 4, 6, 7].as_slice());
    assert_eq!(rt; history.line(s1), [2, 3, 5].as_slice());
    assert!(rt; history.survives(7));
    assert!(rt; !history.survives(0));
    assert!(rt; !history.survives(8));
    assert!(rt; !history.is_act(8));
    Ok(())
}
