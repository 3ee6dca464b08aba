//! What a small store shows, written out by hand.
#![tactic(auto)]

ghost use Rattle.std.specs.Prelude.{◌≤◌, All, IfOk, IsTrue, length};
ghost use Rattle.kt_script.specs.declared.script.TheConstants as script;
ghost use Rattle.kt_ckpt.specs.Acts.{IsActOf};

use kt_ckpt::{Acts, Ckpt, LogAct, ShardState, State, WorkerState, are_acts_of};
use kt_history::What;
use kt_link::Label;
use kt_script::{MAX_COMMANDS, MAX_VARIABLES};
use kt_shard::{CachedReply, Request};
use kt_show::{show, show_json};
use kt_store::{CkptStore, MemStore, StoreError, Verdict};
use kt_tuple::{Answer, NodeId, Op, Str, Template, Tuple, Value};
use std::alloc::Global;
use std::test::Fail;

const WORKER: NodeId = NodeId::Worker(1);

const S1: NodeId = NodeId::Shard(1);

const SHOWN: &str = "node w1: incarnation 1
  permanent checkpoint
    acts 1
    next command 2
    requests 1
    unanswered w1.1 out (\"a\", 1)
  tentative checkpoint of instance 2
    acts 3
    next command 5
    requests 3
    last answer none
    value 1
    value true
    value \" \\\"\\\\~\"
    value -9223372036854775808
node s1: incarnation 2
  permanent checkpoint: initial
  tentative checkpoint of instance 2
    acts 2
    tuple (\"a\", 1)
    tuple (\"b\")
    waiting w1.2 in (\"a\", ?int)
    served w1.1 out (\"a\", 1) done
board: instances 3
  instance 1 begun by w1: yes
  instance 2 begun by w1: open
  instance 3 begun by s1: no
open: instance 2 begun by w1
";

/// The same as JSON, in pieces.
const SHOWN_AS_JSON: [&str; 13] = [
    r#"{"nodes":[{"name":"w1","incarnation":1,"permanent":{"acts":1,"worker":"#,
    r#"{"next_command":2,"last_request":1,"unanswered":{"word":"out","tuple":["a",1]},"#,
    r#""last_answer_was_none":false,"values":[]}},"#,
    r#""tentative":{"instance":2,"checkpoint":{"acts":3,"worker":"#,
    r#"{"next_command":5,"last_request":3,"unanswered":null,"#,
    r#""last_answer_was_none":true,"values":[1,true," \"\\~",-9223372036854775808]}}}},"#,
    r#"{"name":"s1","incarnation":2,"permanent":null,"#,
    r#""tentative":{"instance":2,"checkpoint":{"acts":2,"shard":{"tuples":[["a",1],["b"]],"#,
    r#""waiting":[{"worker":"w1","request":2,"operation":{"word":"in","template":["a",{"formal":"int"}]}}],"#,
    r#""served":[{"worker":"w1","request":1,"operation":{"word":"out","tuple":["a",1]},"#,
    r#""answer":{"word":"done"}}]}}}}],"#,
    r#""instances":[{"number":1,"begun_by":"w1","verdict":"yes"},{"number":2,"begun_by":"w1","verdict":"open"},"#,
    r#"{"number":3,"begun_by":"s1","verdict":"no"}],"open":[2]}"#,
];

const NOTHING_AS_JSON: &str = r#"{"nodes":[],"instances":[],"open":[]}"#;

fn out(alloc: Global) -> Result<Op, Fail> {
    Ok(Op::Out(Tuple::parse(alloc, b"(\"a\", 1)")?))
}

/// So many acts of the node's log, all alike.
fn acts(alloc: Global, node: NodeId, count: u8) -> Result<Acts, Fail>
    ensures { IfOk result (All (IsActOf node)) }
{
    let mut acts = Vec::new(alloc);
    for _ in 0..count {
        let (by, what) = match node {
            NodeId::Worker(_) => (None, What::Issue),
            NodeId::Shard(_) => (Some((WORKER, 1)), What::Heard),
        };
        acts.push(LogAct {
            by,
            worker: 1,
            number: 1,
            op: out(alloc)?,
            what,
        })
        .ok()
        .ok_or("room")?;
    }
    if !are_acts_of(node, &acts) {
        return Err(Fail::new("acts of another node"));
    }
    Ok(Acts::none().with(alloc, acts)?)
}

/// Whether the format has room for the worker.
fn is_counted(state: &WorkerState) -> bool
    ensures { IsTrue result
        → (state.now.pc ≤ script.MAX_COMMANDS) × (length state.now.variables ≤ script.MAX_VARIABLES) }
{
    usize::from(state.pc()) <= MAX_COMMANDS && state.variables().len() <= MAX_VARIABLES
}

fn checkpoint_of_worker(alloc: Global, count: u8, state: WorkerState) -> Result<Ckpt, Fail> {
    if !is_counted(&state) {
        return Err(Fail::new("the worker is too large"));
    }
    let acts = acts(alloc, WORKER, count)?;
    let labels = vec![in alloc; Label::default()]?;
    let more = vec![in alloc; Label::default()]?;
    let len = acts.len();
    Ok(Ckpt::new(alloc, WORKER, len, labels, more, State::Worker(state), acts)?)
}

fn checkpoint_of_shard(alloc: Global) -> Result<Ckpt, Fail> {
    let acts = acts(alloc, S1, 2)?;
    let labels = vec![in alloc; Label::default()]?;
    let more = vec![in alloc; Label::default()]?;
    let bag = vec![in alloc;
        Tuple::parse(alloc, b"(\"a\", 1)")?,
        Tuple::parse(alloc, b"(\"b\")")?,
    ]?;
    let op = Op::In(Template::parse(alloc, b"(\"a\", ?int)")?);
    let waiting = vec![in alloc; (1u8, Request { number: 2, op })]?;
    let request = Request {
        number: 1,
        op: out(alloc)?,
    };
    let reply = CachedReply {
        request,
        answer: Answer::Done,
    };
    let cached = vec![in alloc; (1u8, reply)]?;
    let len = acts.len();
    let state = State::Shard(ShardState::new(bag, waiting, cached));
    Ok(Ckpt::new(alloc, S1, len, labels, more, state, acts)?)
}

#[test]
fn a_store_in_which_nothing_was_stored(rt: HostRuntime) -> Result<(), Fail> {
    let mut store = MemStore::new(rt.alloc());
    let text = show(rt.alloc(), &mut store)?;
    assert_eq!(rt; text.as_slice(), b"nothing is stored\n".as_slice());
    let text = show_json(rt.alloc(), &mut store)?;
    assert_eq!(rt; text.as_slice(), NOTHING_AS_JSON.as_bytes());
    Ok(())
}

/// Begins a check of the node.
fn begin(store: &mut MemStore, alloc: Global, node: NodeId, ckpt: &Ckpt) -> Result<(), Fail> {
    if store.tentative_header(alloc, node)?.is_some() {
        return Err(Fail::new("it has a tentative checkpoint"));
    }
    Ok(store.begin_check(node, ckpt)?)
}

/// Stores the node's tentative checkpoint in the instance.
fn join(
    store: &mut MemStore,
    alloc: Global,
    node: NodeId,
    instance: u64,
    ckpt: &Ckpt,
) -> Result<(), Fail> {
    if store.tentative_header(alloc, node)?.is_some() {
        return Err(Fail::new("it has a tentative checkpoint"));
    }
    Ok(store.put_tentative(node, instance, ckpt)?)
}

/// Gives the instance its verdict.
fn decide(store: &mut MemStore, instance: u64, yes: bool) -> Result<(), Fail> {
    match store.verdict(instance)? {
        Some(Verdict::Open) => Ok(store.decide(instance, yes)?),
        _ => Err(Fail::new("it is not open")),
    }
}

/// Makes the node's tentative checkpoint permanent.
fn promote(store: &mut MemStore, alloc: Global, node: NodeId) -> Result<(), Fail> {
    let Some(taken) = store.tentative_header(alloc, node)? else {
        return Err(Fail::new("it has no tentative checkpoint"));
    };
    match store.verdict(taken.instance)? {
        Some(Verdict::Yes) => Ok(store.promote(node)?),
        _ => Err(Fail::new("it has no yes")),
    }
}

/// A store with a worker, a shard and three instances.
fn held(alloc: Global) -> Result<MemStore, Fail> {
    let mut store = MemStore::new(alloc);
    let state = WorkerState::new(1, 1, false, Some(out(alloc)?), Vec::new(alloc));
    let first = checkpoint_of_worker(alloc, 1, state)?;
    begin(&mut store, alloc, WORKER, &first)?;
    decide(&mut store, 1, true)?;
    promote(&mut store, alloc, WORKER)?;
    let values = vec![in alloc;
        Value::Int(1),
        Value::Bool(true),
        Value::Str(Str::new(b" \"\\~").ok_or("a str")?),
        Value::Int(i64::MIN),
    ]?;
    let state = WorkerState::new(4, 3, true, None, values);
    let second = checkpoint_of_worker(alloc, 3, state)?;
    begin(&mut store, alloc, WORKER, &second)?;
    store.begin_restart(S1)?;
    decide(&mut store, 3, false)?;
    join(&mut store, alloc, S1, 2, &checkpoint_of_shard(alloc)?)?;
    Ok(store)
}

#[test]
fn a_worker_a_shard_and_three_instances(rt: HostRuntime) -> Result<(), Fail> {
    let alloc = rt.alloc();
    let mut store = held(alloc)?;
    let text = show(alloc, &mut store)?;
    assert!(rt;
        text.as_slice() == SHOWN.as_bytes(),
        "{}",
        String::from_utf8(text).ok().ok_or("a text")?
    );
    let mut shown = String::new(alloc);
    for piece in &SHOWN_AS_JSON {
        shown.push_str(piece)?;
    }
    let text = show_json(alloc, &mut store)?;
    assert!(rt;
        text.as_slice() == shown.as_bytes(),
        "{}",
        String::from_utf8(text).ok().ok_or("a text")?
    );
    Ok(())
}
