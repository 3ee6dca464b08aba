//! The tuples that a run leaves.

use kt_history::{Service, space_of};
use kt_tuple::{Answer, Kind, Op, Place, Template, Tuple, Value};
use std::alloc::Global;
use std::test::Fail;

fn tuple_of(alloc: Global, int: i64) -> Result<Tuple, Fail> {
    Ok(Tuple::new(alloc, vec![in alloc; Value::Int(int)]?)?.ok_or("a tuple")?)
}

/// `out` of this int, done.
fn put(alloc: Global, int: i64) -> Result<Service, Fail> {
    Ok(Service {
        worker: 1,
        number: 1,
        op: Op::Out(tuple_of(alloc, int)?),
        answer: Answer::Done,
    })
}

/// `in (?int)`, which got this int.
fn take(alloc: Global, int: i64) -> Result<Service, Fail> {
    let places = vec![in alloc; Place::Formal(Kind::Int)]?;
    Ok(Service {
        worker: 2,
        number: 1,
        op: Op::In(Template::new(alloc, places)?.ok_or("a template")?),
        answer: Answer::Got(tuple_of(alloc, int)?),
    })
}

/// What was withdrawn is gone, though a tuple that came before it matched too.
#[test]
fn the_tuple_that_was_answered_is_gone(rt: HostRuntime) -> Result<(), Fail> {
    let alloc = rt.alloc();
    let services = [
        put(alloc, 1)?,
        put(alloc, 2)?,
        put(alloc, 2)?,
        take(alloc, 2)?,
    ];
    let space = space_of(alloc, &services)?;
    let left = vec![in alloc; tuple_of(alloc, 1)?, tuple_of(alloc, 2)?]?;
    assert_eq!(rt; space.to_vec(alloc)?, left);
    Ok(())
}
