//! 50,000 calls that look random and are the same in each run.

use crate::plain::Plain;
use kt_draws::Draws;
use kt_space::Bag;
use kt_tuple::{Kind, Place, Str, Template, Tuple, Value};
use std::alloc::Global;
use std::test::*;

/// A value out of a few: an int below four, one of two strings, or a truth.
fn value(draws: &mut Draws) -> Option<Value> {
    match draws.below(8) {
        4 => Some(Value::Str(Str::new(b"a".as_slice())?)),
        5 => Some(Value::Str(Str::new(b"b".as_slice())?)),
        6 => Some(Value::Bool(false)),
        7 => Some(Value::Bool(true)),
        number => Some(Value::Int(number as i64)),
    }
}

/// A tuple of one or two such values.
fn tuple(alloc: Global, draws: &mut Draws) -> Result<Tuple, Fail> {
    let mut values = vec![in alloc; value(draws).ok_or("a value")?]?;
    if draws.below(4) != 0 {
        values.push(value(draws).ok_or("a value")?)?;
    }
    Ok(Tuple::new(alloc, values)?.ok_or("a tuple")?)
}

/// A place out of a few: half of them formals.
fn place(draws: &mut Draws) -> Option<Place> {
    match draws.below(6) {
        0 => Some(Place::Formal(Kind::Int)),
        1 => Some(Place::Formal(Kind::Str)),
        2 => Some(Place::Formal(Kind::Bool)),
        _ => Some(Place::Actual(value(draws)?)),
    }
}

/// A template of one or two such places.
fn template(alloc: Global, draws: &mut Draws) -> Result<Template, Fail> {
    let mut places = vec![in alloc; place(draws).ok_or("a place")?]?;
    if draws.below(4) != 0 {
        places.push(place(draws).ok_or("a place")?)?;
    }
    Ok(Template::new(alloc, places)?.ok_or("a template")?)
}

/// Whether both are nothing, or equal tuples.
fn are_equal(left: Option<&Tuple>, right: Option<&Tuple>) -> bool {
    match (left, right) {
        (Some(left), Some(right)) => left == right,
        (None, None) => true,
        _ => false,
    }
}

/// Whether the bag's calls that read it say what the list does, of which these tuples are a copy of the bag's.
fn is_read_as(bag: &Bag, tuples: &[Tuple], plain: &Plain) -> bool {
    let size = plain.tuples.len();
    tuples == plain.tuples.as_slice()
        && bag.len() == size
        && bag.is_empty() == plain.tuples.is_empty()
        && are_equal(bag.get(size / 2), plain.tuples.get(size / 2))
        && bag.get(size).is_none()
}

/// Whether the bag reads as the list.
fn reads_as(alloc: Global, bag: &Bag, plain: &Plain) -> Result<bool, Fail> {
    let tuples = bag.to_vec(alloc)?;
    Ok(is_read_as(bag, &tuples, plain))
}

/// A tuple more in both.
fn put(alloc: Global, draws: &mut Draws, bag: &mut Bag, plain: &mut Plain) -> Result<(), Fail> {
    let tuple = tuple(alloc, draws)?;
    plain.tuples.push(tuple.copy(alloc)?)?;
    bag.put(tuple)?;
    Ok(())
}

/// Whether both give the same match, and so many.
fn agree_on_reads(bag: &Bag, plain: &Plain, template: &Template, number: usize) -> bool {
    let given = bag.nth_match(template, number);
    let expected = plain.nth_match(template, number);
    are_equal(given, expected) && bag.count_matches(template) == plain.count_matches(template)
}

/// Whether the same is taken from both.
fn agree_on_take(bag: &mut Bag, plain: &mut Plain, template: &Template, number: usize) -> bool {
    let taken = bag.take_nth(template, number);
    let expected = plain.take_nth(template, number);
    are_equal(taken.as_ref(), expected.as_ref())
}

/// One call of some kind, and whether both answered the same.
fn agree_on_call(
    alloc: Global,
    draws: &mut Draws,
    bag: &mut Bag,
    plain: &mut Plain,
) -> Result<bool, Fail> {
    let kind = draws.below(9);
    if kind < 3 {
        put(alloc, draws, bag, plain)?;
        return Ok(true);
    }
    let template = template(alloc, draws)?;
    let number = draws.below(3) as usize;
    Ok(if kind < 5 {
        agree_on_reads(bag, plain, &template, number)
    } else {
        agree_on_take(bag, plain, &template, number)
    })
}

/// Whether both agree on 50,000 calls, and read alike after every fiftieth and at the end.
fn agree_on_calls(alloc: Global, bag: &mut Bag, plain: &mut Plain) -> Result<bool, Fail> {
    let mut draws = Draws(7);
    for turn in 0..50_000u32 {
        if !agree_on_call(alloc, &mut draws, bag, plain)? {
            return Ok(false);
        }
        if turn % 50 == 0 && !reads_as(alloc, bag, plain)? {
            return Ok(false);
        }
    }
    reads_as(alloc, bag, plain)
}

#[test]
fn a_bag_answers_as_the_list_does(rt: HostRuntime) -> Result<(), Fail> {
    let alloc = rt.alloc();
    let mut bag = Bag::new(alloc);
    let mut plain = Plain::new(alloc);
    assert!(rt; agree_on_calls(alloc, &mut bag, &mut plain)?);
    let copy = bag.copy(alloc)?;
    assert!(rt; reads_as(alloc, &copy, &plain)?);
    Ok(())
}
