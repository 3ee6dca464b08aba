//! What a template picks from a few tuples.

use kt_space::Bag;
use kt_tuple::{Str, Template, Tuple, Value};
use std::alloc::Global;
use std::test::Fail;

fn bag_of(alloc: Global, texts: &[&str]) -> Result<Bag, Fail> {
    let mut bag = Bag::new(alloc);
    for text in texts {
        bag.put(Tuple::parse(alloc, text.as_bytes())?)?;
    }
    Ok(bag)
}

fn push_texts(text: &mut Vec<u8>, tuples: &[Tuple]) -> Result<(), Fail> {
    for tuple in tuples {
        tuple.write_to(text)?;
    }
    Ok(())
}

/// The texts of the tuples, one behind the other.
fn text_of(alloc: Global, bag: &Bag) -> Result<Vec<u8>, Fail> {
    let tuples = bag.to_vec(alloc)?;
    let mut text = Vec::new(alloc);
    push_texts(&mut text, &tuples)?;
    Ok(text)
}

/// The text of a tuple, or nothing.
fn text_of_one(alloc: Global, tuple: Option<&Tuple>) -> Result<Vec<u8>, Fail> {
    let mut text = Vec::new(alloc);
    if let Some(tuple) = tuple {
        tuple.write_to(&mut text)?;
    }
    Ok(text)
}

/// Whether the match of this number has this text; no text is no match.
fn has(
    alloc: Global,
    bag: &Bag,
    template: &Template,
    number: usize,
    text: &str,
) -> Result<bool, Fail> {
    let found = text_of_one(alloc, bag.nth_match(template, number))?;
    Ok(found.as_slice() == text.as_bytes())
}

/// Whether the bag's tuples are these, one behind the other.
fn holds(alloc: Global, bag: &Bag, texts: &[u8]) -> Result<bool, Fail> {
    let found = text_of(alloc, bag)?;
    Ok(found.as_slice() == texts)
}

/// Whether the matches have these texts, in this order, and no more are counted.
fn picks(alloc: Global, bag: &Bag, template: &Template, texts: &[&str]) -> Result<bool, Fail> {
    for (number, text) in texts.iter().enumerate() {
        if !has(alloc, bag, template, number, text)? {
            return Ok(false);
        }
    }
    Ok(bag.count_matches(template) == texts.len() && bag.nth_match(template, texts.len()).is_none())
}

#[test]
fn a_template_picks_in_order_of_arrival(rt: HostRuntime) -> Result<(), Fail> {
    let alloc = rt.alloc();
    let texts = [
        r#"("a", 1)"#,
        "(2)",
        r#"("a", 3)"#,
        r#"("b", 1)"#,
        r#"("a", 1)"#,
    ];
    let bag = bag_of(alloc, &texts)?;
    assert_eq!(rt; bag.len(), 5);
    let template = Template::parse(alloc, br#"("a", ?int)"#.as_slice())?;
    assert!(rt; picks(alloc, &bag, &template, &[texts[0], texts[2], texts[4]])?);
    Ok(())
}

/// Takes the second of the numbers, which are three, and looks that two are left.
fn take_second_number(alloc: Global, bag: &mut Bag) -> Result<bool, Fail> {
    let template = Template::parse(alloc, b"(?int)".as_slice())?;
    let taken = bag.take_nth(&template, 1);
    let text = text_of_one(alloc, taken.as_ref())?;
    Ok(text.as_slice() == b"(2)".as_slice() && bag.take_nth(&template, 2).is_none())
}

/// Puts a tuple into the room made for it.
fn put_into_room(alloc: Global, bag: &mut Bag, text: &[u8]) -> Result<(), Fail> {
    let tuple = Tuple::parse(alloc, text)?;
    bag.reserve()?;
    bag.put_reserved(tuple);
    Ok(())
}

/// Whether a copy made before the second number is taken keeps it, and the bag has the others in order.
fn takes_from_one_alone(alloc: Global, bag: &mut Bag, copy: &Bag) -> Result<bool, Fail> {
    if !take_second_number(alloc, bag)? {
        return Ok(false);
    }
    put_into_room(alloc, bag, b"(4)".as_slice())?;
    Ok(
        holds(alloc, bag, br#"(1)("x")(3)(4)"#.as_slice())?
            && holds(alloc, copy, br#"(1)(2)("x")(3)"#.as_slice())?,
    )
}

#[test]
fn what_is_taken_leaves_the_others_in_order(rt: HostRuntime) -> Result<(), Fail> {
    let alloc = rt.alloc();
    let mut bag = bag_of(alloc, &["(1)", "(2)", r#"("x")"#, "(3)"])?;
    let copy = bag.copy(alloc)?;
    assert!(rt; takes_from_one_alone(alloc, &mut bag, &copy)?);
    assert!(rt; Bag::new(alloc).is_empty());
    Ok(())
}

/// `("k", number)`.
fn numbered(alloc: Global, number: i64) -> Result<Tuple, Fail> {
    let key = Value::Str(Str::new(b"k".as_slice()).ok_or("text")?);
    let values = vec![in alloc; key, Value::Int(number)]?;
    Ok(Tuple::new(alloc, values)?.ok_or("arity")?)
}

/// 1,000 tuples `("k", number)`, and one `("m", 5)` behind them.
fn put_two_groups(alloc: Global, bag: &mut Bag) -> Result<(), Fail> {
    for number in 0..1000i64 {
        bag.put(numbered(alloc, number)?)?;
    }
    bag.put(Tuple::parse(alloc, br#"("m", 5)"#.as_slice())?)?;
    Ok(())
}

/// How many tuples were compared to find `("m", 5)`, or 0 where something else was found.
fn compared(alloc: Global, bag: &Bag) -> Result<u64, Fail> {
    let template = Template::parse(alloc, br#"("m", ?int)"#.as_slice())?;
    let (found, count) = bag.nth_match_counted(&template, 0);
    let text = text_of_one(alloc, found)?;
    Ok(if text.as_slice() == br#"("m", 5)"#.as_slice() {
        count
    } else {
        0
    })
}

#[test]
fn a_template_is_compared_with_its_own_group_alone(rt: HostRuntime) -> Result<(), Fail> {
    let alloc = rt.alloc();
    let mut bag = Bag::new(alloc);
    put_two_groups(alloc, &mut bag)?;
    assert_eq!(rt; compared(alloc, &bag)?, 1);
    Ok(())
}
