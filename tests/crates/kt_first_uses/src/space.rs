//! A first use of kt_space.

use kt_space::Bag;
use kt_tuple::{Template, Tuple};
use std::alloc::Global;
use std::test::Fail;

/// Puts two tasks into a bag, and takes the one that came first. The other stays.
pub(crate) fn first_task(alloc: Global) -> Result<Option<Tuple>, Fail> {
    let mut bag = Bag::new(alloc);
    bag.put(Tuple::parse(alloc, b"(\"task\", 8)")?)?;
    bag.put(Tuple::parse(alloc, b"(\"task\", 7)")?)?;
    let any_task = Template::parse(alloc, b"(\"task\", ?int)")?;
    Ok(bag.take_nth(&any_task, 0))
}
