//! A first use of kt_tuple.

use kt_tuple::{Template, Tuple};
use std::alloc::Global;
use std::test::Fail;

/// Whether a template matches a tuple, each read from its text.
pub(crate) fn does_match(alloc: Global) -> Result<bool, Fail> {
    let task = Tuple::parse(alloc, b"(\"task\", 7)")?;
    let any_task = Template::parse(alloc, b"(\"task\", ?int)")?;
    Ok(any_task.matches(&task))
}
