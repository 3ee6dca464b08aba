//! A first use of kt_ckpt.

use kt_ckpt::Ckpt;
use std::alloc::Global;
use std::test::Fail;

/// Reads a checkpoint from its bytes, and spells it again. Each has one spelling, so these are the same bytes.
pub(crate) fn second_spelling(alloc: Global, bytes: &[u8]) -> Result<Vec<u8>, Fail> {
    let checkpoint = Ckpt::decode(alloc, bytes)?;
    Ok(checkpoint.encode(alloc)?)
}
