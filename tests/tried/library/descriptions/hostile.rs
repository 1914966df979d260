//! The rows of `describe`, while each look-up and each allocation fails in turn.

use super::{early_ends, rows, ties};
use crate::shared::faults::first_lost;
use std::alloc::{AllocError, Global};
use std::test::Fail;

/// Tests whether each row survives these failures.
fn survive(alloc: Global) -> Result<bool, AllocError> {
    Ok(
        first_lost(alloc, &rows::CASES)?.is_none()
            && first_lost(alloc, &early_ends::CASES)?.is_none()
            && first_lost(alloc, &ties::CASES)?.is_none(),
    )
}

#[test]
fn refused_look_ups_and_memory_refuse_a_description(rt: HostRuntime) -> Result<(), Fail> {
    assert!(rt; survive(rt.alloc())?);
    Ok(())
}
