//! Lets each call on files and each allocation fail in turn.

use crate::files::fake::Fake;
use crate::files::files::Written;
use crate::shared::refusing::Refusing;
use std::alloc::{Allocator, Global};
use std::cell::Cell;

/// Says what came of a question.
#[derive(Clone, Copy, PartialEq, Eq)]
pub(crate) enum Outcome {
    Right,
    Wrong,
    /// The call on a file failed that was to fail, or the allocation.
    Failed,
}

/// Asks questions over files, of which a call may fail.
pub(crate) trait Trial {
    /// Tells whether all answers are right, or say that a call or an allocation failed.
    fn holds<A: Allocator + Copy>(&self, alloc: A, files: Fake<'_>) -> bool;
}

/// Returns the number of calls on files in a trial, each of which fails in turn.
///
/// A read returns at most `most` bytes. Returns 0 if the trial does not hold.
pub(crate) fn failed_calls<T: Trial>(
    alloc: Global,
    files: &[Written],
    most: usize,
    trial: &T,
) -> u64 {
    for fails in 0..100_000u64 {
        let calls = Cell::new(0u64);
        if !trial.holds(alloc, Fake::new(files, &calls, fails, most)) {
            return 0;
        }
        if calls.get() <= fails {
            return fails;
        }
    }
    0
}

/// Returns the number of allocations in a trial, each of which fails in turn.
///
/// A read returns at most `most` bytes. Returns 0 if the trial does not hold.
pub(crate) fn failed_allocations<T: Trial>(
    alloc: Global,
    files: &[Written],
    most: usize,
    trial: &T,
) -> u64 {
    for before in 0..100_000u64 {
        let calls = Cell::new(0u64);
        let memory = Refusing::new(alloc, before);
        if !trial.holds(&memory, Fake::new(files, &calls, u64::MAX, most)) {
            return 0;
        }
        if !memory.has_refused() {
            return before;
        }
    }
    0
}
