//! Asks the questions of the tables, also while a call or an allocation fails.

use super::answers::asked;
use super::files::files;
use super::questions::{Ask, Row, TABLES, row_of};
use crate::files::failures::{Outcome, Trial, failed_allocations, failed_calls};
use crate::files::fake::Fake;
use crate::files::files::Written;
use gix_files::Folders;
use gix_ref::References;
use std::alloc::{AllocError, Allocator, Global};
use std::cell::Cell;
use std::test::Fail;

/// A read returns at most so many bytes.
const MOST: usize = 100;

/// Asks a question, and once more if it failed: a failure leaves nothing behind.
fn asked_twice<F: Folders + Drop, A: Allocator + Copy>(alloc: A, files: F, row: &Row) -> Outcome {
    let git_dir = if row.is_linked { "r/worktrees/w" } else { "r" };
    let Ok(mut references) = References::open(alloc, files, git_dir.as_bytes(), b"r") else {
        return Outcome::Failed;
    };
    match asked(alloc, &mut references, row) {
        Outcome::Failed if asked(alloc, &mut references, row) != Outcome::Right => Outcome::Wrong,
        outcome => outcome,
    }
}

/// Tests whether a question is answered as git answers it, while no call fails.
fn is_right(alloc: Global, files: &[Written], row: &Row) -> bool {
    let calls = Cell::new(0u64);
    let files = Fake::new(files, &calls, u64::MAX, MOST);
    asked_twice(alloc, files, row) == Outcome::Right
}

impl Trial for Row {
    fn holds<A: Allocator + Copy>(&self, alloc: A, files: Fake<'_>) -> bool {
        asked_twice(alloc, files, self) != Outcome::Wrong
    }
}

/// What is tested of a row.
#[derive(Clone, Copy)]
enum Tested {
    /// The answer.
    Answer,
    /// The answers while each call and each allocation fails, if the row says so.
    Failures,
}

/// Tests a row.
fn holds(alloc: Global, files: &[Written], row: &Row, tested: Tested) -> bool {
    match tested {
        Tested::Answer => is_right(alloc, files, row),
        Tested::Failures => {
            !row.fails
                || failed_calls(alloc, files, MOST, row) > 0
                    && failed_allocations(alloc, files, MOST, row) > 0
        }
    }
}

/// Returns the first row of a table that does not hold.
fn first_wrong_of(
    alloc: Global,
    files: &[Written],
    (ask, rows): (Ask, &'static str),
    tested: Tested,
) -> Option<&'static str> {
    for row in rows.lines() {
        let holds = match &row_of(alloc, ask, row) {
            Some(row) => holds(alloc, files, row, tested),
            None => false,
        };
        if !holds {
            return Some(row);
        }
    }
    None
}

/// Returns the first row of all tables that does not hold.
fn first_wrong_in(alloc: Global, files: &[Written], tested: Tested) -> Option<&'static str> {
    for table in &TABLES {
        let wrong = first_wrong_of(alloc, files, *table, tested);
        if wrong.is_some() {
            return wrong;
        }
    }
    None
}

/// Returns the first row that does not hold over the files of the tables.
fn first_wrong(alloc: Global, tested: Tested) -> Result<Option<&'static str>, AllocError> {
    let files = files(alloc)?;
    Ok(first_wrong_in(alloc, &files, tested))
}

#[test]
fn answers_as_git(rt: HostRuntime) -> Result<(), Fail> {
    assert_eq!(rt; first_wrong(rt.alloc(), Tested::Answer)?, None);
    Ok(())
}

#[test]
fn survives_each_failure(rt: HostRuntime) -> Result<(), Fail> {
    assert_eq!(rt; first_wrong(rt.alloc(), Tested::Failures)?, None);
    Ok(())
}
