//! Rows of git-describe whose walk ends before the history does: at a name below which nothing is
//! left, or when there is no room for one more candidate (`--candidates`). The depth is completed
//! then.

use super::cases::{Case, FORK, How, LINE, ONE_CANDIDATE, PLAIN, Want, first_wrong};
use crate::shared::histories::Row;
use std::alloc::{AllocError, Global};
use std::test::Fail;

/// The source fails for the second parent of [4] in the fork.
const FAILS_FOR_THE_SECOND_PARENT: How = How {
    max_candidates: 10,
    fallback_to_oid: true,
    first_parent: true,
    fails_for: 3,
};

/// The source fails for the root of the line.
const FAILS_FOR_THE_ROOT: How = How {
    max_candidates: 10,
    fallback_to_oid: false,
    first_parent: false,
    fails_for: 1,
};

/// The named commit is older than its parent.
const SKEWED: &[Row<'static>] = &[
    Row(1, 5, None, &[]),
    Row(2, 1, None, &[1]),
    Row(3, 10, None, &[2, 1]),
];

/// The fork, with parents listed twice.
const LISTED_TWICE: &[Row<'static>] = &[
    Row(1, 1, None, &[]),
    Row(2, 9, None, &[1, 1]),
    Row(3, 8, None, &[1]),
    Row(4, 10, None, &[2, 3, 2]),
];

pub static CASES: [Case; 4] = [
    // The walk ends at the name. What comes after it is not looked up.
    Case(
        LINE,
        &[(2, "v")],
        3,
        PLAIN,
        Want::Named("v", 1, 2, 2, &[2, 3]),
    ),
    // The depth is completed if the named commit is older than its parent.
    Case(
        SKEWED,
        &[(2, "v")],
        3,
        PLAIN,
        Want::Named("v", 2, 3, 3, &[1, 2, 3]),
    ),
    // The second name is given up, since there is no room, and popped again.
    Case(
        FORK,
        &[(2, "A"), (3, "B")],
        4,
        ONE_CANDIDATE,
        Want::Named("A", 2, 4, 5, &[1, 2, 3, 4]),
    ),
    Case(
        LISTED_TWICE,
        &[(2, "A"), (3, "B")],
        4,
        ONE_CANDIDATE,
        Want::Named("A", 2, 4, 5, &[1, 2, 3, 4]),
    ),
];

/// Calls over a source that fails for one commit.
static FAILING: [Case; 3] = [
    Case(
        LINE,
        &[(2, "v")],
        3,
        FAILS_FOR_THE_ROOT,
        Want::Named("v", 1, 2, 2, &[2, 3]),
    ),
    Case(LINE, &[(1, "v1")], 3, FAILS_FOR_THE_ROOT, Want::Lost(2)),
    Case(
        FORK,
        &[(3, "B")],
        4,
        FAILS_FOR_THE_SECOND_PARENT,
        Want::Unnamed(3, 3, &[1, 2, 4]),
    ),
];

/// Tests whether all cases are described, also over a source that fails.
fn are_described(alloc: Global) -> Result<bool, AllocError> {
    Ok(first_wrong(alloc, &CASES)?.is_none() && first_wrong(alloc, &FAILING)?.is_none())
}

#[test]
fn early_ends_are_described(rt: HostRuntime) -> Result<(), Fail> {
    assert!(rt; are_described(rt.alloc())?);
    Ok(())
}
