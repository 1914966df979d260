//! Rows of git-describe: the nearest name, along all parents or first parents; a start that has a
//! name; no name, and the id in its place (`--always`); no candidates (`--candidates=0`); a start
//! or a parent that the source does not have; the least and greatest times; a cycle.

use super::cases::{
    ALWAYS, Case, FIRST_PARENT, FORK, LINE, NO_CANDIDATE, PLAIN, Want, first_wrong,
};
use crate::shared::histories::Row;
use std::test::Fail;

/// The older name is nearer, and met last.
const OLDER_IS_NEARER: &[Row<'static>] = &[
    Row(1, 1, None, &[]),
    Row(2, 8, None, &[1]),
    Row(3, 9, None, &[]),
    Row(4, 10, None, &[3, 2]),
];

const MISSING_PARENT: &[Row<'static>] = &[Row(1, 1, None, &[]), Row(2, 2, None, &[9, 1])];

const FAR_TIMES: &[Row<'static>] = &[
    Row(1, i64::MIN, None, &[]),
    Row(2, i64::MAX, None, &[1]),
    Row(3, 0, None, &[2]),
];

const CYCLE: &[Row<'static>] = &[
    Row(1, 1, None, &[2]),
    Row(2, 2, None, &[1]),
    Row(3, 2, None, &[1]),
];

pub static CASES: [Case; 12] = [
    Case(
        LINE,
        &[(1, "v1")],
        3,
        PLAIN,
        Want::Named("v1", 2, 3, 3, &[1, 2, 3]),
    ),
    Case(LINE, &[(3, "v")], 3, PLAIN, Want::Named("v", 0, 0, 0, &[])),
    Case(
        FORK,
        &[(3, "B")],
        4,
        FIRST_PARENT,
        Want::Unnamed(3, 3, &[1, 2, 4]),
    ),
    Case(
        FORK,
        &[(4, "A")],
        4,
        NO_CANDIDATE,
        Want::Named("A", 0, 0, 0, &[]),
    ),
    Case(FORK, &[(1, "A")], 4, NO_CANDIDATE, Want::Unnamed(0, 0, &[])),
    Case(FORK, &[], 9, PLAIN, Want::Nothing),
    Case(FORK, &[(1, "A")], 9, ALWAYS, Want::Missing),
    Case(
        OLDER_IS_NEARER,
        &[(2, "B"), (3, "A")],
        4,
        PLAIN,
        Want::Named("B", 2, 4, 4, &[1, 2, 3, 4]),
    ),
    Case(
        MISSING_PARENT,
        &[(1, "v")],
        2,
        PLAIN,
        Want::Named("v", 1, 2, 2, &[1, 2]),
    ),
    Case(
        MISSING_PARENT,
        &[(1, "v")],
        2,
        FIRST_PARENT,
        Want::Unnamed(1, 1, &[2]),
    ),
    Case(
        FAR_TIMES,
        &[(1, "v")],
        3,
        PLAIN,
        Want::Named("v", 2, 3, 3, &[1, 2, 3]),
    ),
    Case(CYCLE, &[(2, "v")], 3, PLAIN, Want::Anything),
];

#[test]
fn rows_are_described(rt: HostRuntime) -> Result<(), Fail> {
    assert_eq!(rt; first_wrong(rt.alloc(), &CASES)?, None);
    Ok(())
}
