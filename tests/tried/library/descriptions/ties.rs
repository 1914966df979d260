//! Rows of git-describe with two named commits of the same depth, or with equal dates: the smaller
//! name and id win, or what is met first, as in git.

use super::cases::{Case, PLAIN, Want, first_wrong, is_name, names_of};
use crate::shared::histories::{Row, id, source_of};
use gix_revision::describe::{Manner, Tie, counted_by};
use gix_revision::graph::Graph;
use std::alloc::{AllocError, Global};
use std::test::Fail;

/// Two named roots with the same date.
const TIED: &[Row<'static>] = &[
    Row(2, 5, None, &[]),
    Row(3, 5, None, &[]),
    Row(4, 10, None, &[2, 3]),
];

const TIED_TURNED: &[Row<'static>] = &[
    Row(2, 5, None, &[]),
    Row(3, 5, None, &[]),
    Row(4, 10, None, &[3, 2]),
];

pub static CASES: [Case; 3] = [
    // Of two names of the same depth the smaller one wins, whichever commit is met first.
    Case(
        TIED,
        &[(2, "b"), (3, "a")],
        4,
        PLAIN,
        Want::Named("a", 2, 3, 3, &[2, 3, 4]),
    ),
    Case(
        TIED,
        &[(2, "a"), (3, "b")],
        4,
        PLAIN,
        Want::Named("a", 2, 3, 3, &[2, 3, 4]),
    ),
    Case(
        TIED_TURNED,
        &[(2, "b"), (3, "a")],
        4,
        PLAIN,
        Want::Named("a", 2, 3, 3, &[2, 3, 4]),
    ),
];

#[test]
fn ties_are_described(rt: HostRuntime) -> Result<(), Fail> {
    assert_eq!(rt; first_wrong(rt.alloc(), &CASES)?, None);
    Ok(())
}

/// A parent and a grandparent with the same date.
const LEVEL: &[Row<'static>] = &[
    Row(1, 5, None, &[]),
    Row(2, 5, None, &[1]),
    Row(3, 5, None, &[2, 1]),
];

const LEVEL_TURNED: &[Row<'static>] = &[
    Row(1, 5, None, &[]),
    Row(2, 5, None, &[1]),
    Row(3, 5, None, &[1, 2]),
];

/// With one candidate there is no room for 1, which goes back behind 2 of the same date.
const PUT_BACK: &[Row<'static>] = &[
    Row(1, 0, None, &[]),
    Row(2, 0, None, &[1]),
    Row(3, 1, None, &[1]),
    Row(5, 1, None, &[2]),
    Row(6, 1, None, &[3, 5]),
];

/// A history, names, how many are weighed, the commit to describe, and what git 2.39.5 prints: a
/// name and a depth.
struct Printed(
    &'static [Row<'static>],
    &'static [(u8, &'static str)],
    usize,
    u8,
    &'static str,
    u32,
);

static PRINTED: [Printed; 5] = [
    Printed(TIED, &[(2, "b"), (3, "a")], 10, 4, "b", 2),
    Printed(TIED_TURNED, &[(2, "b"), (3, "a")], 10, 4, "a", 2),
    Printed(LEVEL, &[(2, "T")], 10, 3, "T", 1),
    Printed(LEVEL_TURNED, &[(2, "T")], 10, 3, "T", 2),
    Printed(PUT_BACK, &[(5, "T"), (1, "R")], 1, 6, "T", 2),
];

/// Tells whether the answer in git's order is git's.
fn is_gits(alloc: Global, printed: &Printed) -> Result<bool, AllocError> {
    let Printed(rows, names, max_candidates, start, name, depth) = printed;
    let names = names_of(alloc, names)?;
    let manner = Manner {
        max_candidates: *max_candidates,
        fallback_to_oid: false,
        first_parent: false,
        tie: Tie::ByMeeting,
    };
    let mut graph = Graph::new(alloc, source_of(alloc, rows)?);
    match counted_by(alloc, &id(*start), &mut graph, &names, manner) {
        Ok((Some(nearest), _)) => Ok(is_name(&nearest.name, name) && nearest.depth == *depth),
        _ => Ok(false),
    }
}

#[test]
fn git_order_is_gits(rt: HostRuntime) -> Result<(), Fail> {
    for printed in PRINTED.iter() {
        assert!(rt; is_gits(rt.alloc(), printed)?);
    }
    Ok(())
}
