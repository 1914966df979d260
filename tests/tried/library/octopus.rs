//! Octopus bases of small histories, with every order of the heads, failing look-ups, and failing
//! allocations.
//!
//! ```text
//!   4   5        3   4   5        3   4
//!   | x |        | x |  /         | x |
//!   2   3        1   2            1   2
//!    \ /
//!     1
//! ```

use crate::library::questions::Call::{Octopus, OctopusBases};
use crate::library::questions::Question;
use crate::shared::faults::{first_lost, first_wrong};
use crate::shared::histories::{CRISS_CROSS, OLDER_CHILD, Row};
use std::alloc::{AllocError, Global};
use std::test::Fail;

/// The criss-cross on the left, where [3] is younger than [2].
const YOUNGER_THIRD: [Row<'static>; 5] = [
    Row(1, 1, None, &[]),
    Row(2, 2, None, &[1]),
    Row(3, 3, None, &[1]),
    Row(4, 4, None, &[2, 3]),
    Row(5, 4, None, &[2, 3]),
];

/// The history in the middle: only [2] is common to [3], [4] and [5].
const THREE_HEADS: [Row<'static>; 5] = [
    Row(1, 1, None, &[]),
    Row(2, 1, None, &[]),
    Row(3, 2, None, &[1, 2]),
    Row(4, 2, None, &[1, 2]),
    Row(5, 2, None, &[2]),
];

const THIRD: Row<'static> = Row(3, 9, None, &[1, 2]);

const FOURTH: Row<'static> = Row(4, 9, None, &[1, 2]);

// The history on the right, with generations and times of [1] and [2].
const GENERATIONS_FALL: [Row<'static>; 4] = [
    Row(1, 0, Some(2), &[]),
    Row(2, 5, Some(1), &[]),
    THIRD,
    FOURTH,
];

const GENERATIONS_RISE: [Row<'static>; 4] = [
    Row(1, 5, Some(1), &[]),
    Row(2, 0, Some(2), &[]),
    THIRD,
    FOURTH,
];

const ABSENT_IS_GREATEST: [Row<'static>; 4] = [
    Row(1, 0, None, &[]),
    Row(2, 5, Some(7), &[]),
    THIRD,
    FOURTH,
];

const TIMES_FALL: [Row<'static>; 4] = [
    Row(1, -3, Some(1), &[]),
    Row(2, -4, Some(1), &[]),
    THIRD,
    FOURTH,
];

const ALL_EQUAL: [Row<'static>; 4] = [
    Row(1, 5, Some(1), &[]),
    Row(2, 5, Some(1), &[]),
    THIRD,
    FOURTH,
];

/// [1] and [2] have a parent that the source does not have, and so have the two merges of [1].
const PARENT_LACKED: [Row<'static>; 4] = [
    Row(1, 1, None, &[9]),
    Row(2, 1, None, &[9]),
    Row(3, 2, None, &[9, 1]),
    Row(4, 2, None, &[1, 9]),
];

/// All ids are equal, so nothing is looked up.
static TRIVIAL: [Question; 5] = [
    Question(Octopus, &CRISS_CROSS, 4, &[4, 4], &[4]),
    Question(Octopus, &CRISS_CROSS, 4, &[], &[4]),
    Question(Octopus, &CRISS_CROSS, 9, &[9], &[9]),
    Question(Octopus, &CRISS_CROSS, 9, &[], &[9]),
    Question(OctopusBases, &CRISS_CROSS, 9, &[9, 9], &[9]),
];

static WORKED: [Question; 27] = [
    Question(Octopus, &CRISS_CROSS, 4, &[5], &[2]),
    Question(Octopus, &CRISS_CROSS, 4, &[5, 4], &[2]),
    Question(Octopus, &YOUNGER_THIRD, 4, &[5], &[3]),
    Question(Octopus, &CRISS_CROSS, 2, &[3, 4], &[1]),
    Question(Octopus, &CRISS_CROSS, 4, &[2, 5], &[2]),
    // The order of the heads does not matter.
    Question(Octopus, &THREE_HEADS, 3, &[4, 5], &[2]),
    Question(Octopus, &THREE_HEADS, 3, &[5, 4], &[2]),
    Question(Octopus, &THREE_HEADS, 4, &[3, 5], &[2]),
    Question(Octopus, &THREE_HEADS, 4, &[5, 3], &[2]),
    Question(Octopus, &THREE_HEADS, 5, &[3, 4], &[2]),
    Question(Octopus, &THREE_HEADS, 5, &[4, 3], &[2]),
    // The generation number decides, then the time, then the id.
    Question(Octopus, &GENERATIONS_FALL, 3, &[4], &[1]),
    Question(Octopus, &GENERATIONS_RISE, 3, &[4], &[2]),
    Question(Octopus, &ABSENT_IS_GREATEST, 3, &[4], &[1]),
    Question(Octopus, &TIMES_FALL, 3, &[4], &[1]),
    Question(Octopus, &ALL_EQUAL, 3, &[4], &[1]),
    // Repeated heads, and one that is among the bases of the others.
    Question(Octopus, &THREE_HEADS, 5, &[3, 3, 5, 4, 3], &[2]),
    Question(Octopus, &CRISS_CROSS, 4, &[5, 3], &[3]),
    Question(Octopus, &CRISS_CROSS, 3, &[5, 4, 3], &[3]),
    // Heads in a chain, also if times rise along it, and bases in a chain.
    Question(Octopus, &CRISS_CROSS, 1, &[2, 4], &[1]),
    Question(Octopus, &OLDER_CHILD, 1, &[3, 2], &[1]),
    Question(Octopus, &OLDER_CHILD, 3, &[4], &[2]),
    // All octopus bases, the first in front.
    Question(OctopusBases, &CRISS_CROSS, 4, &[5], &[2, 3]),
    Question(OctopusBases, &YOUNGER_THIRD, 4, &[5, 4], &[3, 2]),
    Question(OctopusBases, &THREE_HEADS, 3, &[4, 5], &[2]),
    Question(OctopusBases, &GENERATIONS_RISE, 4, &[3], &[2, 1]),
    Question(OctopusBases, &CRISS_CROSS, 5, &[3, 4], &[3]),
];

/// One of the ids is not in the source, or a common parent is not.
static LACKED: [Question; 8] = [
    Question(Octopus, &CRISS_CROSS, 4, &[9], &[]),
    Question(Octopus, &CRISS_CROSS, 9, &[4], &[]),
    Question(Octopus, &CRISS_CROSS, 9, &[9, 4], &[]),
    Question(Octopus, &CRISS_CROSS, 4, &[4, 9, 5], &[]),
    Question(Octopus, &THREE_HEADS, 1, &[2, 9], &[]),
    Question(Octopus, &PARENT_LACKED, 1, &[2], &[]),
    Question(Octopus, &PARENT_LACKED, 3, &[4], &[1]),
    Question(OctopusBases, &CRISS_CROSS, 4, &[5, 9], &[]),
];

/// Tests whether all questions are answered. What is held must not be looked up again.
fn are_answered(alloc: Global) -> Result<bool, AllocError> {
    Ok(
        first_wrong(alloc, &TRIVIAL, 0)?.is_none()
            && first_wrong(alloc, &WORKED, 5)?.is_none()
            && first_wrong(alloc, &LACKED, 20)?.is_none(),
    )
}

#[test]
fn heads_go_back_to_their_best_base(rt: HostRuntime) -> Result<(), Fail> {
    assert!(rt; are_answered(rt.alloc())?);
    Ok(())
}

/// Tests whether all questions survive failing look-ups and allocations.
fn survive(alloc: Global) -> Result<bool, AllocError> {
    Ok(first_lost(alloc, &WORKED)?.is_none() && first_lost(alloc, &LACKED)?.is_none())
}

#[test]
fn refused_look_ups_and_memory_refuse_an_octopus(rt: HostRuntime) -> Result<(), Fail> {
    assert!(rt; survive(rt.alloc())?);
    Ok(())
}
