//! Counts the look-ups of calls that have two bases, above a long chain with generation numbers.
//!
//! ```text
//!                      2---4
//!                     / \ /
//! 16---17-- .. --44--45  X
//!                     \ / \
//!                      3---5
//!                       \
//!                        6
//! ```

use crate::library::questions::Call::{Bases, Counted, Octopus, OctopusBases, Paint, Reduce};
use crate::library::questions::{Call, Question};
use crate::shared::faults::{LookUps, is_counted};
use crate::shared::histories::{Row, source_of};
use std::alloc::{AllocError, Global};
use std::test::Fail;

/// The history above. The chain has thirty commits.
static DEEP: [Row<'static>; 35] = [
    Row(16, 1, Some(1), &[]),
    Row(17, 2, Some(2), &[16]),
    Row(18, 3, Some(3), &[17]),
    Row(19, 4, Some(4), &[18]),
    Row(20, 5, Some(5), &[19]),
    Row(21, 6, Some(6), &[20]),
    Row(22, 7, Some(7), &[21]),
    Row(23, 8, Some(8), &[22]),
    Row(24, 9, Some(9), &[23]),
    Row(25, 10, Some(10), &[24]),
    Row(26, 11, Some(11), &[25]),
    Row(27, 12, Some(12), &[26]),
    Row(28, 13, Some(13), &[27]),
    Row(29, 14, Some(14), &[28]),
    Row(30, 15, Some(15), &[29]),
    Row(31, 16, Some(16), &[30]),
    Row(32, 17, Some(17), &[31]),
    Row(33, 18, Some(18), &[32]),
    Row(34, 19, Some(19), &[33]),
    Row(35, 20, Some(20), &[34]),
    Row(36, 21, Some(21), &[35]),
    Row(37, 22, Some(22), &[36]),
    Row(38, 23, Some(23), &[37]),
    Row(39, 24, Some(24), &[38]),
    Row(40, 25, Some(25), &[39]),
    Row(41, 26, Some(26), &[40]),
    Row(42, 27, Some(27), &[41]),
    Row(43, 28, Some(28), &[42]),
    Row(44, 29, Some(29), &[43]),
    Row(45, 30, Some(30), &[44]),
    Row(2, 31, Some(31), &[45]),
    Row(3, 32, Some(31), &[45]),
    Row(4, 33, Some(32), &[2, 3]),
    Row(5, 34, Some(32), &[2, 3]),
    Row(6, 35, Some(32), &[3]),
];

/// A call over that history: the function, the first id, the others, the ids of the answer, and how
/// many look-ups it takes.
struct Deep(Call, u8, &'static [u8], &'static [u8], u64);

/// A walk looks up the ids that are given, what they reach down to the bases, and the one parent of
/// the bases, 45. Nothing below 45 is looked up.
static NEAR: [Deep; 11] = [
    // 4, 5, 2, 3 and 45.
    Deep(Bases, 4, &[5], &[3, 2], 5),
    Deep(Counted, 5, &[4], &[3, 2], 5),
    Deep(Paint, 4, &[5], &[3, 2], 5),
    Deep(Octopus, 4, &[5], &[3], 5),
    Deep(OctopusBases, 4, &[5, 4], &[3, 2], 5),
    // 6 too.
    Deep(Bases, 4, &[5, 6], &[3, 2], 6),
    Deep(Octopus, 4, &[5, 6], &[3], 6),
    Deep(OctopusBases, 6, &[4, 5], &[3], 6),
    // Only the others are given: 2, 3 and 45; then 5, 2, 3 and 45; then 4 too.
    Deep(Reduce, 4, &[2, 3], &[2, 3], 3),
    Deep(Reduce, 4, &[2, 5], &[5], 4),
    Deep(Reduce, 4, &[3, 5, 4], &[5, 4], 5),
];

/// Tests whether a call has its answer, and takes its look-ups.
fn is_as_said(
    alloc: Global,
    call: &Deep,
    history: &'static [Row<'static>],
) -> Result<bool, AllocError> {
    let question = Question(call.0, history, call.1, call.2, call.3);
    is_counted(
        alloc,
        &LookUps(question, call.4),
        source_of(alloc, history)?,
    )
}

/// Returns the index of the first row that is answered otherwise, or takes more look-ups or fewer.
fn first_miscounted(
    alloc: Global,
    history: &'static [Row<'static>],
) -> Result<Option<usize>, AllocError> {
    for (i, call) in NEAR.iter().enumerate() {
        if !is_as_said(alloc, call, history)? {
            return Ok(Some(i));
        }
    }
    Ok(None)
}

#[test]
fn nothing_far_below_two_bases_is_looked_up(rt: HostRuntime) -> Result<(), Fail> {
    assert_eq!(rt; first_miscounted(rt.alloc(), &DEEP)?, None);
    Ok(())
}
