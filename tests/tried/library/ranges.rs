//! The calls of `gix_range`, over histories without generation numbers.

use crate::library::questions::Call::{
    AheadBehind, AllOfOthers, Beyond, CountBeyond, EarlyBases, Independent, OthersBeyond, Reached,
};
use crate::library::questions::{Call, Question};
use crate::shared::faults::{LookUps, first_lost, is_counted};
use crate::shared::histories::{CRISS_CROSS, OLD_PATH, OLDER_CHILD, Row, source_of};
use std::alloc::{AllocError, Global};
use std::test::Fail;

/// Two branches above a long line:
///
/// ```text
///                      2---4
///                     / \ /
/// 16---17-- .. --29--30  X
///                     \ / \
///                      3---5
///                       \
///                        6
/// ```
static DEEP: [Row<'static>; 20] = [
    Row(16, 1, None, &[]),
    Row(17, 2, None, &[16]),
    Row(18, 3, None, &[17]),
    Row(19, 4, None, &[18]),
    Row(20, 5, None, &[19]),
    Row(21, 6, None, &[20]),
    Row(22, 7, None, &[21]),
    Row(23, 8, None, &[22]),
    Row(24, 9, None, &[23]),
    Row(25, 10, None, &[24]),
    Row(26, 11, None, &[25]),
    Row(27, 12, None, &[26]),
    Row(28, 13, None, &[27]),
    Row(29, 14, None, &[28]),
    Row(30, 15, None, &[29]),
    Row(2, 16, None, &[30]),
    Row(3, 17, None, &[30]),
    Row(4, 18, None, &[2, 3]),
    Row(5, 19, None, &[2, 3]),
    Row(6, 20, None, &[3]),
];

/// A branch that was begun by a wrong clock: 3 and 4 are older than all that they reach.
///
/// ```text
/// 1---2---5---6
///      \
///       3---4
/// ```
const WRONG_CLOCK: [Row<'static>; 6] = [
    Row(1, 50, None, &[]),
    Row(2, 60, None, &[1]),
    Row(3, 1, None, &[2]),
    Row(4, 2, None, &[3]),
    Row(5, 70, None, &[2]),
    Row(6, 80, None, &[5]),
];

/// No commit below 3 is reached from 4.
const TWO_ROOTS: [Row<'static>; 4] = [
    Row(1, 1, None, &[]),
    Row(2, 2, None, &[]),
    Row(3, 3, None, &[2]),
    Row(4, 4, None, &[1]),
];

static WORKED: [Question; 34] = [
    Question(Reached, &WRONG_CLOCK, 2, &[4], &[2]),
    Question(Reached, &WRONG_CLOCK, 2, &[4, 6], &[2]),
    Question(Reached, &WRONG_CLOCK, 5, &[4], &[]),
    Question(Reached, &WRONG_CLOCK, 4, &[4], &[4]),
    // The source has neither 8 nor 9.
    Question(Reached, &WRONG_CLOCK, 8, &[8], &[]),
    Question(Reached, &WRONG_CLOCK, 1, &[], &[]),
    Question(Beyond, &WRONG_CLOCK, 6, &[4], &[5, 6]),
    Question(Beyond, &WRONG_CLOCK, 4, &[6], &[3, 4]),
    Question(Beyond, &WRONG_CLOCK, 4, &[], &[1, 2, 3, 4]),
    Question(Beyond, &WRONG_CLOCK, 4, &[8], &[1, 2, 3, 4]),
    Question(Beyond, &WRONG_CLOCK, 8, &[4], &[]),
    Question(Beyond, &WRONG_CLOCK, 6, &[3, 5], &[6]),
    Question(Beyond, &WRONG_CLOCK, 2, &[4], &[]),
    Question(Beyond, &TWO_ROOTS, 3, &[4], &[2, 3]),
    Question(AheadBehind, &TWO_ROOTS, 3, &[4], &[2, 2]),
    Question(OthersBeyond, &WRONG_CLOCK, 4, &[6, 5], &[5, 6]),
    Question(OthersBeyond, &WRONG_CLOCK, 1, &[6, 4], &[2, 3, 4, 5, 6]),
    Question(OthersBeyond, &WRONG_CLOCK, 8, &[3, 2], &[1, 2, 3]),
    Question(AllOfOthers, &WRONG_CLOCK, 1, &[4, 5], &[1, 2, 3, 4, 5]),
    Question(AllOfOthers, &WRONG_CLOCK, 1, &[], &[]),
    Question(CountBeyond, &WRONG_CLOCK, 6, &[4], &[2]),
    Question(CountBeyond, &OLD_PATH, 6, &[2], &[4]),
    Question(AheadBehind, &WRONG_CLOCK, 6, &[4], &[2, 2]),
    Question(AheadBehind, &WRONG_CLOCK, 6, &[2], &[2, 0]),
    Question(AheadBehind, &WRONG_CLOCK, 4, &[4], &[0, 0]),
    Question(AheadBehind, &OLD_PATH, 6, &[7], &[1, 1]),
    Question(EarlyBases, &CRISS_CROSS, 4, &[5], &[2, 3]),
    Question(EarlyBases, &OLDER_CHILD, 3, &[4], &[2]),
    Question(EarlyBases, &OLD_PATH, 6, &[7], &[5]),
    Question(EarlyBases, &CRISS_CROSS, 4, &[4], &[4]),
    Question(EarlyBases, &CRISS_CROSS, 4, &[], &[]),
    Question(Independent, &CRISS_CROSS, 1, &[2, 3, 1], &[2, 3]),
    Question(Independent, &OLD_PATH, 1, &[2, 9, 6], &[6]),
    Question(Independent, &CRISS_CROSS, 1, &[], &[]),
];

/// Each call is answered as the table says, also while each look-up and each allocation fails in
/// turn.
#[test]
fn worked_ranges(rt: HostRuntime) -> Result<(), Fail> {
    assert_eq!(rt; first_lost(rt.alloc(), &WORKED)?, None);
    Ok(())
}

/// A call over the deep history: the function, the first id, the others, the answer, and how many
/// look-ups it takes.
struct Deep(Call, u8, &'static [u8], &'static [u8], u64);

/// A walk looks up the ids that are given, what they reach down to the bases, and the parents of
/// these.
static NEAR: [Deep; 8] = [
    // 4, 5, 2, 3 and 30.
    Deep(Beyond, 4, &[5], &[4], 5),
    Deep(AheadBehind, 4, &[5], &[1, 1], 5),
    Deep(Reached, 4, &[5], &[], 5),
    // 29 too: 2 and 3 have the base 30.
    Deep(EarlyBases, 4, &[5], &[2, 3], 6),
    // 4, 6, 2, 3 and 30, and 29: 2 and 6 have the base 30.
    Deep(Beyond, 4, &[6], &[2, 4], 6),
    // 4, 5, 6, 2, 3 and 30.
    Deep(CountBeyond, 5, &[4, 6], &[1], 6),
    Deep(Independent, 1, &[4, 5, 6], &[4, 5, 6], 6),
    // 3, 4, 2 and 30.
    Deep(Reached, 3, &[4], &[3], 4),
];

/// Returns the index of the first row that is answered otherwise, or takes more look-ups or fewer.
fn first_miscounted(alloc: Global) -> Result<Option<usize>, AllocError> {
    for (i, call) in NEAR.iter().enumerate() {
        let question = Question(call.0, &DEEP, call.1, call.2, call.3);
        if !is_counted(alloc, &LookUps(question, call.4), source_of(alloc, &DEEP)?)? {
            return Ok(Some(i));
        }
    }
    Ok(None)
}

#[test]
fn nothing_far_below_is_looked_up(rt: HostRuntime) -> Result<(), Fail> {
    assert_eq!(rt; first_miscounted(rt.alloc())?, None);
    Ok(())
}
