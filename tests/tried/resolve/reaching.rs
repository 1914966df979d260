//! What some commits reach and others do not, listed and counted, and commits in order, over small
//! histories; also with failing look-ups and failing allocations.

use crate::resolve::near::are_counted;
use crate::shared::faults::{Answered, Asks, LookUps, first_lost, first_wrong};
use crate::shared::histories::{BRANCHES, CRISS_CROSS, Row, are, id, ids};
use gix_resolve::{
    ListError, ahead_behind, count_reachable, newest_first, reachable, reachable_newest_first,
};
use gix_revision::graph::{Commit, Find, Graph};
use gix_revision::hash::ObjectId;
use gix_revision::merge_base::Flags;
use std::alloc::{AllocError, Allocator, Global};
use std::test::Fail;

/// Which function is called.
#[derive(Clone, Copy)]
enum Call {
    /// The ids, and their number.
    Reachable,
    /// The ids, newest first.
    ReachableNewest,
    /// Both counts, for the first ids of each side.
    AheadBehind,
    /// The first side alone, in order.
    Newest,
}

/// A call: the function, the history, the two sides, and the ids or the counts of the answer.
#[derive(Clone, Copy)]
struct Reaching(
    Call,
    &'static [Row<'static>],
    &'static [u8],
    &'static [u8],
    &'static [u8],
);

/// The parent 1 has a greater generation than its child 2.
pub(crate) const RISING: [Row<'static>; 3] = [
    Row(1, 1, Some(5), &[]),
    Row(2, 2, Some(2), &[1]),
    Row(3, 3, Some(6), &[1]),
];

static WORKED: [Reaching; 24] = [
    Reaching(Call::Reachable, &CRISS_CROSS, &[4], &[], &[1, 2, 3, 4]),
    Reaching(Call::Reachable, &CRISS_CROSS, &[5, 4], &[3, 2], &[4, 5]),
    Reaching(Call::Reachable, &CRISS_CROSS, &[4], &[2], &[3, 4]),
    Reaching(Call::Reachable, &CRISS_CROSS, &[2, 9, 2], &[3], &[2]),
    Reaching(Call::Reachable, &CRISS_CROSS, &[2], &[9], &[1, 2]),
    Reaching(Call::Reachable, &CRISS_CROSS, &[4], &[4], &[]),
    Reaching(Call::Reachable, &CRISS_CROSS, &[], &[4], &[]),
    Reaching(Call::Reachable, &BRANCHES, &[8, 4], &[3], &[4, 7, 8]),
    Reaching(Call::Reachable, &BRANCHES, &[3], &[6], &[]),
    // A generation number rises. What the other side reaches below it may be listed.
    Reaching(Call::Reachable, &RISING, &[3], &[2], &[1, 3]),
    Reaching(
        Call::ReachableNewest,
        &CRISS_CROSS,
        &[5, 4],
        &[3],
        &[4, 5, 2],
    ),
    Reaching(Call::ReachableNewest, &RISING, &[3], &[2], &[3, 1]),
    Reaching(Call::AheadBehind, &CRISS_CROSS, &[4], &[5], &[1, 1]),
    Reaching(Call::AheadBehind, &CRISS_CROSS, &[5], &[2], &[2, 0]),
    Reaching(Call::AheadBehind, &CRISS_CROSS, &[2], &[5], &[0, 2]),
    Reaching(Call::AheadBehind, &CRISS_CROSS, &[5], &[5], &[0, 0]),
    Reaching(Call::AheadBehind, &CRISS_CROSS, &[9], &[5], &[0, 4]),
    Reaching(Call::AheadBehind, &BRANCHES, &[6], &[8], &[4, 2]),
    Reaching(Call::AheadBehind, &BRANCHES, &[8], &[6], &[2, 4]),
    Reaching(
        Call::Newest,
        &CRISS_CROSS,
        &[1, 5, 9, 3, 2, 4, 3],
        &[],
        &[4, 5, 2, 3, 1],
    ),
    Reaching(Call::Newest, &CRISS_CROSS, &[], &[], &[]),
    // The generation number decides, then the time, then the id.
    Reaching(
        Call::Newest,
        &BRANCHES,
        &[1, 3, 6, 7, 8],
        &[],
        &[6, 8, 7, 3, 1],
    ),
    Reaching(Call::Newest, &RISING, &[1, 2, 3], &[], &[3, 1, 2]),
    Reaching(Call::Newest, &BRANCHES, &[9], &[], &[]),
];

/// Near commits. A walk looks up these and what is between them; from two branches, also where
/// these meet.
static NEAR: [LookUps<Reaching>; 6] = [
    LookUps(Reaching(Call::Reachable, &BRANCHES, &[6], &[4], &[5, 6]), 3),
    LookUps(Reaching(Call::Reachable, &BRANCHES, &[4], &[6], &[]), 3),
    LookUps(
        Reaching(Call::ReachableNewest, &BRANCHES, &[6], &[4], &[6, 5]),
        3,
    ),
    LookUps(
        Reaching(Call::AheadBehind, &BRANCHES, &[5], &[6], &[0, 1]),
        2,
    ),
    // All commits but the root.
    LookUps(
        Reaching(
            Call::ReachableNewest,
            &BRANCHES,
            &[6, 8],
            &[3],
            &[6, 5, 8, 4, 7],
        ),
        7,
    ),
    LookUps(
        Reaching(Call::AheadBehind, &BRANCHES, &[6], &[8], &[4, 2]),
        7,
    ),
];

/// Tests whether these are the ids, and this many are counted.
fn are_reached<S: Find, A: Allocator + Copy>(
    alloc: A,
    graph: &mut Graph<S, Commit<Flags, A>, A>,
    (include, exclude): (&[ObjectId], &[ObjectId]),
    digits: &[u8],
) -> Result<bool, ListError> {
    let found = reachable(alloc, include, exclude, graph)?;
    let count = count_reachable(alloc, include, exclude, graph)?;
    Ok(are(&found, digits) && count == digits.len())
}

/// Tests whether these are the two counts.
fn are_counts<S: Find, A: Allocator + Copy>(
    alloc: A,
    graph: &mut Graph<S, Commit<Flags, A>, A>,
    sides: (&[ObjectId], &[ObjectId]),
    counts: &[u8],
) -> Result<bool, ListError> {
    let ([ours], [theirs]) = sides else {
        return Ok(false);
    };
    let (ahead, behind) = ahead_behind(alloc, *ours, *theirs, graph)?;
    Ok(match counts {
        [first, second] => ahead == *first as usize && behind == *second as usize,
        _ => false,
    })
}

/// Tests whether the answer is that of the call with these sides.
fn is_right<S: Find, A: Allocator + Copy>(
    alloc: A,
    graph: &mut Graph<S, Commit<Flags, A>, A>,
    call: &Reaching,
    sides: (&[ObjectId], &[ObjectId]),
) -> Result<bool, ListError> {
    match call.0 {
        Call::Reachable => are_reached(alloc, graph, sides, call.4),
        Call::ReachableNewest => {
            Ok(are(
                &reachable_newest_first(alloc, sides.0, sides.1, graph)?,
                call.4,
            ))
        }
        Call::AheadBehind => are_counts(alloc, graph, sides, call.4),
        Call::Newest => Ok(are(&newest_first(alloc, sides.0, graph)?, call.4)),
    }
}

impl Asks for Reaching {
    fn history(&self) -> &'static [Row<'static>] {
        self.1
    }

    fn ask<S: Find, A: Allocator + Copy>(
        &self,
        _to: Global,
        alloc: A,
        graph: &mut Graph<S, Commit<Flags, A>, A>,
    ) -> Result<Answered, AllocError> {
        let first = ids(alloc, self.2)?;
        let second = ids(alloc, self.3)?;
        Ok(match is_right(alloc, graph, self, (&first, &second)) {
            Ok(true) => Answered::AsWanted,
            Ok(false) => Answered::Otherwise,
            Err(ListError::Source) => Answered::SourceFailed,
            Err(ListError::OutOfMemory) => Answered::OutOfMemory,
        })
    }
}

#[test]
fn commits_are_reached_counted_and_put_in_order(rt: HostRuntime) -> Result<(), Fail> {
    assert_eq!(rt; first_wrong(rt.alloc(), &WORKED, 20)?, None);
    Ok(())
}

#[test]
fn walks_end_early_where_generations_are_known(rt: HostRuntime) -> Result<(), Fail> {
    assert!(rt; are_counted(rt.alloc(), &NEAR)?);
    Ok(())
}

#[test]
fn refused_look_ups_and_memory_refuse_what_is_reached(rt: HostRuntime) -> Result<(), Fail> {
    assert_eq!(rt; first_lost(rt.alloc(), &WORKED)?, None);
    Ok(())
}
