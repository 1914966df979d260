//! In which order a walk from two sides takes commits, and how often it queues them. No answer
//! shows either, and no number of look-ups.

use crate::shared::histories::{Row, id, source_of};
use crate::shared::refusing::Refusing;
use fixtures::sources::{Failing, Turn};
use gix_resolve::{ListError, ahead_behind, count_reachable};
use gix_revision::graph::{Commit, FindFault, Graph, MemorySource};
use gix_revision::merge_base::Flags;
use std::alloc::{AllocError, Global};
use std::test::Fail;

/// Two branches without generation numbers:
///
/// ```text
/// 1---2---3---4---5---8
///          \
///           6---7
/// ```
const PLAIN: [Row<'static>; 8] = [
    Row(1, 1, None, &[]),
    Row(2, 2, None, &[1]),
    Row(3, 3, None, &[2]),
    Row(4, 4, None, &[3]),
    Row(5, 5, None, &[4]),
    Row(6, 6, None, &[3]),
    Row(7, 7, None, &[6]),
    Row(8, 8, None, &[5]),
];

/// Two sides to be counted, the commit for which the source fails, and how many commits are held
/// then.
static FAILS_FOR: [(u8, u8, u8, usize); 4] = [
    // The newer side, 8, is followed first, until it is as old as the other one: 7, 8 and 5.
    (7, 8, 4, 3),
    (8, 7, 4, 3),
    // From then on 7 is followed first, and meets what the two share before 8 leads further down:
    // 4, 6 and 3 too.
    (7, 8, 2, 6),
    (8, 7, 2, 6),
];

/// Tests whether the count of both sides fails with this many commits held.
fn fails_with(
    alloc: Global,
    graph: &mut Graph<Failing<MemorySource>, Commit<Flags>>,
    (ours, theirs): (u8, u8),
    held: usize,
) -> bool {
    ahead_behind(alloc, id(ours), id(theirs), graph) == Err(ListError::Source)
        && graph.len() == held
}

/// Tests whether the count of a row fails as it says.
fn fails_for(
    alloc: Global,
    (ours, theirs, number, held): (u8, u8, u8, usize),
) -> Result<bool, AllocError> {
    let inner = source_of(alloc, &PLAIN)?;
    let source = Failing::new(inner, Turn::For(id(number)), FindFault::Failed, 0);
    let mut graph = Graph::new(alloc, source);
    Ok(fails_with(alloc, &mut graph, (ours, theirs), held))
}

/// Returns the index of the first row that fails with more commits held, or fewer.
fn first_out_of_turn(alloc: Global) -> Result<Option<usize>, AllocError> {
    for (i, row) in FAILS_FOR.iter().enumerate() {
        if !fails_for(alloc, *row)? {
            return Ok(Some(i));
        }
    }
    Ok(None)
}

#[test]
fn sides_take_turns_where_no_generations_are_known(rt: HostRuntime) -> Result<(), Fail> {
    assert_eq!(rt; first_out_of_turn(rt.alloc())?, None);
    Ok(())
}

/// Two commits with the same three parents.
const SIBLINGS: [Row<'static>; 5] = [
    Row(1, 1, Some(1), &[]),
    Row(2, 1, Some(1), &[]),
    Row(3, 1, Some(1), &[]),
    Row(4, 2, Some(2), &[1, 2, 3]),
    Row(5, 3, Some(3), &[1, 2, 3]),
];

type CountedMemory<'r> = &'r Refusing<Global>;

type MarkedGraph<'r> = Graph<MemorySource, Commit<Flags, CountedMemory<'r>>, CountedMemory<'r>>;

/// Counts what only 5 reaches. Returns how many requests for memory that takes, or `None` if the
/// count is wrong.
fn requests_of<'r>(alloc: CountedMemory<'r>, graph: &mut MarkedGraph<'r>) -> Option<u64> {
    let before = alloc.requests_left();
    let count = count_reachable(alloc, &[id(5)], &[id(4)], graph).ok()?;
    if count != 1 {
        return None;
    }
    before.checked_sub(alloc.requests_left())
}

/// Tests whether the second count makes three requests, each with room for four: for the queue, in
/// which 4 and the parents are at once; for 5 and the parents, which it reaches first; and for the
/// parents of one commit. A queue with the parents twice would make another one.
fn are_queued_once<'r>(alloc: CountedMemory<'r>, graph: &mut MarkedGraph<'r>) -> bool {
    requests_of(alloc, graph).is_some() && requests_of(alloc, graph) == Some(3)
}

fn siblings_are_queued_once(alloc: Global) -> Result<bool, AllocError> {
    let memory = Refusing::new(alloc, 1_000_000);
    let mut graph = Graph::new(&memory, source_of(alloc, &SIBLINGS)?);
    Ok(are_queued_once(&memory, &mut graph))
}

#[test]
fn a_hidden_commit_is_queued_once(rt: HostRuntime) -> Result<(), Fail> {
    assert!(rt; siblings_are_queued_once(rt.alloc())?);
    Ok(())
}
