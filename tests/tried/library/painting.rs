//! Painting, the reduction and the counts of pops, on small histories.

use crate::library::questions::Call::{Counted, Paint, Reduce};
use crate::library::questions::{Question, are_bases, are_set};
use crate::shared::faults::first_lost;
use crate::shared::histories::{CRISS_CROSS, OLD_PATH, OLDER_CHILD, Row, id, source_of};
use fixtures::sources::{Failing, Turn};
use gix_revision::graph::{Commit, Find, FindFault, Graph, MemorySource};
use gix_revision::merge_base::{Flags, counted, paint};
use std::alloc::{AllocError, Global};
use std::test::Fail;

/// A line of three commits with two heads. Commits below 2 need not be looked up.
const NEAR: [Row<'static>; 5] = [
    Row(1, 1, None, &[]),
    Row(2, 2, None, &[1]),
    Row(3, 3, None, &[2]),
    Row(4, 4, None, &[3]),
    Row(5, 4, None, &[3]),
];

/// Two bases; 3 is the newer one.
const BY_TIME: [Row<'static>; 5] = [
    Row(1, 1, None, &[]),
    Row(2, 2, None, &[1]),
    Row(3, 3, None, &[1]),
    Row(4, 4, None, &[2, 3]),
    Row(5, 4, None, &[2, 3]),
];

/// Two bases; 2 has the greater generation number.
const BY_GENERATION: [Row<'static>; 5] = [
    Row(1, 1, Some(1), &[]),
    Row(2, 2, Some(3), &[1]),
    Row(3, 3, Some(2), &[1]),
    Row(4, 4, Some(4), &[2, 3]),
    Row(5, 4, Some(4), &[2, 3]),
];

/// The line with generation numbers.
const NEAR_BY_GENERATION: [Row<'static>; 5] = [
    Row(1, 1, Some(1), &[]),
    Row(2, 2, Some(2), &[1]),
    Row(3, 3, Some(3), &[2]),
    Row(4, 4, Some(4), &[3]),
    Row(5, 4, Some(4), &[3]),
];

/// Commit 2 is between the common ancestors 3 and 1, and older than both. A third common ancestor
/// has a greater generation number.
const SKEWED: [Row<'static>; 6] = [
    Row(1, 50, Some(1), &[]),
    Row(2, 0, Some(1), &[1]),
    Row(3, 1, Some(1), &[2]),
    Row(4, 1, Some(5), &[]),
    Row(5, 100, None, &[3, 1, 4]),
    Row(6, 90, None, &[3, 1, 4]),
];

/// A history, two of its commits, their merge bases in order, and the number of pops.
type Worked = (&'static [Row<'static>], u8, u8, &'static [u8], Option<u128>);

/// Nothing below the base of this row is looked up.
const TO_NEAR: Worked = (&NEAR, 4, 5, &[3], Some(4));

static WORKED: [Worked; 9] = [
    (&OLDER_CHILD, 3, 4, &[2], Some(7)),
    // The source has neither.
    (&OLDER_CHILD, 8, 9, &[], Some(0)),
    TO_NEAR,
    (&CRISS_CROSS, 4, 4, &[4], Some(0)),
    (&CRISS_CROSS, 4, 5, &[2, 3], None),
    (&BY_TIME, 4, 5, &[3, 2], None),
    (&BY_GENERATION, 4, 5, &[2, 3], None),
    (&SKEWED, 5, 6, &[4, 3], None),
    (&OLD_PATH, 6, 7, &[5], None),
];

/// Tests whether `counted` returns these bases, and this number of pops if it is known.
fn counts<S: Find>(alloc: Global, graph: &mut Graph<S, Commit<Flags>>, worked: &Worked) -> bool {
    match counted(alloc, id(worked.1), &[id(worked.2)], graph) {
        Ok((found, made)) => {
            are_bases(&found, worked.3) && (worked.4 == Some(made) || worked.4.is_none())
        }
        Err(_) => false,
    }
}

/// Tests whether the call has the same answer on a new graph, and on one that a call the other way
/// round left.
fn counts_alike(
    alloc: Global,
    graph: &mut Graph<MemorySource, Commit<Flags>>,
    worked: &Worked,
) -> bool {
    counts(alloc, graph, worked)
        && paint(alloc, id(worked.2), &[id(worked.1)], graph).is_ok()
        && counts(alloc, graph, worked)
}

fn is_counted(alloc: Global, worked: &Worked) -> Result<bool, AllocError> {
    let mut graph = Graph::new(alloc, source_of(alloc, worked.0)?);
    Ok(counts_alike(alloc, &mut graph, worked))
}

/// Returns the index of the first row that is counted otherwise.
fn first_miscounted(alloc: Global) -> Result<Option<usize>, AllocError> {
    for (i, worked) in WORKED.iter().enumerate() {
        if !is_counted(alloc, worked)? {
            return Ok(Some(i));
        }
    }
    Ok(None)
}

/// Tests whether the walk to a near base does not look up the far end of the line.
fn stays_near(alloc: Global, graph: &mut Graph<Failing<MemorySource>, Commit<Flags>>) -> bool {
    counts(alloc, graph, &TO_NEAR)
        && graph.source().faults() == 0
        && graph.contains(&id(2))
        && !graph.contains(&id(1))
}

/// Tests it over a source that fails for the far end.
fn leaves_the_far_end(alloc: Global) -> Result<bool, AllocError> {
    let inner = source_of(alloc, &NEAR)?;
    let source = Failing::new(inner, Turn::For(id(1)), FindFault::Failed, 0);
    let mut graph = Graph::new(alloc, source);
    Ok(stays_near(alloc, &mut graph))
}

#[test]
fn pops_of_worked_histories(rt: HostRuntime) -> Result<(), Fail> {
    assert_eq!(rt; first_miscounted(rt.alloc())?, None);
    assert!(rt; leaves_the_far_end(rt.alloc())?);
    Ok(())
}

/// Two commits of the history with an older child, what painting finds, in any order, and the
/// number of pops.
static PAINTED: [(u8, u8, &[u8], u128); 2] = [
    (3, 4, &[1, 2], 7),
    // The source has neither.
    (8, 9, &[], 0),
];

/// Tests whether painting finds what each row says, with its number of pops.
fn paints(alloc: Global, graph: &mut Graph<MemorySource, Commit<Flags>>) -> bool {
    for (first, other, wanted, pops) in &PAINTED {
        let is_painted = match paint(alloc, id(*first), &[id(*other)], graph) {
            Ok((painted, made)) => are_set(&painted, wanted) && made == *pops,
            Err(_) => false,
        };
        if !is_painted {
            return false;
        }
    }
    true
}

fn are_painted(alloc: Global) -> Result<bool, AllocError> {
    let mut graph = Graph::new(alloc, source_of(alloc, &OLDER_CHILD)?);
    Ok(paints(alloc, &mut graph))
}

#[test]
fn painting_by_itself(rt: HostRuntime) -> Result<(), Fail> {
    assert!(rt; are_painted(rt.alloc())?);
    Ok(())
}

/// Each call by itself, while each look-up and each allocation fails in turn.
static HOSTILE: [Question; 13] = [
    Question(Counted, &CRISS_CROSS, 4, &[5], &[2, 3]),
    Question(Counted, &SKEWED, 5, &[6], &[4, 3]),
    Question(Paint, &CRISS_CROSS, 4, &[5], &[2, 3]),
    Question(Paint, &OLDER_CHILD, 3, &[4], &[1, 2]),
    Question(Reduce, &OLDER_CHILD, 9, &[1, 2, 9], &[2, 9]),
    // The ends of a line, all of it, and two commits with one generation number and a common
    // ancestor.
    Question(Reduce, &NEAR, 9, &[1, 4], &[4]),
    Question(Reduce, &NEAR, 9, &[2, 4, 1, 3, 4], &[4]),
    Question(Reduce, &NEAR, 9, &[5, 2, 4], &[5, 4]),
    Question(Reduce, &NEAR_BY_GENERATION, 9, &[1, 4], &[4]),
    Question(Reduce, &NEAR_BY_GENERATION, 9, &[2, 4, 1, 3, 4], &[4]),
    Question(Reduce, &NEAR_BY_GENERATION, 9, &[5, 2, 4], &[5, 4]),
    // One generation number for a line, and a greater one for a root.
    Question(Reduce, &SKEWED, 9, &[1, 4, 3], &[4, 3]),
    Question(Reduce, &SKEWED, 9, &[4, 2, 6, 5], &[6, 5]),
];

#[test]
fn refused_look_ups_and_memory_refuse_each_call(rt: HostRuntime) -> Result<(), Fail> {
    assert_eq!(rt; first_lost(rt.alloc(), &HOSTILE)?, None);
    Ok(())
}
