//! Merge bases of small histories, failing look-ups, and failing allocations.

use crate::library::questions::Call::{Ancestor, Bases, Counted, Octopus, Paint, Reduce};
use crate::library::questions::{Call, Question, is_refused_with};
use crate::shared::faults::{LookUps, first_lost, first_miscounted, first_wrong};
use crate::shared::histories::{CRISS_CROSS, OLD_PATH, OLDER_CHILD, Row, id, source_of};
use crate::shared::printed::prints;
use bitflags::Flags as BitFlags;
use fixtures::sources::Turn;
use gix_revision::graph::{Commit, Graph, MemorySource};
use gix_revision::merge_base::{Error, Flags, Simple, merge_base, octopus};
use std::alloc::{AllocError, Global};
use std::test::Fail;

/// The criss-cross with equal times.
const EQUAL_TIMES: [Row<'static>; 5] = [
    Row(1, 7, None, &[]),
    Row(2, 7, None, &[1]),
    Row(3, 7, None, &[1]),
    Row(4, 7, None, &[2, 3]),
    Row(5, 7, None, &[2, 3]),
];

/// The least and the greatest generations.
const FAR_GENERATIONS: [Row<'static>; 5] = [
    Row(1, 1, Some(0), &[]),
    Row(2, 2, Some(u32::MAX), &[1]),
    Row(3, 2, Some(u32::MAX), &[1]),
    Row(4, 3, Some(u32::MAX), &[2, 3]),
    Row(5, 3, Some(u32::MAX), &[2, 3]),
];

/// Parents that are listed twice.
const LISTED_TWICE: [Row<'static>; 5] = [
    Row(1, 1, None, &[]),
    Row(2, 2, None, &[1, 1]),
    Row(3, 2, None, &[1]),
    Row(4, 3, None, &[2, 3, 2]),
    Row(5, 3, None, &[3, 3, 2]),
];

/// A chain of eight commits with generation numbers, and commit 9 on 5.
const LEVELLED: [Row<'static>; 9] = [
    Row(1, 1, Some(1), &[]),
    Row(2, 2, Some(2), &[1]),
    Row(3, 3, Some(3), &[2]),
    Row(4, 4, Some(4), &[3]),
    Row(5, 5, Some(5), &[4]),
    Row(6, 6, Some(6), &[5]),
    Row(7, 7, Some(7), &[6]),
    Row(8, 8, Some(8), &[7]),
    Row(9, 9, Some(6), &[5]),
];

/// A chain of nine commits without generation numbers.
const PLAIN: [Row<'static>; 9] = [
    Row(1, 1, None, &[]),
    Row(2, 2, None, &[1]),
    Row(3, 3, None, &[2]),
    Row(4, 4, None, &[3]),
    Row(5, 5, None, &[4]),
    Row(6, 6, None, &[5]),
    Row(7, 7, None, &[6]),
    Row(8, 8, None, &[7]),
    Row(9, 9, None, &[8]),
];

/// Only 1, 2 and 5 have generation numbers, as if a commit-graph file lacks the newest commits.
const PARTLY_LEVELLED: [Row<'static>; 5] = [
    Row(1, 1, Some(1), &[]),
    Row(2, 2, Some(2), &[1]),
    Row(3, 3, None, &[2]),
    Row(4, 4, None, &[3]),
    Row(5, 5, Some(2), &[1]),
];

/// 1 and 2 are each other's parents.
const CYCLE: [Row<'static>; 4] = [
    Row(1, 1, None, &[2]),
    Row(2, 1, None, &[1]),
    Row(3, 2, None, &[1]),
    Row(4, 2, None, &[2]),
];

/// Nothing is looked up: there are no others, or they contain the first.
static TRIVIAL: [Question; 4] = [
    Question(Bases, &CRISS_CROSS, 9, &[], &[9]),
    Question(Bases, &CRISS_CROSS, 9, &[1, 9], &[9]),
    Question(Bases, &CRISS_CROSS, 4, &[], &[4]),
    Question(Bases, &CRISS_CROSS, 4, &[5, 4, 4], &[4]),
];

static WORKED: [Question; 19] = [
    // Both sides, several others, an ancestor, repeated others.
    Question(Bases, &CRISS_CROSS, 4, &[5], &[2, 3]),
    Question(Bases, &CRISS_CROSS, 5, &[4], &[2, 3]),
    Question(Bases, &CRISS_CROSS, 4, &[2], &[2]),
    Question(Bases, &CRISS_CROSS, 1, &[4], &[1]),
    Question(Bases, &CRISS_CROSS, 2, &[3], &[1]),
    Question(Bases, &CRISS_CROSS, 4, &[2, 3], &[2, 3]),
    Question(Bases, &CRISS_CROSS, 4, &[1, 3], &[3]),
    // Wrong clocks.
    Question(Bases, &EQUAL_TIMES, 4, &[5], &[2, 3]),
    Question(Bases, &OLDER_CHILD, 3, &[4], &[2]),
    Question(Bases, &OLD_PATH, 6, &[7], &[5]),
    // Generations at their ends, and parents listed twice.
    Question(Bases, &FAR_GENERATIONS, 4, &[5], &[2, 3]),
    Question(Bases, &LISTED_TWICE, 4, &[5], &[2, 3]),
    // Ancestors, also under wrong clocks, descendants, neither, and the commit itself.
    Question(Ancestor, &CRISS_CROSS, 1, &[4], &[1]),
    Question(Ancestor, &OLDER_CHILD, 1, &[3], &[1]),
    Question(Ancestor, &OLD_PATH, 9, &[7], &[9]),
    Question(Ancestor, &FAR_GENERATIONS, 3, &[5], &[3]),
    Question(Ancestor, &CRISS_CROSS, 4, &[1], &[]),
    Question(Ancestor, &CRISS_CROSS, 4, &[5], &[]),
    Question(Ancestor, &CRISS_CROSS, 4, &[4], &[4]),
];

/// Whether the other commit reaches the first, by the lists of parents.
static NEAR: [LookUps<Question>; 9] = [
    // Both, and what is between them.
    LookUps(Question(Ancestor, &LEVELLED, 6, &[8], &[6]), 3),
    LookUps(Question(Ancestor, &LEVELLED, 5, &[9], &[5]), 2),
    // Both, and what is below the other one, down to the first commit below the generation of the
    // first: to 5, whose generation is less than 6.
    LookUps(Question(Ancestor, &LEVELLED, 9, &[8], &[]), 5),
    LookUps(Question(Ancestor, &LEVELLED, 6, &[9], &[]), 3),
    // Both alone: the first is above the other, with and without a generation number.
    LookUps(Question(Ancestor, &LEVELLED, 8, &[1], &[]), 2),
    LookUps(Question(Ancestor, &PARTLY_LEVELLED, 4, &[5], &[]), 2),
    // Without generation numbers the walk ends once it meets the first.
    LookUps(Question(Ancestor, &PLAIN, 8, &[9], &[8]), 2),
    LookUps(Question(Ancestor, &PLAIN, 7, &[9], &[7]), 3),
    LookUps(Question(Ancestor, &PARTLY_LEVELLED, 3, &[4], &[3]), 2),
];

/// Whether the other commit reaches the first, if the walk is long or there is a cycle.
static FAR: [Question; 6] = [
    Question(Ancestor, &LEVELLED, 1, &[8], &[1]),
    Question(Ancestor, &PARTLY_LEVELLED, 1, &[4], &[1]),
    Question(Ancestor, &PARTLY_LEVELLED, 5, &[4], &[]),
    Question(Ancestor, &CYCLE, 2, &[3], &[2]),
    Question(Ancestor, &CYCLE, 1, &[2], &[1]),
    Question(Ancestor, &CYCLE, 3, &[4], &[]),
];

/// One of the others is not in the source, or the first is not.
static LACKED: [Question; 6] = [
    Question(Bases, &CRISS_CROSS, 4, &[5, 5, 9, 5], &[2, 3]),
    Question(Bases, &CRISS_CROSS, 4, &[9, 5], &[2, 3]),
    Question(Bases, &CRISS_CROSS, 9, &[4], &[]),
    Question(Ancestor, &CRISS_CROSS, 9, &[4], &[]),
    Question(Ancestor, &CRISS_CROSS, 4, &[9], &[]),
    Question(Ancestor, &CRISS_CROSS, 9, &[9], &[]),
];

/// Tests whether all questions are answered. What is held must not be looked up again.
fn are_answered(alloc: Global) -> Result<bool, AllocError> {
    Ok(
        first_wrong(alloc, &TRIVIAL, 0)?.is_none()
            && first_wrong(alloc, &WORKED, 7)?.is_none()
            && first_wrong(alloc, &LACKED, 20)?.is_none(),
    )
}

#[test]
fn bases_of_worked_histories(rt: HostRuntime) -> Result<(), Fail> {
    assert!(rt; are_answered(rt.alloc())?);
    Ok(())
}

fn are_reached(alloc: Global) -> Result<bool, AllocError> {
    Ok(first_miscounted(alloc, &NEAR)?.is_none() && first_wrong(alloc, &FAR, 8)?.is_none())
}

#[test]
fn commits_reach_their_ancestors(rt: HostRuntime) -> Result<(), Fail> {
    assert!(rt; are_reached(rt.alloc())?);
    Ok(())
}

/// Tests whether both calls return on a history with a cycle. Their answers are unspecified.
fn returns(alloc: Global, graph: &mut Graph<MemorySource, Commit<Flags>>) -> bool {
    merge_base(alloc, id(3), &[id(4)], graph).is_ok()
        && octopus(alloc, id(3), &[id(4)], graph).is_ok()
}

fn returns_on_a_cycle(alloc: Global) -> Result<bool, AllocError> {
    let mut graph = Graph::new(alloc, source_of(alloc, &CYCLE)?);
    Ok(returns(alloc, &mut graph))
}

#[test]
fn calls_return_on_a_cycle(rt: HostRuntime) -> Result<(), Fail> {
    assert!(rt; returns_on_a_cycle(rt.alloc())?);
    Ok(())
}

/// The text of an error if the look-up of a given id failed, and if that of a parent failed.
const OF_ID: &str = "could not insert commit into graph";

const OF_PARENT: &str = "could not insert parent commit into graph";

/// The look-up that fails while the bases of 4 and 5 in the criss-cross are computed, and the text
/// of the error. There are five look-ups.
static IN_ORDER: [(u64, Option<&str>); 6] = [
    (0, Some(OF_ID)),
    (1, Some(OF_ID)),
    (2, Some(OF_PARENT)),
    (3, Some(OF_PARENT)),
    (4, Some(OF_PARENT)),
    (5, None),
];

/// Returns the first of these look-ups whose failure has another text.
fn first_untold(alloc: Global) -> Result<Option<u64>, AllocError> {
    let question = Question(Bases, &CRISS_CROSS, 4, &[5], &[2, 3]);
    for (before, text) in &IN_ORDER {
        if !is_refused_with(alloc, &question, Turn::After(*before), *text)? {
            return Ok(Some(*before));
        }
    }
    Ok(None)
}

/// The other calls, each for 4 and 5.
static CALLS: [(Call, &[u8]); 4] = [
    (Counted, &[5]),
    (Octopus, &[5]),
    (Paint, &[5]),
    (Reduce, &[4, 5]),
];

/// Each commit of the criss-cross, and the text of the error if the source fails for it.
static OF_EACH: [(u8, &str); 5] = [
    (4, OF_ID),
    (5, OF_ID),
    (2, OF_PARENT),
    (3, OF_PARENT),
    (1, OF_PARENT),
];

/// Returns the first commit for which a call for 4 and 5 has another text.
fn first_untold_of(
    alloc: Global,
    call: Call,
    others: &'static [u8],
) -> Result<Option<u8>, AllocError> {
    let question = Question(call, &CRISS_CROSS, 4, others, &[]);
    for (digit, text) in &OF_EACH {
        if !is_refused_with(alloc, &question, Turn::For(id(*digit)), Some(*text))? {
            return Ok(Some(*digit));
        }
    }
    Ok(None)
}

/// Tests whether each of the other calls fails with the text of each commit.
fn are_told(alloc: Global) -> Result<bool, AllocError> {
    for (call, others) in &CALLS {
        if first_untold_of(alloc, *call, *others)?.is_some() {
            return Ok(false);
        }
    }
    Ok(true)
}

/// Tests whether all questions survive failing look-ups and allocations.
fn survive(alloc: Global) -> Result<bool, AllocError> {
    Ok(first_lost(alloc, &WORKED)?.is_none() && first_lost(alloc, &LACKED)?.is_none())
}

/// Tests whether each failed look-up of the criss-cross has its text.
fn have_texts(alloc: Global) -> Result<bool, AllocError> {
    Ok(first_untold(alloc)?.is_none() && are_told(alloc)?)
}

#[test]
fn refused_look_ups_and_memory_refuse_the_call(rt: HostRuntime) -> Result<(), Fail> {
    assert!(rt; have_texts(rt.alloc())? && survive(rt.alloc())?);
    Ok(())
}

/// Tests whether marks have git's bits, and are set and cleared one by one.
fn marks_are_bits() -> bool {
    let both = Flags::from_bits_retain(3);
    let mut marks = Flags::default();
    marks.insert(Flags::STALE);
    marks.insert(Flags::RESULT);
    let set = marks.bits();
    marks.remove(Flags::STALE);
    both.contains(Flags::COMMIT1)
        && both.contains(Flags::COMMIT2)
        && !both.contains(Flags::STALE)
        && !both.is_empty()
        && set == 12
        && marks.bits() == 8
        && Flags::all().bits() == 15
        && Flags::empty().is_empty()
}

#[test]
fn refusals_and_marks_are_as_written(rt: HostRuntime) -> Result<(), Fail> {
    let simple = Simple("a text");
    assert!(rt; prints(rt.alloc(), &simple, "a text")?);
    assert!(rt; prints(rt.alloc(), &Error::Source(simple), "a text")?);
    assert!(rt; prints(rt.alloc(), &Error::OutOfMemory, "out of memory")?);
    assert!(rt; marks_are_bits());
    Ok(())
}
