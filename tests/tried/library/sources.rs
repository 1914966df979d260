//! Sources: each call once, a commit that is added late, and failing allocations.

use crate::library::graphs::{FIRST, LINE};
use crate::library::questions::are_bases;
use crate::shared::histories::{Row, are, commit_of, id, source_of};
use crate::shared::printed::prints;
use crate::shared::refusing::Refusing;
use gix_revision::graph::{Commit, Error, Find, Graph, InsertError, MemorySource, SourceCommit};
use gix_revision::merge_base::{Flags, merge_base};
use std::alloc::{AllocError, Allocator, Global};
use std::test::Fail;

/// Another commit under the id of the first of the line.
const OTHER: Row<'static> = Row(1, 8, Some(1), &[]);

/// Tests whether the commit is that of the row.
fn is_row<A: Allocator>(commit: &SourceCommit<A>, row: Row<'_>) -> bool {
    are(&commit.parents, row.3) && commit.time == row.1 && commit.generation == row.2
}

/// What became of a commit that was added to a source.
#[derive(Clone, Copy, PartialEq)]
enum Put {
    In,
    /// It came back, because its id was known.
    Back,
    /// It came back, because there was no memory.
    BackForMemory,
    /// Another commit came back.
    Changed,
}

/// Returns why the commit of the row came back.
fn why_back<A: Allocator>(refused: &InsertError<A>, row: Row<'_>) -> Put {
    match refused {
        InsertError::AlreadyThere(commit) if is_row(commit, row) => Put::Back,
        InsertError::OutOfMemory(commit) if is_row(commit, row) => Put::BackForMemory,
        _ => Put::Changed,
    }
}

/// Adds the commit of a row.
fn put_in<A: Allocator + Copy>(
    source: &mut MemorySource<A>,
    alloc: A,
    row: Row<'_>,
) -> Result<Put, AllocError> {
    let commit = commit_of(alloc, row)?;
    Ok(match source.insert(id(row.0), commit) {
        Ok(()) => Put::In,
        Err(refused) => why_back(&refused, row),
    })
}

/// Tests whether the source finds the commit of the row, by both calls.
fn finds(source: &mut MemorySource, alloc: Global, row: Row<'_>) -> bool {
    let is_got = match source.get(alloc, id(row.0)) {
        Ok(Some(commit)) => is_row(&commit, row),
        _ => false,
    };
    is_got
        && match source.find(alloc, id(row.0)) {
            Ok(Some(commit)) => is_row(&commit, row),
            _ => false,
        }
}

/// Tests whether the source finds all commits of the line, and no other.
fn finds_the_line(source: &mut MemorySource, alloc: Global) -> bool {
    for row in LINE {
        if !finds(source, alloc, *row) {
            return false;
        }
    }
    matches!(source.find(alloc, id(9)), Ok(None)) && source.faults() == 0
}

/// Tests whether a source keeps the first commit of an id, and has no commit that was not added.
fn keeps_the_first(alloc: Global) -> Result<bool, AllocError> {
    let mut source = source_of(alloc, LINE)?;
    Ok(put_in(&mut source, alloc, OTHER) == Ok(Put::Back) && finds_the_line(&mut source, alloc))
}

/// Tests two commits of one id while the second allocation fails. The first comes back because
/// there is no memory, and the other is added.
fn comes_back_for_memory(alloc: Global) -> bool {
    let refusing = Refusing::new(alloc, 1);
    let mut source = MemorySource::new(&refusing);
    put_in(&mut source, &refusing, FIRST) == Ok(Put::BackForMemory)
        && put_in(&mut source, &refusing, OTHER) == Ok(Put::In)
}

/// A call on a graph over the source of the line, and its result.
#[derive(Clone, Copy)]
enum Step {
    /// Two commits, and their bases.
    Meet(u8, u8, &'static [u8]),
    /// A commit is added.
    Put(Row<'static>, Put),
}

/// The missing parent of the line is added after two walks met its children. The next walk meets
/// it, and so do later ones.
static STEPS: [Step; 8] = [
    Step::Meet(3, 1, &[1]),
    Step::Meet(3, 9, &[]),
    Step::Meet(3, 1, &[1]),
    Step::Meet(3, 9, &[]),
    Step::Put(Row(9, -20, None, &[]), Put::In),
    Step::Meet(3, 9, &[9]),
    Step::Put(Row(9, 8, Some(1), &[]), Put::Back),
    Step::Meet(1, 9, &[9]),
];

type MarkedGraph = Graph<MemorySource, Commit<Flags>>;

/// Adds the commit of a row to the source of a graph.
fn put_late(graph: &mut MarkedGraph, alloc: Global, row: Row<'_>) -> Result<Put, AllocError> {
    let commit = commit_of(alloc, row)?;
    Ok(match graph.insert(id(row.0), commit) {
        Ok(()) => Put::In,
        Err(refused) => why_back(&refused, row),
    })
}

/// Tests whether the bases of two commits are those of the digits.
fn meets(graph: &mut MarkedGraph, alloc: Global, (first, other): (u8, u8), bases: &[u8]) -> bool {
    match merge_base(alloc, id(first), &[id(other)], graph) {
        Ok(found) => are_bases(&found, bases),
        Err(_) => false,
    }
}

/// Tests whether the steps do what they say.
fn are_done(graph: &mut MarkedGraph, alloc: Global) -> bool {
    for step in &STEPS {
        let is_done = match *step {
            Step::Meet(first, other, bases) => meets(graph, alloc, (first, other), bases),
            Step::Put(row, put) => put_late(graph, alloc, row) == Ok(put),
        };
        if !is_done {
            return false;
        }
    }
    true
}

/// Tests the steps on a new graph.
fn meets_a_late_parent(alloc: Global) -> Result<bool, AllocError> {
    let mut graph = Graph::new(alloc, source_of(alloc, LINE)?);
    Ok(are_done(&mut graph, alloc))
}

#[test]
fn a_source_keeps_the_first_commit_of_an_id(rt: HostRuntime) -> Result<(), Fail> {
    assert!(rt; keeps_the_first(rt.alloc())?);
    assert!(rt; meets_a_late_parent(rt.alloc())?);
    assert!(rt; comes_back_for_memory(rt.alloc()));
    assert!(rt; prints(rt.alloc(), &Error::Source, "the source failed")?);
    assert!(rt; prints(rt.alloc(), &Error::OutOfMemory, "out of memory")?);
    Ok(())
}
