//! Reads all commits while each call on a file, and each allocation, fails in turn.

use super::tables::{COMMITS, Wanted, files};
use crate::files::failures::{Outcome, Trial, failed_allocations, failed_calls};
use crate::files::fake::Fake;
use gix_base::hash::ObjectId;
use gix_files::Folders;
use gix_graph_rows::{Error, GraphRows};
use gix_revwalk::graph::SourceCommit;
use std::alloc::Allocator;
use std::io::ErrorKind;
use std::test::Fail;

/// Tells whether an error says that a call on a file or an allocation failed.
fn is_refusal(error: Error) -> bool {
    matches!(
        error,
        Error::Failed(_, ErrorKind::Other) | Error::OutOfMemory
    )
}

/// Opens a commit-graph, once more if the first try was refused.
fn opened<F: Folders + Copy + Drop, A: Allocator + Copy>(
    alloc: A,
    files: F,
    folder: &[u8],
) -> Option<GraphRows<F, A>> {
    match GraphRows::open(alloc, files, folder) {
        Ok(rows) => rows,
        Err(error) if is_refusal(error) => GraphRows::open(alloc, files, folder).unwrap_or(None),
        Err(_) => None,
    }
}

/// Tells whether an id is that of the commit with a number.
fn is_id(id: &ObjectId, number: usize) -> bool {
    match COMMITS.get(number) {
        Some(wanted) => ObjectId::from_hex(wanted.id.as_bytes()) == Ok(*id),
        None => false,
    }
}

/// Tells whether ids are those of the commits with numbers.
fn are_ids(ids: &[ObjectId], numbers: &[usize]) -> bool {
    for (id, number) in ids.iter().zip(numbers.iter()) {
        if !is_id(id, *number) {
            return false;
        }
    }
    ids.len() == numbers.len()
}

/// Tells whether a commit is as it should be.
pub(crate) fn is_right<A: Allocator>(commit: &SourceCommit<A>, wanted: &Wanted) -> bool {
    commit.time == wanted.time
        && commit.generation == Some(wanted.level)
        && are_ids(&commit.parents, wanted.parents)
}

/// Says what came of a look-up. No commit is wanted if `wanted` is `None`.
fn outcome_of<A: Allocator>(
    answer: Result<Option<SourceCommit<A>>, Error>,
    wanted: Option<&Wanted>,
) -> Outcome {
    let is_right = match (&answer, wanted) {
        (Ok(Some(commit)), Some(wanted)) => is_right(commit, wanted),
        (Ok(None), None) => true,
        (Err(error), _) if is_refusal(*error) => return Outcome::Failed,
        _ => false,
    };
    if is_right {
        Outcome::Right
    } else {
        Outcome::Wrong
    }
}

/// Tells whether a look-up answers as it should, at the second try if the first was refused.
fn holds<F: Folders + Copy + Drop, A: Allocator + Copy>(
    alloc: A,
    rows: &mut GraphRows<F, A>,
    id: ObjectId,
    wanted: Option<&Wanted>,
) -> bool {
    let mut outcome = outcome_of(rows.commit(alloc, id), wanted);
    if outcome == Outcome::Failed {
        outcome = outcome_of(rows.commit(alloc, id), wanted);
    }
    outcome == Outcome::Right
}

/// Tells whether a commit is read.
fn is_read<F: Folders + Copy + Drop, A: Allocator + Copy>(
    alloc: A,
    rows: &mut GraphRows<F, A>,
    wanted: &Wanted,
) -> bool {
    match ObjectId::from_hex(wanted.id.as_bytes()) {
        Ok(id) => holds(alloc, rows, id, Some(wanted)),
        Err(_) => false,
    }
}

/// Tells whether all commits are read, from the last one on, and no other.
fn are_read<F: Folders + Copy + Drop, A: Allocator + Copy>(
    alloc: A,
    rows: &mut GraphRows<F, A>,
) -> bool {
    for wanted in COMMITS.iter().rev() {
        if !is_read(alloc, rows, wanted) {
            return false;
        }
    }
    holds(alloc, rows, ObjectId([0x79; 20]), None)
}

/// Tells whether a new commit-graph reads all commits.
fn reads_all<F: Folders + Copy + Drop, A: Allocator + Copy>(
    alloc: A,
    files: F,
    folder: &[u8],
) -> bool {
    match &mut opened(alloc, files, folder) {
        Some(rows) => rows.len() == 6 && are_read(alloc, rows),
        None => false,
    }
}

/// Reads all commits of the commit-graph in a folder.
struct Commits(&'static str);

impl Trial for Commits {
    fn holds<A: Allocator + Copy>(&self, alloc: A, files: Fake<'_>) -> bool {
        reads_all(alloc, files, self.0.as_bytes())
    }
}

/// The commit-graph in one file, and the one in a chain.
static SINGLE: Commits = Commits("single");

static CHAIN: Commits = Commits("chain");

#[test]
fn survives_each_failed_call(rt: HostRuntime) -> Result<(), Fail> {
    let files = files(rt.alloc())?;
    assert!(rt; failed_calls(rt.alloc(), &files, usize::MAX, &SINGLE) > 5);
    assert!(rt; failed_calls(rt.alloc(), &files, usize::MAX, &CHAIN) > 10);
    assert!(rt; failed_calls(rt.alloc(), &files, 100, &CHAIN) > 60);
    Ok(())
}

#[test]
fn survives_each_failed_allocation(rt: HostRuntime) -> Result<(), Fail> {
    let files = files(rt.alloc())?;
    assert!(rt; failed_allocations(rt.alloc(), &files, usize::MAX, &SINGLE) > 15);
    assert!(rt; failed_allocations(rt.alloc(), &files, usize::MAX, &CHAIN) > 30);
    Ok(())
}
