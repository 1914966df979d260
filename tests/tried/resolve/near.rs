//! Counts the look-ups of calls over `BRANCHES`, by each source that knows of generation numbers.

use crate::shared::faults::{Asks, LookUps, is_counted};
use crate::shared::histories::{BRANCHES, Row, commit_of, id, source_of};
use fixtures::graph_files::branches;
use gix_revision::commit_graph::Joined;
use gix_revision::graph::{Find, MemorySource};
use std::alloc::{AllocError, Global};

/// A commit on top of a branch, without a generation number.
const NEWER: Row<'static> = Row(9, 9, None, &[6]);

/// Another commit under the id of one of the branches. Its parent has a greater generation number.
const OTHER: Row<'static> = Row(6, 6, Some(1), &[5]);

/// Tests whether a source refuses the other commit.
fn refuses(alloc: Global, source: &mut MemorySource) -> bool {
    match commit_of(alloc, OTHER) {
        Ok(commit) => source.insert(id(OTHER.0), commit).is_err(),
        Err(_) => false,
    }
}

/// Makes a source in memory that has refused a second commit of an id.
fn in_memory(alloc: Global) -> Result<Option<MemorySource>, AllocError> {
    let mut source = source_of(alloc, &BRANCHES)?;
    let has_refused = refuses(alloc, &mut source);
    Ok(has_refused.then_some(source))
}

/// Makes a source of a commit-graph file and a newer commit.
fn joined(alloc: Global) -> Result<Joined<MemorySource>, AllocError> {
    let newer = source_of(alloc, &[NEWER])?;
    let file = branches(alloc);
    Ok(Joined { file, newer })
}

/// Tests the calls of a table over a source.
fn are_counted_by<C: Asks, S: Find>(
    alloc: Global,
    calls: &[LookUps<C>],
    source: &mut S,
) -> Result<bool, AllocError> {
    for call in calls {
        if !is_counted(alloc, call, &mut *source)? {
            return Ok(false);
        }
    }
    Ok(true)
}

/// Tests the calls of a table over a source, if there is one.
fn are_over<C: Asks, S: Find>(
    alloc: Global,
    calls: &[LookUps<C>],
    source: Option<S>,
) -> Result<bool, AllocError> {
    match source {
        Some(mut source) => are_counted_by(alloc, calls, &mut source),
        None => Ok(false),
    }
}

/// Tests the calls of a table over commits that their owner lends.
fn are_over_lent<C: Asks>(alloc: Global, calls: &[LookUps<C>]) -> Result<bool, AllocError> {
    let joined = joined(alloc)?;
    are_over(alloc, calls, Some(&joined))
}

/// Tests whether each call of a table is answered, with its look-ups, over each source.
pub fn are_counted<C: Asks>(alloc: Global, calls: &[LookUps<C>]) -> Result<bool, AllocError> {
    Ok(
        are_over(alloc, calls, in_memory(alloc)?)?
            && are_over(alloc, calls, branches(alloc))?
            && are_over(alloc, calls, Some(joined(alloc)?))?
            && are_over_lent(alloc, calls)?,
    )
}
