//! Opens the chain of the tables as a whole (`gix_commitgraph`), while each allocation fails in turn.

use super::reads::is_right;
use super::tables::{COMMITS, Wanted, files};
use crate::files::files::Written;
use crate::shared::refusing::Refusing;
use gix_base::hash::ObjectId;
use gix_commitgraph::commit_graph::{Chain, ChainFault, CommitGraph, LevelledGraph};
use gix_revwalk::Seed;
use std::alloc::{AllocError, Allocator, Global};
use std::test::Fail;

/// Opens a file that is below all others.
fn lowest_of(alloc: Global, bytes: &[u8]) -> Option<LevelledGraph> {
    let bytes = bytes.to_vec(alloc).ok()?;
    let graph = CommitGraph::open(bytes).ok()?;
    LevelledGraph::new(graph).ok()
}

/// Opens a chain of files, the lowest first. Returns `None` if they are none.
fn chain_of<A: Allocator + Copy>(
    global: Global,
    alloc: A,
    files: &[Vec<u8>],
) -> Option<Result<Chain<A>, ChainFault>> {
    let (lowest, others) = files.split_first()?;
    let lowest = lowest_of(global, lowest)?;
    Some(Chain::open(alloc, lowest, others, Seed::default()))
}

/// Tells whether a chain has a commit.
fn has<A: Allocator + Copy>(alloc: A, chain: &Chain<A>, wanted: &Wanted) -> bool {
    let Ok(id) = ObjectId::from_hex(wanted.id.as_bytes()) else {
        return false;
    };
    match chain.commits.get(alloc, id) {
        Ok(Some(commit)) => is_right(&commit, wanted),
        _ => false,
    }
}

/// Tells whether a chain has the commits of the table, and no others.
fn has_all(alloc: Global, chain: &Chain<Global>) -> bool {
    for wanted in &COMMITS {
        if !has(alloc, chain, wanted) {
            return false;
        }
    }
    chain.ids.len() == COMMITS.len()
}

/// Tells whether files are a chain of all commits of the table.
fn is_whole(alloc: Global, files: &[Vec<u8>]) -> bool {
    match chain_of(alloc, alloc, files) {
        Some(Ok(chain)) => has_all(alloc, &chain),
        _ => false,
    }
}

/// Returns the bytes of the files at some places.
fn bytes_at(
    alloc: Global,
    files: &[Written],
    places: &[usize],
) -> Result<Vec<Vec<u8>>, AllocError> {
    let mut all = Vec::new(alloc);
    for place in places {
        if let Some(file) = files.get(*place) {
            all.push(file.bytes.as_slice().to_vec(alloc)?)?;
        }
    }
    Ok(all)
}

/// Returns the bytes of the files of the table at some places.
fn files_at(alloc: Global, places: &[usize]) -> Result<Vec<Vec<u8>>, AllocError> {
    let files = files(alloc)?;
    bytes_at(alloc, &files, places)
}

/// Tells whether files are refused as no chain, the lowest one first.
fn is_refused(alloc: Global, files: &[Vec<u8>]) -> bool {
    matches!(
        chain_of(alloc, alloc, files),
        Some(Err(ChainFault::NoChain))
    )
}

/// Returns how many allocations there are, each of which fails in turn. Returns 0 if one fails
/// otherwise than by saying so.
fn failed_allocations(alloc: Global, files: &[Vec<u8>]) -> u64 {
    for before in 0..100_000u64 {
        let memory = Refusing::new(alloc, before);
        let is_out_of_memory = matches!(
            chain_of(alloc, &memory, files),
            Some(Err(ChainFault::OutOfMemory))
        );
        if !memory.has_refused() {
            return before;
        }
        if !is_out_of_memory {
            return 0;
        }
    }
    0
}

#[test]
fn opens_a_chain(rt: HostRuntime) -> Result<(), Fail> {
    let files = files_at(rt.alloc(), &[1, 2])?;
    assert!(rt; is_whole(rt.alloc(), &files));
    assert!(rt; failed_allocations(rt.alloc(), &files) > 10);
    Ok(())
}

#[test]
fn refuses_what_is_no_chain(rt: HostRuntime) -> Result<(), Fail> {
    // A file of another chain, and one without base graphs above another.
    assert!(rt; is_refused(rt.alloc(), &files_at(rt.alloc(), &[0, 2])?));
    assert!(rt; is_refused(rt.alloc(), &files_at(rt.alloc(), &[1, 0])?));
    assert!(rt; !is_whole(rt.alloc(), &files_at(rt.alloc(), &[2])?));
    Ok(())
}
