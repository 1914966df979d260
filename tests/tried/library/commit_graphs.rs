//! Opens a small file that git wrote, and spoils it at each of its bytes; also a file without
//! commits.

use crate::shared::histories::Row;
use crate::shared::refusing::Refusing;
use fixtures::graph_files::{empty_file, file};
use gix_revision::commit_graph::{CommitGraph, OpenFault};
use gix_revision::hash::ObjectId;
use std::alloc::{AllocError, Global};
use std::mem::replace;
use std::test::Fail;

/// The commits of the file, with positions in place of ids.
static COMMITS: [Row<'static>; 5] = [
    Row(0, 3, Some(2), &[1]),
    Row(1, 1, Some(1), &[]),
    Row(2, 4, Some(3), &[0, 3]),
    Row(3, 2, Some(1), &[]),
    Row(4, 0x1_0000_0005, Some(4), &[2, 0, 3]),
];

/// A place in the file, the byte that replaces its own, and the fault for which the file is then
/// refused.
struct Spoiled(usize, u8, OpenFault);

/// Two chunks of the file, by their places in the table of contents, whose ids are swapped.
static SWAPPED: [(usize, usize); 10] = [
    (0, 1),
    (0, 2),
    (0, 3),
    (0, 4),
    (1, 2),
    (1, 3),
    (1, 4),
    (2, 3),
    (2, 4),
    (3, 4),
];

/// The file with one byte spoiled.
static SPOILED: [Spoiled; 21] = [
    Spoiled(6, 255, OpenFault::TooShort),
    Spoiled(0, 0, OpenFault::Signature),
    Spoiled(4, 2, OpenFault::Version),
    Spoiled(5, 2, OpenFault::Hash),
    Spoiled(7, 1, OpenFault::BaseGraphs),
    // A row more, and the one that ended the table of contents is inside.
    Spoiled(6, 6, OpenFault::NoChunkId),
    // OIDL becomes OIDF.
    Spoiled(23, 0x46, OpenFault::Repeated),
    // OIDF begins behind OIDL; the hash begins behind its beginning.
    Spoiled(18, 5, OpenFault::ChunkPlace),
    Spoiled(79, 0x85, OpenFault::ChunkPlace),
    Spoiled(71, 1, OpenFault::TableEnd),
    Spoiled(8, 0, OpenFault::NoFanout),
    Spoiled(20, 0, OpenFault::NoIds),
    Spoiled(32, 0, OpenFault::NoRows),
    Spoiled(19, 0x4f, OpenFault::ChunkSize),
    Spoiled(0x53, 6, OpenFault::Fanout),
    // The third id is greater than the fourth.
    Spoiled(0x450 + 41, 0xff, OpenFault::IdOrder),
    Spoiled(0x450, 0, OpenFault::IdPlace),
    Spoiled(0x4b4 + 23, 5, OpenFault::Parent),
    Spoiled(0x57c + 3, 5, OpenFault::EdgeParent),
    Spoiled(0x57c + 4, 0, OpenFault::EdgeEnd),
    // The first commit has the list of the last one.
    Spoiled(0x4b4 + 24, 0x80, OpenFault::EdgeOrder),
];

type File<'b> = CommitGraph<&'b [u8]>;

/// Tests whether these are the ids at some positions of the file, in order.
fn are_at(graph: &File<'_>, ids: &[ObjectId], positions: &[u8]) -> bool {
    for (id, position) in ids.iter().zip(positions) {
        if graph.id(*position as usize) != Some(*id) {
            return false;
        }
    }
    ids.len() == positions.len()
}

/// Tests whether the commit of a row is found under its id.
fn finds(alloc: Global, graph: &File<'_>, row: &Row<'_>) -> bool {
    let Some(id) = graph.id(row.0 as usize) else {
        return false;
    };
    match graph.get(alloc, id) {
        Ok(Some(commit)) => {
            commit.time == row.1
                && commit.generation == row.2
                && are_at(graph, &commit.parents, row.3)
        }
        _ => false,
    }
}

/// Tests whether the file has no commit under the id that repeats a byte.
fn lacks(alloc: Global, graph: &File<'_>, byte: u8) -> bool {
    matches!(graph.get(alloc, ObjectId([byte; 20])), Ok(None))
}

/// Tests whether each commit of the file is found, and no other.
fn finds_all(alloc: Global, graph: &File<'_>) -> bool {
    for row in &COMMITS {
        if !finds(alloc, graph, row) {
            return false;
        }
    }
    graph.len() == COMMITS.len() && lacks(alloc, graph, 0xc2)
}

/// Tests whether the octopus merge is found, or its look-up runs out of memory, if the allocation
/// after some others fails. Returns `None` if there is no such allocation.
fn wants_memory(alloc: Global, graph: &File<'_>, id: ObjectId, before: u64) -> Option<bool> {
    let memory = Refusing::new(alloc, before);
    let is_found = match graph.get(&memory, id) {
        Ok(Some(commit)) => commit.parents.len() == 3,
        _ => false,
    };
    if memory.has_refused() {
        Some(!is_found)
    } else if is_found {
        None
    } else {
        Some(false)
    }
}

/// Tests whether each failed allocation for the octopus merge is reported, and there is one.
fn is_told(alloc: Global, graph: &File<'_>) -> bool {
    let Some(id) = graph.id(4) else {
        return false;
    };
    for before in 0..10u64 {
        match wants_memory(alloc, graph, id, before) {
            Some(true) => {}
            Some(false) => return false,
            None => return before > 0,
        }
    }
    false
}

/// Tests whether the file is opened, and is what git wrote.
fn is_read_back(alloc: Global, bytes: &[u8]) -> bool {
    match CommitGraph::open(bytes) {
        Ok(graph) => {
            graph.hash_is_right()
                && graph.levels_fall()
                && finds_all(alloc, &graph)
                && is_told(alloc, &graph)
        }
        Err(_) => false,
    }
}

/// Tests whether the file without commits is opened, and has none.
fn has_none(alloc: Global, bytes: &[u8]) -> bool {
    match CommitGraph::open(bytes) {
        Ok(graph) => {
            graph.len() == 0
                && graph.id(0).is_none()
                && graph.levels_fall()
                && lacks(alloc, &graph, 0)
        }
        Err(_) => false,
    }
}

/// Tests the file that git wrote.
fn is_written_file(alloc: Global) -> Result<bool, AllocError> {
    Ok(is_read_back(alloc, &file(alloc)?))
}

/// Tests the file without commits.
fn is_empty_file(alloc: Global) -> Result<bool, AllocError> {
    Ok(has_none(alloc, &empty_file(alloc)?))
}

#[test]
fn what_git_wrote_is_read_back(rt: HostRuntime) -> Result<(), Fail> {
    assert!(rt; is_written_file(rt.alloc())?);
    assert!(rt; is_empty_file(rt.alloc())?);
    Ok(())
}

/// Writes another byte at a place, and returns the old one.
fn put(bytes: &mut [u8], place: usize, byte: u8) -> u8 {
    match bytes.get_mut(place) {
        Some(at) => replace(at, byte),
        None => byte,
    }
}

/// Tests whether bytes are refused for a fault, and come back.
fn is_refused_for(bytes: &[u8], fault: OpenFault) -> bool {
    match CommitGraph::open(bytes) {
        Ok(_) => false,
        Err(error) => error.fault == fault && error.bytes.len() == bytes.len(),
    }
}

/// Returns the first fault for which its spoiled file is not refused.
fn first_opened(bytes: &mut [u8]) -> Option<OpenFault> {
    for case in &SPOILED {
        let own = put(bytes, case.0, case.1);
        if !is_refused_for(bytes, case.2) {
            return Some(case.2);
        }
        let _ = put(bytes, case.0, own);
    }
    None
}

/// Tests whether each commit of a file is found.
fn is_whole(alloc: Global, graph: &File<'_>) -> bool {
    for position in 0..graph.len() {
        let Some(id) = graph.id(position) else {
            return false;
        };
        if !matches!(graph.get(alloc, id), Ok(Some(_))) {
            return false;
        }
    }
    true
}

/// Tests whether changed bytes are refused. If they are not, each commit in them must be found, and
/// their hash must be wrong.
fn is_refused_or_read(alloc: Global, bytes: &[u8]) -> bool {
    match CommitGraph::open(bytes) {
        Ok(graph) => is_whole(alloc, &graph) && !graph.hash_is_right(),
        Err(_) => true,
    }
}

/// Tests whether the file is refused or read with another byte at a place.
fn holds_with(alloc: Global, bytes: &mut [u8], place: usize, byte: u8) -> bool {
    let own = put(bytes, place, byte);
    let holds = own == byte || is_refused_or_read(alloc, bytes);
    let _ = put(bytes, place, own);
    holds
}

/// Returns the first place that is misread. The file is opened although it ends there, or it is
/// neither refused nor read with 0, 255 or one changed bit there.
fn first_misread(alloc: Global, bytes: &mut [u8]) -> Option<usize> {
    for place in 0..bytes.len() {
        let (before, rest) = bytes.split_at(place);
        let bit = match rest.first() {
            Some(byte) => *byte ^ 1,
            None => 0,
        };
        if CommitGraph::open(before).is_ok()
            || !holds_with(alloc, bytes, place, 0)
            || !holds_with(alloc, bytes, place, 255)
            || !holds_with(alloc, bytes, place, bit)
        {
            return Some(place);
        }
    }
    None
}

/// Swaps the ids of two chunks in the table of contents.
fn swap_ids(bytes: &mut [u8], (one, other): (usize, usize)) {
    for byte in 8..12usize {
        let left = one.saturating_mul(12).saturating_add(byte);
        let right = other.saturating_mul(12).saturating_add(byte);
        if left < bytes.len() && right < bytes.len() {
            bytes.swap(left, right);
        }
    }
}

/// Returns the first two chunks that may be swapped.
fn first_swapped(bytes: &mut [u8]) -> Option<(usize, usize)> {
    for pair in &SWAPPED {
        swap_ids(bytes, *pair);
        if CommitGraph::open(&*bytes).is_ok() {
            return Some(*pair);
        }
        swap_ids(bytes, *pair);
    }
    None
}

/// Tests whether the file is refused when it is spoiled on purpose, and misread at no place.
fn is_refused_where_spoiled(alloc: Global) -> Result<bool, AllocError> {
    let mut bytes = file(alloc)?;
    Ok(
        first_opened(&mut bytes).is_none()
            && first_swapped(&mut bytes).is_none()
            && first_misread(alloc, &mut bytes).is_none(),
    )
}

#[test]
fn spoiled_files_are_refused_or_read(rt: HostRuntime) -> Result<(), Fail> {
    assert!(rt; is_refused_where_spoiled(rt.alloc())?);
    Ok(())
}
