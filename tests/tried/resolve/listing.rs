//! Lists of the commits of specs, pages of them, and their counts, over small histories; also with
//! failing look-ups and failing allocations.
//!
//! ```text
//!   2---4      2       3   6
//!  / \ /      / \     / \ /
//! 1   X      1   1   8   8
//!  \ / \
//!   3---5
//! ```

use crate::resolve::near::are_counted;
use crate::resolve::reaching::RISING;
use crate::shared::faults::{Answered, Asks, LookUps, first_lost, first_wrong};
use crate::shared::histories::{BRANCHES, CRISS_CROSS, Row, are, id, source_of};
use gix_resolve::{ListError, commits, commits_early, commits_newest_first, count_commits, page};
use gix_revision::graph::{Commit, Find, Graph, MemorySource};
use gix_revision::hash::ObjectId;
use gix_revision::merge_base::Flags;
use gix_revision::spec::Spec;
use std::alloc::{AllocError, Allocator, Global};
use std::test::Fail;

/// A spec, by the digits of its ids.
#[derive(Clone, Copy)]
enum Of {
    Include(u8),
    Exclude(u8),
    Range(u8, u8),
    Merge(u8, u8),
    IncludeOnlyParents(u8),
    ExcludeParents(u8),
}

/// Which part of the list is asked for.
#[derive(Clone, Copy)]
enum Part {
    Whole,
    /// The whole list, by the walk that may end early.
    Early,
    /// The whole list by that walk, newest first.
    Newest,
    /// The first commits after the id of a digit, or of all commits.
    Page(Option<u8>, usize),
    /// How many commits there are.
    Count,
}

/// A call: the spec, the history, the part that is asked for, and the ids that the answer has in
/// order or counts.
#[derive(Clone, Copy)]
struct Listing(Of, &'static [Row<'static>], Part, &'static [u8]);

/// Two commits that are each other's parents, and one above them.
const CYCLE: [Row<'static>; 3] = [
    Row(1, 1, None, &[2]),
    Row(2, 1, None, &[1]),
    Row(3, 1, None, &[2]),
];

/// A parent is listed twice, and another one is not in the source.
const UNEVEN: [Row<'static>; 4] = [
    Row(1, 1, None, &[]),
    Row(2, 9, Some(1), &[1, 1]),
    Row(3, 1, Some(7), &[8, 2]),
    Row(6, 1, None, &[8]),
];

/// The parent 1 comes after its child 2 in the table, and has a greater generation number.
const LATE: [Row<'static>; 3] = [
    Row(2, 2, Some(2), &[1]),
    Row(1, 1, Some(5), &[]),
    Row(3, 3, Some(6), &[1]),
];

static WORKED: [Listing; 41] = [
    Listing(Of::Include(5), &CRISS_CROSS, Part::Whole, &[1, 2, 3, 5]),
    Listing(Of::Range(4, 5), &CRISS_CROSS, Part::Whole, &[5]),
    Listing(Of::Merge(4, 5), &CRISS_CROSS, Part::Whole, &[4, 5]),
    Listing(
        Of::IncludeOnlyParents(5),
        &CRISS_CROSS,
        Part::Whole,
        &[1, 2, 3],
    ),
    Listing(Of::ExcludeParents(5), &CRISS_CROSS, Part::Whole, &[5]),
    Listing(Of::Exclude(5), &CRISS_CROSS, Part::Whole, &[]),
    Listing(Of::Range(3, 5), &CRISS_CROSS, Part::Whole, &[2, 5]),
    Listing(Of::Range(5, 4), &CRISS_CROSS, Part::Whole, &[4]),
    Listing(Of::Range(5, 2), &CRISS_CROSS, Part::Whole, &[]),
    Listing(Of::Merge(5, 5), &CRISS_CROSS, Part::Whole, &[]),
    // The source has no such commit.
    Listing(Of::Include(9), &CRISS_CROSS, Part::Whole, &[]),
    Listing(Of::Range(9, 2), &CRISS_CROSS, Part::Whole, &[1, 2]),
    Listing(Of::Range(2, 9), &CRISS_CROSS, Part::Whole, &[]),
    Listing(Of::Merge(2, 9), &CRISS_CROSS, Part::Whole, &[1, 2]),
    Listing(Of::IncludeOnlyParents(9), &CRISS_CROSS, Part::Whole, &[]),
    Listing(Of::ExcludeParents(9), &CRISS_CROSS, Part::Whole, &[]),
    // Cycles, repeated parents, and parents that the source does not have.
    Listing(Of::Include(1), &CYCLE, Part::Whole, &[1, 2]),
    Listing(Of::Range(1, 3), &CYCLE, Part::Whole, &[3]),
    Listing(Of::IncludeOnlyParents(2), &CYCLE, Part::Whole, &[1, 2]),
    Listing(Of::Include(3), &UNEVEN, Part::Whole, &[1, 2, 3]),
    Listing(Of::IncludeOnlyParents(6), &UNEVEN, Part::Whole, &[]),
    // A generation number rises. Nothing below the hidden commit is listed.
    Listing(Of::Range(2, 3), &RISING, Part::Whole, &[3]),
    Listing(Of::Range(2, 3), &RISING, Part::Early, &[3]),
    Listing(Of::Range(2, 3), &LATE, Part::Early, &[3]),
    Listing(Of::Merge(2, 3), &LATE, Part::Early, &[2, 3]),
    // The newest first.
    Listing(Of::Include(5), &CRISS_CROSS, Part::Newest, &[5, 2, 3, 1]),
    Listing(Of::Exclude(5), &CRISS_CROSS, Part::Newest, &[]),
    Listing(Of::Range(2, 3), &RISING, Part::Newest, &[3]),
    // Pages.
    Listing(
        Of::Include(5),
        &CRISS_CROSS,
        Part::Page(Some(1), 2),
        &[2, 3],
    ),
    Listing(Of::Include(5), &CRISS_CROSS, Part::Page(None, 0), &[]),
    Listing(Of::Include(5), &CRISS_CROSS, Part::Page(Some(5), 9), &[]),
    Listing(
        Of::Include(5),
        &CRISS_CROSS,
        Part::Page(Some(4), usize::MAX),
        &[5],
    ),
    // Counts, a row for each form, and one each for a commit that the source does not have.
    Listing(Of::Include(5), &CRISS_CROSS, Part::Count, &[1, 2, 3, 5]),
    Listing(Of::Range(3, 5), &CRISS_CROSS, Part::Count, &[2, 5]),
    Listing(Of::Merge(4, 5), &CRISS_CROSS, Part::Count, &[4, 5]),
    Listing(
        Of::IncludeOnlyParents(5),
        &CRISS_CROSS,
        Part::Count,
        &[1, 2, 3],
    ),
    Listing(Of::ExcludeParents(5), &CRISS_CROSS, Part::Count, &[5]),
    Listing(Of::Exclude(5), &CRISS_CROSS, Part::Count, &[]),
    Listing(Of::Merge(2, 9), &CRISS_CROSS, Part::Count, &[1, 2]),
    Listing(Of::IncludeOnlyParents(9), &CRISS_CROSS, Part::Count, &[]),
    Listing(Of::ExcludeParents(9), &CRISS_CROSS, Part::Count, &[]),
];

/// Two near commits with generation numbers. The early walk looks up both and what is between them,
/// and from two branches also where these meet. The plain walk looks up all that the ids reach.
static NEAR: [LookUps<Listing>; 13] = [
    LookUps(Listing(Of::Range(4, 6), &BRANCHES, Part::Early, &[5, 6]), 3),
    LookUps(Listing(Of::Range(6, 4), &BRANCHES, Part::Early, &[]), 3),
    LookUps(Listing(Of::Merge(4, 6), &BRANCHES, Part::Early, &[5, 6]), 3),
    LookUps(Listing(Of::Merge(6, 4), &BRANCHES, Part::Early, &[5, 6]), 3),
    LookUps(
        Listing(Of::Range(4, 6), &BRANCHES, Part::Newest, &[6, 5]),
        3,
    ),
    LookUps(
        Listing(Of::Merge(6, 4), &BRANCHES, Part::Newest, &[6, 5]),
        3,
    ),
    LookUps(Listing(Of::Range(4, 6), &BRANCHES, Part::Count, &[5, 6]), 3),
    LookUps(Listing(Of::Merge(6, 5), &BRANCHES, Part::Count, &[6]), 2),
    // All commits but the root.
    LookUps(
        Listing(Of::Range(8, 6), &BRANCHES, Part::Newest, &[6, 5, 4, 3]),
        7,
    ),
    // The two commits and all below them.
    LookUps(Listing(Of::Range(4, 6), &BRANCHES, Part::Whole, &[5, 6]), 6),
    LookUps(Listing(Of::Merge(6, 4), &BRANCHES, Part::Whole, &[5, 6]), 6),
    LookUps(
        Listing(Of::Range(4, 6), &BRANCHES, Part::Page(None, 1), &[5]),
        6,
    ),
    LookUps(
        Listing(Of::Include(4), &BRANCHES, Part::Early, &[1, 2, 3, 4]),
        4,
    ),
];

fn spec_of(of: Of) -> Spec {
    match of {
        Of::Include(a) => Spec::Include(id(a)),
        Of::Exclude(a) => Spec::Exclude(id(a)),
        Of::Range(a, b) => Spec::Range {
            from: id(a),
            to: id(b),
        },
        Of::Merge(a, b) => Spec::Merge {
            theirs: id(a),
            ours: id(b),
        },
        Of::IncludeOnlyParents(a) => Spec::IncludeOnlyParents(id(a)),
        Of::ExcludeParents(a) => Spec::ExcludeParents(id(a)),
    }
}

/// Tests whether the answer is that of the call.
fn is_right<S: Find, A: Allocator + Copy>(
    alloc: A,
    graph: &mut Graph<S, Commit<Flags, A>, A>,
    call: &Listing,
) -> Result<bool, ListError> {
    let spec = spec_of(call.0);
    match call.2 {
        Part::Whole => Ok(are(&commits(alloc, &spec, graph)?, call.3)),
        Part::Early => Ok(are(&commits_early(alloc, &spec, graph)?, call.3)),
        Part::Newest => Ok(are(&commits_newest_first(alloc, &spec, graph)?, call.3)),
        Part::Page(after, limit) => {
            let after = after.map(|digit| id(digit));
            Ok(are(&page(alloc, &spec, graph, after, limit)?, call.3))
        }
        Part::Count => Ok(count_commits(alloc, &spec, graph)? == call.3.len()),
    }
}

impl Asks for Listing {
    fn history(&self) -> &'static [Row<'static>] {
        self.1
    }

    fn ask<S: Find, A: Allocator + Copy>(
        &self,
        _to: Global,
        alloc: A,
        graph: &mut Graph<S, Commit<Flags, A>, A>,
    ) -> Result<Answered, AllocError> {
        Ok(match is_right(alloc, graph, self) {
            Ok(true) => Answered::AsWanted,
            Ok(false) => Answered::Otherwise,
            Err(ListError::Source) => Answered::SourceFailed,
            Err(ListError::OutOfMemory) => Answered::OutOfMemory,
        })
    }
}

/// Compares the next page with what is left of a list, and returns its length. Returns `None` if
/// the page is not the beginning of what is left.
fn next_page(
    alloc: Global,
    graph: &mut Graph<MemorySource, Commit<Flags>>,
    (spec, limit): (&Spec, usize),
    after: Option<ObjectId>,
    rest: &[ObjectId],
) -> Option<usize> {
    match page(alloc, spec, graph, after, limit) {
        Ok(ids) if rest.starts_with(&ids) => Some(ids.len()),
        _ => None,
    }
}

/// Tests whether pages of this size make up a list. Each begins after the last id of the page
/// before it.
fn pages_join(
    alloc: Global,
    graph: &mut Graph<MemorySource, Commit<Flags>>,
    of: (&Spec, usize),
    list: &[ObjectId],
) -> bool {
    let mut rest = list;
    let mut after: Option<ObjectId> = None;
    for _ in 0..9usize {
        let Some(len) = next_page(alloc, graph, of, after, rest) else {
            return false;
        };
        let (ids, left) = rest.split_at(len.min(rest.len()));
        match ids.last() {
            Some(last) => after = Some(*last),
            None => return rest.is_empty(),
        }
        rest = left;
    }
    false
}

/// Tests whether the pages of one to four make up the list of a call.
fn all_join(alloc: Global, graph: &mut Graph<MemorySource, Commit<Flags>>, spec: &Spec) -> bool {
    match commits(alloc, spec, graph) {
        Ok(list) => {
            pages_join(alloc, graph, (spec, 1), &list)
                && pages_join(alloc, graph, (spec, 2), &list)
                && pages_join(alloc, graph, (spec, 3), &list)
                && pages_join(alloc, graph, (spec, 4), &list)
        }
        Err(_) => false,
    }
}

fn is_joined(alloc: Global, call: &Listing) -> Result<bool, AllocError> {
    let mut graph = Graph::new(alloc, source_of(alloc, call.1)?);
    Ok(all_join(alloc, &mut graph, &spec_of(call.0)))
}

/// Returns the index of the first call whose pages of one to four do not make up its list.
fn first_unjoined(alloc: Global) -> Result<Option<usize>, AllocError> {
    for (i, call) in WORKED.iter().enumerate() {
        if !is_joined(alloc, call)? {
            return Ok(Some(i));
        }
    }
    Ok(None)
}

#[test]
fn specs_list_their_commits_in_rising_order(rt: HostRuntime) -> Result<(), Fail> {
    assert_eq!(rt; first_wrong(rt.alloc(), &WORKED, 20)?, None);
    Ok(())
}

#[test]
fn lists_end_early_where_the_source_knows_of_generations(rt: HostRuntime) -> Result<(), Fail> {
    assert!(rt; are_counted(rt.alloc(), &NEAR)?);
    Ok(())
}

#[test]
fn pages_make_up_the_list(rt: HostRuntime) -> Result<(), Fail> {
    assert_eq!(rt; first_unjoined(rt.alloc())?, None);
    Ok(())
}

#[test]
fn refused_look_ups_and_memory_refuse_a_list(rt: HostRuntime) -> Result<(), Fail> {
    assert_eq!(rt; first_lost(rt.alloc(), &WORKED)?, None);
    Ok(())
}

#[test]
fn refused_look_ups_and_memory_refuse_an_early_list(rt: HostRuntime) -> Result<(), Fail> {
    assert_eq!(rt; first_lost(rt.alloc(), &NEAR)?, None);
    Ok(())
}
