//! Calls of `describe` in tables, and tests of their answers.

use crate::shared::faults::{Answered, Came, Repeats};
use crate::shared::histories::{Row, id, source_of};
use fixtures::sources::{Failing, Turn};
use gix_base::error::Message;
use gix_revision::Seed;
use gix_revision::describe::{Names, Options, Outcome, counted, describe};
use gix_revision::graph::{Find, FindFault, Graph, MemorySource};
use std::alloc::{AllocError, Allocator, Global};
use std::borrow::CowSlice;
use std::collections::HashMap;

/// A history, the names of its commits, the commit to describe, the options, and the expected
/// answer.
#[derive(Clone, Copy)]
pub struct Case(
    pub &'static [Row<'static>],
    pub &'static [(u8, &'static str)],
    pub u8,
    pub How,
    pub Want,
);

/// How to describe a commit.
#[derive(Clone, Copy)]
pub struct How {
    pub max_candidates: usize,
    pub fallback_to_oid: bool,
    pub first_parent: bool,
    /// The commit for which the source fails; 0 if it never fails.
    pub fails_for: u8,
}

#[derive(Clone, Copy)]
pub enum Want {
    Nothing,
    /// The source does not have the commit.
    Missing,
    /// Loading the parents of this commit failed.
    Lost(u8),
    /// Any answer.
    Anything,
    /// The id alone, after this many commits; how many left the queue, and which are held then.
    Unnamed(u32, u128, &'static [u8]),
    /// A name with its depth and the number of commits seen; how many left the queue, and which are
    /// held then.
    Named(&'static str, u32, u32, u128, &'static [u8]),
}

pub const PLAIN: How = How {
    max_candidates: 10,
    fallback_to_oid: false,
    first_parent: false,
    fails_for: 0,
};

pub const ALWAYS: How = How {
    max_candidates: 10,
    fallback_to_oid: true,
    first_parent: false,
    fails_for: 0,
};

pub const FIRST_PARENT: How = How {
    max_candidates: 10,
    fallback_to_oid: true,
    first_parent: true,
    fails_for: 0,
};

pub const NO_CANDIDATE: How = How {
    max_candidates: 0,
    fallback_to_oid: true,
    first_parent: false,
    fails_for: 0,
};

pub const ONE_CANDIDATE: How = How {
    max_candidates: 1,
    fallback_to_oid: false,
    first_parent: false,
    fails_for: 0,
};

/// Three commits, each the parent of the next.
pub const LINE: &[Row<'static>] = &[
    Row(1, 1, None, &[]),
    Row(2, 2, None, &[1]),
    Row(3, 3, None, &[2]),
];

/// A merge whose two parents have one parent.
pub const FORK: &[Row<'static>] = &[
    Row(1, 1, None, &[]),
    Row(2, 9, None, &[1]),
    Row(3, 8, None, &[1]),
    Row(4, 10, None, &[2, 3]),
];

pub fn names_of<A: Allocator + Copy>(
    alloc: A,
    names: &[(u8, &'static str)],
) -> Result<Names<'static, A>, AllocError> {
    let mut all = HashMap::with_hasher(alloc, Seed::default());
    for (digit, name) in names {
        all.insert(id(*digit), CowSlice::Borrowed(name.as_bytes()))?;
    }
    Ok(all)
}

pub fn options_of<A: Allocator + Copy>(
    alloc: A,
    names: &[(u8, &'static str)],
    how: How,
) -> Result<Options<'static, A>, AllocError> {
    Ok(Options {
        name_by_oid: names_of(alloc, names)?,
        max_candidates: how.max_candidates,
        fallback_to_oid: how.fallback_to_oid,
        first_parent: how.first_parent,
    })
}

/// Tests whether a name is this one, borrowed from the given names.
pub fn is_name<A: Allocator>(found: &Option<CowSlice<'static, u8, A>>, name: &str) -> bool {
    match found {
        Some(CowSlice::Borrowed(found)) => *found == name.as_bytes(),
        _ => false,
    }
}

/// Tests whether an outcome is that of a commit, and the expected one.
pub fn says<A: Allocator>(outcome: &Outcome<'static, A>, start: u8, want: Want) -> bool {
    let (named, depth, seen) = match want {
        Want::Unnamed(seen, _, _) => (outcome.name.is_none(), 0, seen),
        Want::Named(name, depth, seen, _, _) => (is_name(&outcome.name, name), depth, seen),
        Want::Anything => return true,
        _ => return false,
    };
    named && outcome.id == id(start) && outcome.depth == depth && outcome.commits_seen == seen
}

/// Tests whether exactly these digits are held.
fn are_held<S: Find, A: Allocator + Copy>(graph: &Graph<S, u32, A>, digits: &[u8]) -> bool {
    for digit in 1..16u8 {
        if graph.contains(&id(digit)) != digits.contains(&digit) {
            return false;
        }
    }
    true
}

/// Tests whether this many commits left the queue, and these digits are held.
fn leaves<S: Find, A: Allocator + Copy>(graph: &Graph<S, u32, A>, pops: u128, want: Want) -> bool {
    match want {
        // Without a walk the graph is unchanged.
        Want::Unnamed(_, wanted, held) | Want::Named(_, _, _, wanted, held) => {
            pops == wanted && (pops == 0 || are_held(graph, held))
        }
        _ => true,
    }
}

/// Compares the answer of a call with the expected one.
fn verdict<S: Find, A: Allocator + Copy>(
    found: &Result<(Option<Outcome<'static, A>>, u128), Message>,
    graph: &Graph<S, u32, A>,
    start: u8,
    want: Want,
) -> Answered {
    let right = match (found, want) {
        (Ok((None, pops)), Want::Nothing) => *pops == 0,
        (Ok((Some(outcome), pops)), want) => {
            says(outcome, start, want) && leaves(graph, *pops, want)
        }
        (Err(Message::MissingStart(lacked)), Want::Missing) => *lacked == id(start),
        (Err(Message::ParentsOf(child)), Want::Lost(digit)) => *child == id(digit),
        (Err(Message::ParentsOf(_)), _) => return Answered::SourceFailed,
        (Err(Message::OutOfMemory), _) => return Answered::OutOfMemory,
        _ => false,
    };
    if right {
        Answered::AsWanted
    } else {
        Answered::Otherwise
    }
}

/// Makes the call of a case, and compares its answer with the expected one.
fn answered<S: Find, A: Allocator + Copy>(
    alloc: A,
    graph: &mut Graph<S, u32, A>,
    case: &Case,
) -> Result<Answered, AllocError> {
    let Case(_, names, start, how, want) = *case;
    let options = options_of(alloc, names, how)?;
    let found = counted(alloc, &id(start), graph, options);
    Ok(verdict(&found, graph, start, want))
}

/// Makes the call of a case and returns its result.
fn came<S: Find, A: Allocator + Copy>(
    alloc: A,
    graph: &mut Graph<S, u32, A>,
    case: &Case,
) -> Result<Came, AllocError> {
    let answered = answered(alloc, graph, case)?;
    Ok(came_of(answered, graph))
}

/// Returns the result of a call with this answer.
pub fn came_of<S: Find, A: Allocator + Copy>(answered: Answered, graph: &Graph<S, u32, A>) -> Came {
    Came {
        answered,
        faults: graph.source().faults(),
        agrees: true,
    }
}

/// Makes the call of a case twice and returns both results.
fn came_twice<S: Find, A: Allocator + Copy>(
    alloc: A,
    graph: &mut Graph<S, u32, A>,
    case: &Case,
) -> Result<(Came, Came), AllocError> {
    let first = came(alloc, graph, case)?;
    let again = came(alloc, graph, case)?;
    Ok((first, again))
}

impl Repeats for Case {
    fn commits(&self) -> &'static [Row<'static>] {
        self.0
    }

    fn needs_all(&self) -> bool {
        true
    }

    fn repeat<S: Find, A: Allocator + Copy>(
        &self,
        _to: Global,
        alloc: A,
        source: S,
    ) -> Result<(Came, Came), AllocError> {
        let mut graph = Graph::new(alloc, source);
        came_twice(alloc, &mut graph, self)
    }
}

type FailingGraph = Graph<Failing<MemorySource>, u32>;

/// Describes another commit with one more name.
fn describe_another(
    alloc: Global,
    graph: &mut FailingGraph,
    names: &[(u8, &'static str)],
) -> Result<(), AllocError> {
    let mut other = options_of(alloc, names, ALWAYS)?;
    other
        .name_by_oid
        .insert(id(14), CowSlice::Borrowed(b"other"))?;
    let _ = describe(alloc, &id(2), graph, other);
    Ok(())
}

/// Tests whether a case has the expected answer, on a new graph and on one that another call left.
fn is_described_on(
    alloc: Global,
    graph: &mut FailingGraph,
    case: &Case,
) -> Result<bool, AllocError> {
    let first = answered(alloc, graph, case)?;
    describe_another(alloc, graph, case.1)?;
    let again = answered(alloc, graph, case)?;
    Ok(first == Answered::AsWanted && again == Answered::AsWanted)
}

fn is_described(alloc: Global, case: &Case) -> Result<bool, AllocError> {
    let bad = Turn::For(id(case.3.fails_for));
    let source = Failing::new(source_of(alloc, case.0)?, bad, FindFault::Failed, 0);
    let mut graph = Graph::new(alloc, source);
    is_described_on(alloc, &mut graph, case)
}

/// Returns the index of the first case with another answer.
pub fn first_wrong(alloc: Global, cases: &[Case]) -> Result<Option<usize>, AllocError> {
    for (i, case) in cases.iter().enumerate() {
        if !is_described(alloc, case)? {
            return Ok(Some(i));
        }
    }
    Ok(None)
}
