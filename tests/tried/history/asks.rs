//! Asks about two lines of commits that fork at commit 60.

use crate::history::fake::{Fake, id_of};
use gix_history::{History, ReadError};
use gix_questions::{AheadBehind, Contains, Describe, IsAncestor, MergeBases};
use gix_revision::Seed;
use gix_revision::describe::{Manner, Names, Tie};
use std::alloc::Allocator;
use std::borrow::CowSlice;
use std::collections::HashMap;
use std::marker::Brand;

/// Tells whether the merge base of the two tips is the fork.
pub(crate) fn finds_base<A: Allocator + Copy>(
    alloc: A,
    history: &mut History<Fake, A>,
) -> Result<bool, ReadError> {
    let question = MergeBases {
        alloc,
        first: id_of(119),
        others: &[id_of(118)],
    };
    match history.ask::<Brand, MergeBases<'_, A>>(alloc, &question)? {
        Some(found) => Ok(found.head == id_of(60) && found.tail.is_empty()),
        None => Ok(false),
    }
}

/// Tells whether the counts of what is only on each line are right.
pub(crate) fn counts_sides<A: Allocator + Copy>(
    alloc: A,
    history: &mut History<Fake, A>,
    early: bool,
) -> Result<bool, ReadError> {
    let question = AheadBehind {
        alloc,
        early,
        ours: id_of(119),
        theirs: id_of(118),
    };
    let counts = history.ask::<Brand, AheadBehind<A>>(alloc, &question)?;
    Ok(counts == (30, 29))
}

/// Tells whether exactly the tips on the even line reach a commit of it.
pub(crate) fn tells_tips<A: Allocator + Copy>(
    alloc: A,
    history: &mut History<Fake, A>,
    early: bool,
) -> Result<bool, ReadError> {
    let question = Contains {
        alloc,
        early,
        commit: id_of(80),
        tips: &[id_of(119), id_of(118), id_of(80), id_of(78)],
    };
    let answers = history.ask::<Brand, Contains<'_, A>>(alloc, &question)?;
    Ok(answers.as_slice() == [false, true, true, false].as_slice())
}

/// Tells whether a tip is described by a name 10 commits away.
pub(crate) fn describes<A: Allocator + Copy>(
    alloc: A,
    history: &mut History<Fake, A>,
) -> Result<bool, ReadError> {
    let mut names: Names<'static, A> = HashMap::with_hasher(alloc, Seed::default());
    names.insert(id_of(98), CowSlice::Borrowed(b"v1"))?;
    let question = Describe {
        alloc,
        commit: id_of(118),
        names,
        manner: Manner {
            max_candidates: 10,
            fallback_to_oid: false,
            first_parent: false,
            tie: Tie::ByMeeting,
        },
    };
    match history.ask::<Brand, _>(alloc, &question)? {
        Ok(Some(found)) => Ok(found.depth == 10),
        _ => Ok(false),
    }
}

/// Tells whether `of` reaches `ancestor`.
pub(crate) fn reaches<A: Allocator + Copy>(
    alloc: A,
    history: &mut History<Fake, A>,
    early: bool,
    ancestor: u32,
    of: u32,
) -> Result<bool, ReadError> {
    let question = IsAncestor {
        alloc,
        early,
        ancestor: id_of(ancestor),
        of: id_of(of),
    };
    history.ask::<Brand, IsAncestor<A>>(alloc, &question)
}

/// Asks the questions that can be answered early, and tells whether all answers are right.
fn all_right_by<A: Allocator + Copy>(
    alloc: A,
    history: &mut History<Fake, A>,
    early: bool,
) -> Result<bool, ReadError> {
    let counts = counts_sides(alloc, history, early)?;
    let tips = tells_tips(alloc, history, early)?;
    let reached = reaches(alloc, history, early, 20, 119)?;
    Ok(counts && tips && reached)
}

/// Asks all questions, and tells whether all answers are right.
pub(crate) fn all_right<A: Allocator + Copy>(
    alloc: A,
    history: &mut History<Fake, A>,
) -> Result<bool, ReadError> {
    let base = finds_base(alloc, history)?;
    let described = describes(alloc, history)?;
    let early = all_right_by(alloc, history, true)?;
    let late = all_right_by(alloc, history, false)?;
    Ok(base && described && early && late)
}
