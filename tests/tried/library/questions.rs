//! Questions for the calls of `merge_base` and of `gix_range`, in tables.

use crate::shared::faults::{Answered, Asks};
use crate::shared::histories::{Row, are, id, ids, source_of};
use fixtures::sources::{Failing, Turn};
use gix_range::{ahead_behind, bases, beyond, count_beyond, independent};
use gix_revision::error::NonEmpty;
use gix_revision::graph::{Commit, Find, FindFault, Graph};
use gix_revision::hash::ObjectId;
use gix_revision::merge_base::{
    Error, Flags, Simple, counted, is_ancestor, merge_base, octopus, octopus_bases, paint, reduce,
};
use std::alloc::{AllocError, Allocator, Global};

/// Which function is called.
#[derive(Clone, Copy, PartialEq)]
pub enum Call {
    Bases,
    Counted,
    Octopus,
    OctopusBases,
    Paint,
    /// Takes the others alone.
    Reduce,
    /// Takes the first and one other. The answer is the first if the other reaches it.
    Ancestor,
    /// The answer is the first if one of the others reaches it.
    Reached,
    /// What the first reaches and the others do not, in any order.
    Beyond,
    /// What the others reach and the first does not, in any order.
    OthersBeyond,
    /// All that the others reach, in any order.
    AllOfOthers,
    /// The answer is how many commits `Beyond` has.
    CountBeyond,
    /// Takes the first and one other. The answer is how many commits the first alone reaches, and
    /// how many the other alone.
    AheadBehind,
    /// As `Bases`, in any order.
    EarlyBases,
    /// Takes the others alone.
    Independent,
}

/// A call: the function, the history, the first id, the others, and the ids of the answer in order,
/// unless the function says otherwise; those of painting in any order.
#[derive(Clone, Copy)]
pub struct Question(
    pub Call,
    pub &'static [Row<'static>],
    pub u8,
    pub &'static [u8],
    pub &'static [u8],
);

/// Tests whether these are the ids of the digits, in order.
pub fn are_bases<A: Allocator>(found: &Option<NonEmpty<ObjectId, A>>, digits: &[u8]) -> bool {
    let Some(list) = found else {
        return digits.is_empty();
    };
    for (base, digit) in list.iter().zip(digits) {
        if *base != id(*digit) {
            return false;
        }
    }
    list.len() == digits.len()
}

/// Tests whether these are the ids of the digits, in any order, each once.
pub fn are_set(list: &[ObjectId], digits: &[u8]) -> bool {
    for digit in digits {
        if !list.contains(&id(*digit)) {
            return false;
        }
    }
    list.len() == digits.len()
}

/// Tests whether this is the id of the digit, or `None` without a digit.
pub fn is_one(found: Option<ObjectId>, digits: &[u8]) -> bool {
    match digits.first() {
        Some(digit) => found == Some(id(*digit)),
        None => found.is_none(),
    }
}

/// Tests whether the call answers that the only other id reaches the first.
fn is_reached<S: Find, A: Allocator + Copy>(
    alloc: A,
    graph: &mut Graph<S, Commit<Flags, A>, A>,
    first: ObjectId,
    others: &[ObjectId],
) -> Result<bool, Error> {
    match others {
        [of] => is_ancestor(alloc, first, *of, graph),
        _ => Ok(false),
    }
}

/// Tests whether both counts of an only other id are these.
fn are_counted<S: Find, A: Allocator + Copy>(
    alloc: A,
    graph: &mut Graph<S, Commit<Flags, A>, A>,
    first: ObjectId,
    others: &[ObjectId],
    counts: &[u8],
) -> Result<bool, Error> {
    let ([other], [ahead, behind]) = (others, counts) else {
        return Ok(false);
    };
    let found = ahead_behind(alloc, first, *other, graph)?;
    Ok(found == (usize::from(*ahead), usize::from(*behind)))
}

/// Tests whether the answer of a call of `gix_range` is that of the question with these others.
fn is_right_early<S: Find, A: Allocator + Copy>(
    alloc: A,
    graph: &mut Graph<S, Commit<Flags, A>, A>,
    question: &Question,
    others: &[ObjectId],
) -> Result<bool, Error> {
    let (first, answer) = (id(question.2), question.4);
    Ok(match question.0 {
        Call::Reached => gix_range::is_reached(alloc, first, others, graph)? != answer.is_empty(),
        Call::Beyond => are_set(&beyond(alloc, &[first], others, graph)?, answer),
        Call::OthersBeyond => are_set(&beyond(alloc, others, &[first], graph)?, answer),
        Call::AllOfOthers => are_set(&beyond(alloc, others, &[], graph)?, answer),
        Call::CountBeyond => {
            answer.first().map(|n| usize::from(*n))
                == Some(count_beyond(alloc, &[first], others, graph)?)
        }
        Call::AheadBehind => are_counted(alloc, graph, first, others, answer)?,
        Call::EarlyBases => are_set(&bases(alloc, first, others, graph)?, answer),
        Call::Independent => are(&independent(alloc, others, graph)?, answer),
        _ => false,
    })
}

/// Tests whether the answer is that of the question with these others.
fn is_right<S: Find, A: Allocator + Copy>(
    alloc: A,
    graph: &mut Graph<S, Commit<Flags, A>, A>,
    question: &Question,
    others: &[ObjectId],
) -> Result<bool, Error> {
    let (first, answer) = (id(question.2), question.4);
    Ok(match question.0 {
        Call::Bases => are_bases(&merge_base(alloc, first, others, graph)?, answer),
        Call::Counted => are_bases(&counted(alloc, first, others, graph)?.0, answer),
        Call::Octopus => is_one(octopus(alloc, first, others, graph)?, answer),
        Call::OctopusBases => are(&octopus_bases(alloc, first, others, graph)?, answer),
        Call::Ancestor => is_reached(alloc, graph, first, others)? != answer.is_empty(),
        Call::Paint => are_set(&paint(alloc, first, others, graph)?.0, answer),
        Call::Reduce => are(&reduce(alloc, others, graph)?, answer),
        _ => is_right_early(alloc, graph, question, others)?,
    })
}

impl Asks for Question {
    fn history(&self) -> &'static [Row<'static>] {
        self.1
    }

    fn ask<S: Find, A: Allocator + Copy>(
        &self,
        _to: Global,
        alloc: A,
        graph: &mut Graph<S, Commit<Flags, A>, A>,
    ) -> Result<Answered, AllocError> {
        let others = ids(alloc, self.3)?;
        Ok(match is_right(alloc, graph, self, &others) {
            Ok(true) => Answered::AsWanted,
            Ok(false) => Answered::Otherwise,
            Err(Error::Source(_)) => Answered::SourceFailed,
            Err(Error::OutOfMemory) => Answered::OutOfMemory,
        })
    }
}

/// Tests whether the call of a question fails with this text, or succeeds without one, over a
/// source that fails at each such turn.
pub fn is_refused_with(
    alloc: Global,
    question: &Question,
    turn: Turn,
    text: Option<&'static str>,
) -> Result<bool, AllocError> {
    let others = ids(alloc, question.3)?;
    let inner = source_of(alloc, question.1)?;
    let mut graph = Graph::new(alloc, Failing::new(inner, turn, FindFault::Failed, 0));
    Ok(
        match (is_right(alloc, &mut graph, question, &others), text) {
            (Err(Error::Source(refusal)), Some(text)) => refusal == Simple(text),
            (Ok(_), None) => true,
            _ => false,
        },
    )
}
