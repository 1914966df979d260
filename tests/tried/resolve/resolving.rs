//! Revisions that are resolved over small histories, with failing look-ups and failing allocations.

use crate::resolve::texts::{AMBIGUOUS, CROSSED, Case, NAMES_FIRST, Order, ROUNDS};
use crate::shared::faults::{Answered, Asks, refusals};
use crate::shared::histories::{Row, id, written_out};
use gix_resolve::{Table, resolve, rev_parse};
use gix_revision::date::Time;
use gix_revision::error::Exn;
use gix_revision::graph::{Commit, Find, Graph};
use gix_revision::hash::ObjectId;
use gix_revision::merge_base::Flags;
use gix_revision::spec::Spec;
use gix_revision::spec::parse::Error;
use std::alloc::{AllocError, Allocator, Global};
use std::collections::{BTreeMap, BTreeSet};
use std::test::Fail;

const NOW: Time = Time {
    seconds: 0,
    offset: 0,
};

// Returns the ids of the history, and the other ids of the case.
fn ids_of<A: Allocator + Copy>(alloc: A, case: &Case) -> Result<BTreeSet<ObjectId, A>, AllocError> {
    let mut ids = BTreeSet::new(alloc);
    for row in case.history {
        ids.insert(id(row.0))?;
    }
    for other in case.more_ids {
        ids.insert(*other)?;
    }
    Ok(ids)
}

fn names_of<A: Allocator + Copy>(
    alloc: A,
    case: &Case,
) -> Result<BTreeMap<Vec<u8, A>, ObjectId, A>, AllocError> {
    let mut names = BTreeMap::new(alloc);
    for (name, digit) in case.names {
        names.insert(written_out(alloc, name)?, id(*digit))?;
    }
    Ok(names)
}

fn table_of<A: Allocator + Copy>(alloc: A, case: &Case) -> Result<Table<A>, AllocError> {
    let names = names_of(alloc, case)?;
    let ids = ids_of(alloc, case)?;
    Ok(Table { names, ids })
}

// Adds what the resolver said, if it refused.
fn add_refusal(before: &str, refusal: &Option<Exn>, line: &mut Vec<u8>) -> Result<(), AllocError> {
    if let Some(refusal) = refusal {
        line.extend_from_slice(before.as_bytes())?;
        line.extend_from_slice(refusal.message.as_str().as_bytes())?;
    }
    Ok(())
}

// Adds the answer, in the form of rows.
fn add_answer(
    alloc: Global,
    answer: &Result<Spec, Error<'_>>,
    line: &mut Vec<u8>,
) -> Result<(), AllocError> {
    match answer {
        Ok(spec) => line.extend_from_slice(format!(in alloc; "{spec}")?.as_bytes()),
        Err(Error::OutOfMemory) => line.extend_from_slice(b"P0"),
        Err(
            Error::Refused {
                fault,
                input,
                first,
                second,
            },
        ) => {
            let number = fault.number();
            line.extend_from_slice(format!(in alloc; "P{number}")?.as_bytes())?;
            if let Some(input) = input {
                line.extend_from_slice(b" (")?;
                line.extend_from_slice(input)?;
                line.extend_from_slice(b")")?;
            }
            add_refusal(" ", first, line)?;
            add_refusal("; ", second, line)
        }
    }
}

// Tests whether this was the answer.
fn is_written(
    alloc: Global,
    answer: &Result<Spec, Error<'_>>,
    want: &[u8],
) -> Result<bool, AllocError> {
    let mut line = Vec::new(alloc);
    add_answer(alloc, answer, &mut line)?;
    Ok(line.as_slice() == want)
}

fn judged(
    alloc: Global,
    answer: &Result<Spec, Error<'_>>,
    want: &[u8],
) -> Result<Answered, AllocError> {
    if is_written(alloc, answer, want)? {
        return Ok(Answered::AsWanted);
    }
    Ok(match answer {
        Err(Error::OutOfMemory) => Answered::OutOfMemory,
        Err(
            Error::Refused {
                fault,
                first: Some(first),
                second: None,
                ..
            },
        ) if first.message.as_str() == "the source failed" && [24, 25].contains(&fault.number()) =>
            { Answered::SourceFailed }
        _ => Answered::Otherwise,
    })
}

/// A text of a case, and the expected answer.
#[derive(Clone, Copy)]
struct Wanted<'t> {
    case: &'static Case,
    text: &'t [u8],
    answer: &'t [u8],
}

impl Asks for Wanted<'_> {
    fn history(&self) -> &'static [Row<'static>] {
        self.case.history
    }

    fn ask<S: Find, A: Allocator + Copy>(
        &self,
        to: Global,
        alloc: A,
        graph: &mut Graph<S, Commit<Flags, A>, A>,
    ) -> Result<Answered, AllocError> {
        let table = table_of(alloc, self.case)?;
        let answer = match self.case.order {
            Order::DigitsFirst => resolve(alloc, to, self.text, NOW, &table, graph),
            Order::NamesFirst => rev_parse(alloc, to, self.text, NOW, &table, graph),
        };
        judged(to, &answer, self.answer)
    }
}

/// Tests whether a text survives each failing look-up and allocation.
fn survives(
    alloc: Global,
    case: &'static Case,
    (text, answer): (&str, &str),
) -> Result<bool, AllocError> {
    let text = written_out(alloc, text)?;
    let answer = written_out(alloc, answer)?;
    let wanted = Wanted {
        case,
        text: &text,
        answer: &answer,
    };
    Ok(refusals(alloc, &wanted)?.is_some())
}

/// Returns the first row of a case that does not survive them.
fn first_wrong(alloc: Global, case: &'static Case) -> Result<Option<&'static str>, AllocError> {
    for row in case.rows.lines() {
        if !survives(
            alloc,
            case,
            row.split_once(" => ").unwrap_or((row, "no row")),
        )? {
            return Ok(Some(row));
        }
    }
    Ok(None)
}

#[test]
fn texts_are_resolved(rt: HostRuntime) -> Result<(), Fail> {
    assert_eq!(rt; first_wrong(rt.alloc(), &CROSSED)?, None);
    assert_eq!(rt; first_wrong(rt.alloc(), &AMBIGUOUS)?, None);
    assert_eq!(rt; first_wrong(rt.alloc(), &ROUNDS)?, None);
    assert_eq!(rt; first_wrong(rt.alloc(), &NAMES_FIRST)?, None);
    Ok(())
}
