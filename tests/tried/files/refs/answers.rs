//! Answers the questions of the tables as texts, and compares them.

use super::questions::{Ask, Row};
use super::texts::Text;
use crate::files::failures::Outcome;
use gix_base::hash::ObjectId;
use gix_files::Folders;
use gix_ref::{AtDate, Error, Listed, References, Skipped, Target};
use std::alloc::Allocator;
use std::io::ErrorKind;

/// Adds a blank and the digits of an id, if there is one.
fn add_peeled<A: Allocator>(to: &mut Text<A>, peeled: Option<ObjectId>) {
    if let Some(id) = peeled {
        to.add(b" ");
        to.add_id(id);
    }
}

/// Adds a name, a blank and the digits of an id.
fn add_named<A: Allocator>(to: &mut Text<A>, name: &[u8], id: ObjectId) {
    to.add(name);
    to.add(b" ");
    to.add_id(id);
}

/// Adds the lines of listed references.
fn add_listed<A: Allocator>(to: &mut Text<A>, listed: &[Listed<A>]) {
    for one in listed {
        add_named(to, &one.name, one.id);
        add_peeled(to, one.peeled);
        to.add(if one.is_symbolic { b" ref\n" } else { b"\n" });
    }
}

/// Adds the lines of skipped references.
fn add_skipped<A: Allocator>(to: &mut Text<A>, skipped: &[Skipped<A>]) {
    for one in skipped {
        to.add(&one.name);
        to.add_why(one.why);
        to.add(b"\n");
    }
}

/// Answers by the rules of short names.
fn add_short<F: Folders + Drop, A: Allocator + Copy>(
    references: &mut References<F, A>,
    name: &[u8],
    to: &mut Text<A>,
) -> Result<(), Error> {
    if let Some(found) = references.short(name)? {
        to.add(&found.name);
        to.add(b" ");
        add_named(to, &found.reference.name, found.reference.id);
        to.add(if found.is_ambiguous {
            b" ambiguous"
        } else {
            b""
        });
    }
    for passed in references.passed_over() {
        to.add_why(passed.why);
    }
    Ok(())
}

/// Answers with the shortest name that no other rule reads, if files and a list say the same.
fn add_strict<F: Folders + Drop, A: Allocator + Copy>(
    references: &mut References<F, A>,
    name: &[u8],
    to: &mut Text<A>,
) -> Result<(), Error> {
    let by_files = references.shortest(name, true)?;
    references.list_once()?;
    if references.shortest(name, true)? == by_files {
        to.add(by_files);
    }
    Ok(())
}

/// Answers with the shortest name that no rule before it reads.
fn add_loose<F: Folders + Drop, A: Allocator + Copy>(
    references: &mut References<F, A>,
    name: &[u8],
    to: &mut Text<A>,
) -> Result<(), Error> {
    to.add(references.shortest(name, false)?);
    Ok(())
}

/// Answers what a reference says.
fn add_said<F: Folders + Drop, A: Allocator + Copy>(
    references: &mut References<F, A>,
    name: &[u8],
    to: &mut Text<A>,
) -> Result<(), Error> {
    match references.find(name)? {
        Some(Target::Id { id, peeled }) => {
            to.add_id(id);
            add_peeled(to, peeled);
        }
        Some(Target::Symbolic(next)) => {
            to.add(b"ref: ");
            to.add(&next);
        }
        None => {}
    }
    Ok(())
}

/// Answers where a reference leads.
fn add_followed<F: Folders + Drop, A: Allocator + Copy>(
    references: &mut References<F, A>,
    name: &[u8],
    to: &mut Text<A>,
) -> Result<(), Error> {
    if let Some(reference) = references.follow(name)? {
        add_named(to, &reference.name, reference.id);
    }
    Ok(())
}

/// Answers which reference has a reflog, and what its newest entry says.
fn add_logged<F: Folders + Drop, A: Allocator + Copy>(
    references: &mut References<F, A>,
    name: &[u8],
    to: &mut Text<A>,
) -> Result<(), Error> {
    if let Some(logged) = references.short_logged(name)? {
        add_named(to, &logged.name, logged.reflog.nth(0).unwrap_or(logged.id));
    }
    Ok(())
}

/// Answers what a reflog says of a number.
fn add_nth<F: Folders + Drop, A: Allocator + Copy>(
    references: &mut References<F, A>,
    row: &Row,
    to: &mut Text<A>,
) -> Result<(), Error> {
    if let Some(reflog) = references.reflog(&row.name)? {
        if let Some(id) = reflog.nth(row.number) {
            to.add_id(id);
        }
    }
    Ok(())
}

/// Returns what a reflog says of a date.
fn dated<F: Folders + Drop, A: Allocator + Copy>(
    references: &mut References<F, A>,
    row: &Row,
) -> Result<Option<AtDate>, Error> {
    match references.reflog(&row.name)? {
        Some(reflog) => Ok(reflog.at(row.number as u64)),
        None => Ok(None),
    }
}

/// Answers which id a reference had at a date.
fn add_at<F: Folders + Drop, A: Allocator + Copy>(
    references: &mut References<F, A>,
    row: &Row,
    to: &mut Text<A>,
) -> Result<(), Error> {
    match dated(references, row)? {
        Some(AtDate::Id(id) | AtDate::Before(id, _)) => to.add_id(id),
        Some(AtDate::Now) => {
            if let Some(reference) = references.follow(&row.name)? {
                to.add_id(reference.id);
            }
        }
        None => {}
    }
    Ok(())
}

/// Answers what was checked out before.
fn add_before<F: Folders + Drop, A: Allocator + Copy>(
    references: &mut References<F, A>,
    row: &Row,
    to: &mut Text<A>,
) -> Result<(), Error> {
    if let Some(reflog) = references.reflog(&row.name)? {
        to.add(reflog.checked_out_before(row.number).unwrap_or(b""));
    }
    Ok(())
}

/// Answers which references there are.
fn add_all<F: Folders + Drop, A: Allocator + Copy>(
    references: &mut References<F, A>,
    name: &[u8],
    to: &mut Text<A>,
) -> Result<(), Error> {
    let list = references.all(name)?;
    add_listed(to, &list.references);
    add_skipped(to, &list.skipped);
    Ok(())
}

/// Answers what is checked out in linked worktrees.
fn add_heads<F: Folders + Drop, A: Allocator + Copy>(
    references: &mut References<F, A>,
    to: &mut Text<A>,
) -> Result<(), Error> {
    let heads = references.worktree_heads()?;
    for id in heads.iter() {
        to.add_id(*id);
    }
    Ok(())
}

/// Answers the question of a row.
fn add_answer<F: Folders + Drop, A: Allocator + Copy>(
    references: &mut References<F, A>,
    row: &Row,
    to: &mut Text<A>,
) -> Result<(), Error> {
    match row.ask {
        Ask::Short => add_short(references, &row.name, to),
        Ask::Find => add_said(references, &row.name, to),
        Ask::Follow => add_followed(references, &row.name, to),
        Ask::Strict => add_strict(references, &row.name, to),
        Ask::Loose => add_loose(references, &row.name, to),
        Ask::Nth => add_nth(references, row, to),
        Ask::At => add_at(references, row, to),
        Ask::Before => add_before(references, row, to),
        Ask::Logged => add_logged(references, &row.name, to),
        Ask::All => add_all(references, &row.name, to),
        Ask::Heads => add_heads(references, to),
    }
}

/// Returns the text for an error that an answer of the tables names.
fn error_text(error: Error) -> &'static str {
    match error {
        Error::Broken(_) => "broken",
        Error::TooDeep(_) => "too deep",
        Error::NotUtf8(_) => "not UTF-8",
        Error::Damaged(_) | Error::Unexpected(_) => "damaged",
        Error::Failed(..) | Error::OutOfMemory => "failed",
    }
}

/// Tests whether an answer is the one of a row.
fn is_of(answer: &[u8], row: &Row) -> Outcome {
    if answer == row.answer.as_slice() {
        Outcome::Right
    } else {
        Outcome::Wrong
    }
}

/// Compares an answer with that of a row.
fn outcome_of<A: Allocator>(came: Result<(), Error>, text: &Text<A>, row: &Row) -> Outcome {
    match (came, text.whole()) {
        (Ok(()), Some(answer)) => is_of(answer, row),
        (Ok(()), None) => Outcome::Failed,
        (Err(Error::Failed(_, ErrorKind::Other) | Error::OutOfMemory), _) => Outcome::Failed,
        (Err(error), _) => is_of(error_text(error).as_bytes(), row),
    }
}

/// Asks the question of a row, and compares the answer with git's.
pub(crate) fn asked<F: Folders + Drop, A: Allocator + Copy>(
    alloc: A,
    references: &mut References<F, A>,
    row: &Row,
) -> Outcome {
    let mut text = Text::new(alloc);
    let came = add_answer(references, row, &mut text);
    outcome_of(came, &text, row)
}
