//! Compares the calls that revisions make of a delegate with rows. Each call of a row is refused in
//! turn, and runs out of memory in turn.
//!
//! A row is a text and the calls that it makes, as `revtool` prints them. Each call has the fault
//! that its refusal leads to:
//!
//! ```text
//! main^-2 => find_ref(main) or P12 (main^-2); parent(2) or P24 (-2); ...
//! ```
//!
//! - In round brackets after a fault is the part of the text that it names, if it names one.
//! - A last fault without a call is one of the text itself.
//! - A call after an exclamation mark is refused in this row.
//! - A call with `next` in place of a fault is refused in another row of the same text, because
//!   something else is tried then.
//! - `[x]` is forty digits x, and a number sign is the byte 255.

use crate::revtool::delegate::{Answers, Told};
use crate::shared::histories::written_out;
use gix_base::date::Time;
use gix_base::error::Exn;
use gix_spec::spec::parse::{Error, parse};
use std::alloc::{AllocError, Allocator, Global};

const NOW: Time = Time {
    seconds: 0,
    offset: 0,
};

/// A part of a row.
#[derive(Clone, Copy)]
enum Step<'t> {
    /// A call, and the fault if it is refused.
    Accepted(&'t str, &'t str),
    /// A call that is refused.
    Refused(&'t str),
    /// A fault of the text itself.
    Fault(&'t str),
}

fn step_of(part: &str) -> Step<'_> {
    match (part.strip_prefix("!"), part.split_once(" or ")) {
        (Some(call), _) => Step::Refused(call),
        (None, Some((call, fault))) => Step::Accepted(call, fault),
        (None, None) => Step::Fault(part),
    }
}

/// Which call of a row is not accepted, as well as those that the row marks.
#[derive(Clone, Copy, PartialEq)]
pub enum Turn {
    Never,
    Refuses(usize),
    WantsMemory(usize),
}

// Returns the answers of the delegate to the calls of a row.
pub fn answers_of(calls: &str, turn: Turn) -> Answers {
    let mut answers = Answers::ACCEPTED;
    for (i, part) in calls.split("; ").enumerate() {
        let number = i.saturating_add(1);
        if part.starts_with('!') || turn == Turn::Refuses(number) {
            answers.refuse(number);
        }
    }
    if let Turn::WantsMemory(number) = turn {
        answers.wanting = number;
    }
    answers
}

// Adds a call, after a semicolon and a space if it is not the first.
fn add_call(alloc: Global, call: &str, line: &mut Vec<u8>) -> Result<(), AllocError> {
    if !line.is_empty() {
        line.extend_from_slice(b"; ")?;
    }
    line.extend_from_slice(&written_out(alloc, call)?)
}

// Adds the fault of a refused call: what the delegate said at the calls from the first to the last.
fn add_fault(
    alloc: Global,
    fault: &str,
    (first, last): (usize, usize),
    line: &mut Vec<u8>,
) -> Result<(), AllocError> {
    line.extend_from_slice(b"; refused ")?;
    line.extend_from_slice(&written_out(alloc, fault)?)?;
    for number in first..last.saturating_add(1) {
        line.extend_from_slice(format!(in alloc; " by call {number}")?.as_bytes())?;
    }
    Ok(())
}

/// Adds the calls of a row and how it ends, in the form of `told_by`. After a fault comes what the
/// delegate said at the refused calls in a row up to it.
fn add_wanted(
    alloc: Global,
    calls: &str,
    turn: Turn,
    line: &mut Vec<u8>,
) -> Result<(), AllocError> {
    let mut refused: usize = 0;
    for (i, part) in calls.split("; ").enumerate() {
        let number = i.saturating_add(1);
        let (call, fault, is_refused) = match step_of(part) {
            Step::Accepted(call, fault) => (call, fault, false),
            Step::Refused(call) => (call, "", true),
            Step::Fault(fault) => (fault, "", false),
        };
        add_call(alloc, call, line)?;
        if turn == Turn::Refuses(number) {
            return add_fault(alloc, fault, (number.saturating_sub(refused), number), line);
        }
        if turn == Turn::WantsMemory(number) {
            return line.extend_from_slice(b"; refused P0");
        }
        refused = if is_refused {
            refused.saturating_add(1)
        } else {
            0
        };
    }
    Ok(())
}

pub fn wanted(alloc: Global, calls: &str, turn: Turn) -> Result<Vec<u8>, AllocError> {
    let mut line = Vec::new(alloc);
    add_wanted(alloc, calls, turn, &mut line)?;
    Ok(line)
}

// Adds what the delegate said, if it refused.
fn add_refusal(refusal: &Option<Exn>, line: &mut Vec<u8>) -> Result<(), AllocError> {
    if let Some(refusal) = refusal {
        line.extend_from_slice(b" by ")?;
        line.extend_from_slice(refusal.message.as_str().as_bytes())?;
    }
    Ok(())
}

fn add_error(alloc: Global, error: &Error<'_>, line: &mut Vec<u8>) -> Result<(), AllocError> {
    if !line.is_empty() {
        line.extend_from_slice(b"; ")?;
    }
    let Error::Refused {
        fault,
        input,
        first,
        second,
    } = error
    else {
        return line.extend_from_slice(b"refused P0");
    };
    let number = fault.number();
    line.extend_from_slice(format!(in alloc; "refused P{number}")?.as_bytes())?;
    if let Some(input) = input {
        line.extend_from_slice(b" (")?;
        line.extend_from_slice(input)?;
        line.extend_from_slice(b")")?;
    }
    add_refusal(first, line)?;
    add_refusal(second, line)
}

// Adds the calls that were made, and the fault.
fn add_answer(
    alloc: Global,
    calls: &[u8],
    answer: &Result<(), Error<'_>>,
    line: &mut Vec<u8>,
) -> Result<(), AllocError> {
    line.extend_from_slice(calls)?;
    match answer {
        Ok(()) => Ok(()),
        Err(error) => add_error(alloc, error, line),
    }
}

// Adds the calls that a text makes, and its fault.
fn add_told<A: Allocator + Copy>(
    to: Global,
    alloc: A,
    answers: Answers,
    text: &[u8],
    line: &mut Vec<u8>,
) -> Result<(), AllocError> {
    let mut told = Told::new(to, answers);
    let answer = parse(alloc, text, NOW, &mut told);
    add_answer(to, told.calls(), &answer, line)
}

/// Returns the calls that a text makes of a delegate with these answers, and its fault with what
/// the delegate said. The parse allocates in `alloc`.
pub fn told_by<A: Allocator + Copy>(
    to: Global,
    alloc: A,
    answers: Answers,
    text: &[u8],
) -> Result<Vec<u8>, AllocError> {
    let mut line = Vec::new(to);
    add_told(to, alloc, answers, text, &mut line)?;
    Ok(line)
}

// Tests whether a text has the expected calls and fault.
pub fn tells<A: Allocator + Copy>(
    to: Global,
    alloc: A,
    answers: Answers,
    text: &[u8],
    want: &[u8],
) -> Result<bool, AllocError> {
    Ok(told_by(to, alloc, answers, text)?.as_slice() == want)
}

/// Tests whether a text makes these calls if all are accepted, and ends in this fault, if any.
pub fn makes(alloc: Global, text: &[u8], want: &[u8]) -> Result<bool, AllocError> {
    tells(alloc, alloc, Answers::ACCEPTED, text, want)
}

/// Returns how many calls a text makes if all are accepted.
pub fn count(alloc: Global, text: &[u8]) -> usize {
    let mut told = Told::new(alloc, Answers::ACCEPTED);
    let _ = parse(alloc, text, NOW, &mut told);
    told.count()
}

// Tests whether a row has its result if one more of its calls is not accepted.
fn comes(alloc: Global, text: &[u8], calls: &str, turn: Turn) -> Result<bool, AllocError> {
    let want = wanted(alloc, calls, turn)?;
    tells(alloc, alloc, answers_of(calls, turn), text, &want)
}

// Tests whether a part of a row has its result if its call is refused, and if it runs out of
// memory.
fn part_stands(
    alloc: Global,
    text: &[u8],
    calls: &str,
    (number, part): (usize, &str),
) -> Result<bool, AllocError> {
    match step_of(part) {
        Step::Accepted(_, fault) => Ok(
            (fault == "next" || comes(alloc, text, calls, Turn::Refuses(number))?)
                && comes(alloc, text, calls, Turn::WantsMemory(number))?,
        ),
        Step::Refused(_) => Ok(true),
        Step::Fault(fault) => Ok(fault.starts_with("refused ")),
    }
}

// Tests whether a text makes these calls, also if any one of them is refused or runs out of memory.
fn parts_stand(alloc: Global, text: &[u8], calls: &str) -> Result<bool, AllocError> {
    for (i, part) in calls.split("; ").enumerate() {
        if !part_stands(alloc, text, calls, (i.saturating_add(1), part))? {
            return Ok(false);
        }
    }
    comes(alloc, text, calls, Turn::Never)
}

// Tests it for the text of a row.
fn stands(alloc: Global, row: &str) -> Result<bool, AllocError> {
    match row.split_once(" => ") {
        Some((text, calls)) => parts_stand(alloc, &written_out(alloc, text)?, calls),
        None => Ok(false),
    }
}

/// Returns the first row whose calls differ.
pub fn first_wrong(alloc: Global, rows: &'static str) -> Result<Option<&'static str>, AllocError> {
    for row in rows.lines() {
        if !stands(alloc, row)? {
            return Ok(Some(row));
        }
    }
    Ok(None)
}
