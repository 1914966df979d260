//! Revisions whose parse ends because an allocation fails.

use crate::revtool::calls::{Turn, answers_of, tells, told_by, wanted};
use crate::revtool::delegate::Answers;
use crate::shared::histories::written_out;
use crate::shared::refusing::Refusing;
use std::alloc::{AllocError, Global};

// Tests whether a text has a backslash before a brace or a backslash.
fn has_escape(text: &[u8]) -> bool {
    text.windows(2)
        .any(|pair| pair[0] == b'\\' && b"{}\\".contains(&pair[1]))
}

// Tests whether a line is a beginning of the row's calls that ends because there is no memory.
fn is_cut_short(line: &[u8], want: &[u8]) -> bool {
    match line.strip_suffix(b"refused P0") {
        Some(calls) => (calls.is_empty() || calls.ends_with(b"; ")) && want.starts_with(calls),
        None => false,
    }
}

// Tests whether a parse ends early if an allocation fails, and the text then has the result of its
// row. Returns `None` if there is no such allocation and the text has the result of its row.
fn is_cut(
    alloc: Global,
    answers: Answers,
    text: &[u8],
    want: &[u8],
    before: u64,
) -> Result<Option<bool>, AllocError> {
    let refusing = Refusing::new(alloc, before);
    let is_short = is_cut_short(&told_by(alloc, &refusing, answers, text)?, want);
    let has_refused = refusing.has_refused();
    let is_told = tells(alloc, alloc, answers, text, want)?;
    Ok(if has_refused || !is_told {
        Some(is_short && is_told)
    } else {
        None
    })
}

// Tests whether a text survives each failed allocation, and allocates exactly if it has an escape.
fn survives_refusals(
    alloc: Global,
    text: &[u8],
    answers: Answers,
    want: &[u8],
) -> Result<bool, AllocError> {
    for before in 0..100u64 {
        match is_cut(alloc, answers, text, want, before)? {
            Some(true) => {}
            Some(false) => return Ok(false),
            None => return Ok(before == 0 || has_escape(text)),
        }
    }
    Ok(false)
}

// Tests it for the text of a row.
fn survives(alloc: Global, row: &str) -> Result<bool, AllocError> {
    let (text, calls) = row.split_once(" => ").unwrap_or((row, ""));
    let text = written_out(alloc, text)?;
    let want = wanted(alloc, calls, Turn::Never)?;
    survives_refusals(alloc, &text, answers_of(calls, Turn::Never), &want)
}

/// Returns the first row whose text does not survive each failed allocation.
pub fn first_lost(alloc: Global, rows: &'static str) -> Result<Option<&'static str>, AllocError> {
    for row in rows.lines() {
        if !survives(alloc, row)? {
            return Ok(Some(row));
        }
    }
    Ok(None)
}
