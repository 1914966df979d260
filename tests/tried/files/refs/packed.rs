//! Reads files `packed-refs`: such as git writes, damaged ones, and ones with many names.

use super::answers::asked;
use super::packed_rows::{DAMAGED, DANGEROUS, PACKED, WHOLE};
use super::questions::{Ask, row_of};
use crate::files::failures::Outcome;
use crate::files::files::written_out;
use gix_files::{Memory, One};
use gix_ref::{Error, References};
use std::alloc::{AllocError, Global};
use std::test::Fail;

/// Returns a folder with only a file `packed-refs`.
fn only_packed(bytes: &[u8]) -> One<'_> {
    One {
        name: b"/packed-refs",
        file: Memory {
            bytes,
            most: usize::MAX,
        },
    }
}

/// Returns whether `refs/heads/a` is found in a file; `None` if the file counts as damaged.
fn found_in(alloc: Global, bytes: &[u8]) -> Option<bool> {
    let Ok(mut references) = References::open(alloc, only_packed(bytes), b"r", b"r") else {
        return Some(false);
    };
    match references.find(b"refs/heads/a") {
        Ok(found) => Some(found.is_some()),
        Err(Error::Damaged(_) | Error::Unexpected(_)) => None,
        Err(_) => Some(false),
    }
}

/// Tests whether the references of a file with a prefix are not listed, since the file counts as
/// damaged.
fn is_unlisted(alloc: Global, bytes: &[u8], prefix: &[u8]) -> bool {
    match References::open(alloc, only_packed(bytes), b"r", b"r") {
        Ok(mut references) => matches!(references.all(prefix), Err(Error::Damaged(_) | Error::Unexpected(_))),
        Err(_) => false,
    }
}

/// Tests whether no references of a file are listed, also if the name that is the reason has not
/// the prefix.
fn is_never_listed(alloc: Global, bytes: &[u8]) -> bool {
    is_unlisted(alloc, bytes, b"") && is_unlisted(alloc, bytes, b"refs/tags/")
}

/// What git says of a file.
#[derive(Clone, Copy)]
enum Kind {
    Damaged,
    /// It finds `refs/heads/a`.
    Whole,
    /// It finds `refs/heads/a`, and lists no reference.
    Dangerous,
}

/// Tests whether a file is of a kind.
fn is_of(alloc: Global, bytes: &[u8], kind: Kind) -> bool {
    match kind {
        Kind::Damaged => found_in(alloc, bytes).is_none(),
        Kind::Whole => found_in(alloc, bytes) == Some(true),
        Kind::Dangerous => found_in(alloc, bytes) == Some(true) && is_never_listed(alloc, bytes),
    }
}

/// Tests whether the file of a row is of a kind.
fn row_is_of(alloc: Global, row: &str, kind: Kind) -> Result<bool, AllocError> {
    match row.split_once(" => ") {
        Some((_, file)) => Ok(is_of(alloc, &written_out(alloc, file)?, kind)),
        None => Ok(false),
    }
}

/// Returns the first row whose file is of another kind.
fn first_other(
    alloc: Global,
    rows: &'static str,
    kind: Kind,
) -> Result<Option<&'static str>, AllocError> {
    for row in rows.lines() {
        if !row_is_of(alloc, row, kind)? {
            return Ok(Some(row));
        }
    }
    Ok(None)
}

type OfPacked<'a> = References<One<'a>, Global>;

/// Tests whether a file says of a name what a row says.
fn is_right(alloc: Global, references: &mut OfPacked<'_>, ask: Ask, row: &str) -> bool {
    match &row_of(alloc, ask, row) {
        Some(row) => asked(alloc, references, row) == Outcome::Right,
        None => false,
    }
}

/// Returns the first row of which a file says something else.
fn first_wrong_of(
    alloc: Global,
    references: &mut OfPacked<'_>,
    ask: Ask,
    rows: &'static str,
) -> Option<&'static str> {
    for row in rows.lines() {
        if !is_right(alloc, references, ask, row) {
            return Some(row);
        }
    }
    None
}

/// Returns the first row of which a file says something else, or the file if it is not opened.
fn first_wrong_in(
    alloc: Global,
    (file, ask, rows): (&'static str, Ask, &'static str),
) -> Result<Option<&'static str>, AllocError> {
    let bytes = written_out(alloc, file)?;
    match &mut References::open(alloc, only_packed(&bytes), b"r", b"r") {
        Ok(references) => Ok(first_wrong_of(alloc, references, ask, rows)),
        Err(_) => Ok(Some(file)),
    }
}

/// Returns the first row of all files with another answer than git's.
fn first_wrong(alloc: Global) -> Result<Option<&'static str>, AllocError> {
    for table in &PACKED {
        let wrong = first_wrong_in(alloc, *table)?;
        if wrong.is_some() {
            return Ok(wrong);
        }
    }
    Ok(None)
}

/// The numbers of a file with sorted names are less than this one.
const MANY: u32 = 2000;

/// The numbers of a file with names that fall are less than this one.
const FEW: u32 = 200;

/// Returns the line of a number, and after each third one a line `^ID`. The digits of an id are
/// those of the number.
fn line_of(alloc: Global, number: u32) -> Result<String, AllocError> {
    let peeled = MANY.saturating_sub(number);
    Ok(if number % 3 == 0 {
        format!(in alloc; "{number:040} refs/heads/n{number:04}\n^{peeled:040}\n")?
    } else {
        format!(in alloc; "{number:040} refs/heads/n{number:04}\n")?
    })
}

/// Returns the row of a number in a file with the even numbers.
fn row_of_number(alloc: Global, number: u32) -> Result<String, AllocError> {
    let peeled = MANY.saturating_sub(number);
    Ok(if number % 2 == 1 {
        format!(in alloc; "refs/heads/n{number:04} => nothing")?
    } else if number % 3 == 0 {
        format!(in alloc; "refs/heads/n{number:04} => {number:040} {peeled:040}")?
    } else {
        format!(in alloc; "refs/heads/n{number:04} => {number:040}")?
    })
}

/// Returns a file with the even numbers before `end`. They fall if it has no header.
fn file_of_numbers(alloc: Global, header: &str, end: u32) -> Result<Vec<u8>, AllocError> {
    let mut bytes = header.as_bytes().to_vec(alloc)?;
    for i in 0..end {
        let number = if header.is_empty() {
            end.saturating_sub(i).saturating_sub(1)
        } else {
            i
        };
        if number % 2 == 0 {
            bytes.extend_from_slice(line_of(alloc, number)?.as_bytes())?;
        }
    }
    Ok(bytes)
}

/// Returns the first number before `end` of which a file with the even numbers does not say what it
/// should; `end` if there is none.
fn first_wrong_number(
    alloc: Global,
    references: &mut OfPacked<'_>,
    end: u32,
) -> Result<u32, AllocError> {
    for number in 0..end {
        if !is_right(alloc, references, Ask::Find, &row_of_number(alloc, number)?) {
            return Ok(number);
        }
    }
    Ok(end)
}

/// Returns the first such number of a file with the even numbers before `end`; `None` if it is not
/// opened.
fn first_wrong_before(alloc: Global, header: &str, end: u32) -> Result<Option<u32>, AllocError> {
    let bytes = file_of_numbers(alloc, header, end)?;
    match &mut References::open(alloc, only_packed(&bytes), b"r", b"r") {
        Ok(references) => Ok(Some(first_wrong_number(alloc, references, end)?)),
        Err(_) => Ok(None),
    }
}

#[test]
fn refuses_damaged_files(rt: HostRuntime) -> Result<(), Fail> {
    assert_eq!(rt; first_other(rt.alloc(), DAMAGED, Kind::Damaged)?, None);
    Ok(())
}

#[test]
fn finds_in_whole_files(rt: HostRuntime) -> Result<(), Fail> {
    assert_eq!(rt; first_other(rt.alloc(), WHOLE, Kind::Whole)?, None);
    Ok(())
}

#[test]
fn lists_no_dangerous_names(rt: HostRuntime) -> Result<(), Fail> {
    assert_eq!(rt; first_other(rt.alloc(), DANGEROUS, Kind::Dangerous)?, None);
    Ok(())
}

#[test]
fn finds_each_name(rt: HostRuntime) -> Result<(), Fail> {
    assert_eq!(rt; first_wrong(rt.alloc())?, None);
    Ok(())
}

#[test]
fn finds_many_sorted_names(rt: HostRuntime) -> Result<(), Fail> {
    let header = "# pack-refs with: peeled fully-peeled sorted \n";
    assert_eq!(rt; first_wrong_before(rt.alloc(), header, MANY)?, Some(MANY));
    Ok(())
}

#[test]
fn finds_many_names_that_fall(rt: HostRuntime) -> Result<(), Fail> {
    assert_eq!(rt; first_wrong_before(rt.alloc(), "", FEW)?, Some(FEW));
    Ok(())
}
