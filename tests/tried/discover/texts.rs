//! Reads the texts of the tables, and compares with git's answers.

use crate::discover::tables::ROWS;
use gix_config::{Entry, ParseError, boolean, entries, number};
use gix_discover::{grafts, shallow};
use std::alloc::{AllocError, Global};
use std::test::Fail;

/// Adds a setting as a line: its name, and `=` and its value, if it has one.
fn add_line(text: &mut Vec<u8>, entry: &Entry) -> Result<(), AllocError> {
    text.extend_from_slice(&entry.name)?;
    if let Some(value) = &entry.value {
        text.push(b'=')?;
        text.extend_from_slice(value)?;
    }
    text.push(b'\n')?;
    Ok(())
}

/// Returns all settings as lines.
fn lines(alloc: Global, list: &[Entry]) -> Result<Vec<u8>, AllocError> {
    let mut text = Vec::new(alloc);
    for entry in list {
        add_line(&mut text, entry)?;
    }
    Ok(text)
}

/// Tells whether a text is read as git reads it.
fn is_read(alloc: Global, text: &[u8], read: &[u8], bad: u64) -> Result<bool, AllocError> {
    match entries(alloc, text) {
        Ok(list) => Ok(bad == 0 && lines(alloc, &list)?.as_slice() == read),
        Err(ParseError::BadLine(line)) => Ok(line == bad),
        Err(ParseError::OutOfMemory) => Err(AllocError),
    }
}

/// Returns the number that a text is.
fn number_of(text: &[u8]) -> Option<u64> {
    str::from_utf8(text).ok()?.parse::<u64>().ok()
}

/// Tells whether the text of a row is read as git reads it.
fn is_row(alloc: Global, row: &[u8]) -> Result<bool, AllocError> {
    let mut parts = row.split(|byte| *byte == 0x1f);
    let (Some(text), Some(read), Some(bad)) = (parts.next(), parts.next(), parts.next()) else {
        return Ok(false);
    };
    match number_of(bad) {
        Some(bad) => is_read(alloc, text, read, bad),
        None => Ok(false),
    }
}

/// Counts the rows that are read as git reads them, from the first one on.
fn right_rows(alloc: Global) -> Result<usize, AllocError> {
    let mut count = 0usize;
    for row in ROWS.split(|byte| *byte == 0x1e) {
        if row.is_empty() || !is_row(alloc, row)? {
            break;
        }
        count = count.saturating_add(1);
    }
    Ok(count)
}

#[test]
fn reads_texts_as_git(rt: HostRuntime) -> Result<(), Fail> {
    let right = right_rows(rt.alloc())?;
    assert!(rt; right == 79);
    Ok(())
}

/// Is a value with git's answers to `--type=bool` and `--type=int`.
struct Scalar(&'static [u8], Option<bool>, Option<i64>);

/// Values, as git 2.39.5 reads them.
static SCALARS: [Scalar; 14] = [
    Scalar(b"TRUE", Some(true), None),
    Scalar(b"off", Some(false), None),
    Scalar(b"0", Some(false), Some(0)),
    Scalar(b"-1", Some(true), Some(-1)),
    Scalar(b"10k", Some(true), Some(10240)),
    Scalar(b"1G", Some(true), Some(1073741824)),
    Scalar(b"4g", None, Some(4294967296)),
    Scalar(b"0x10", Some(true), Some(16)),
    Scalar(b"010", Some(true), Some(8)),
    Scalar(b" 5", Some(true), Some(5)),
    Scalar(b"5 ", None, None),
    Scalar(b"08", None, None),
    Scalar(b"2147483648", None, Some(2147483648)),
    Scalar(b"9223372036854775808", None, None),
];

/// Tells whether all values are read as git reads them.
fn are_scalars() -> bool {
    for scalar in &SCALARS {
        if boolean(scalar.0) != scalar.1 || number(scalar.0) != scalar.2 {
            return false;
        }
    }
    true
}

#[test]
fn reads_numbers_as_git(rt: HostRuntime) -> Result<(), Fail> {
    assert!(rt; are_scalars());
    Ok(())
}

/// A line with two ids, an empty line, and a line that is no graft.
static GRAFTS: &[u8] = b"0123456789012345678901234567890123456789 \
abcdefabcdefabcdefabcdefabcdefabcdefabcd\n\n#x\nbad\n";

/// Returns how many parents the grafts of that text have.
fn parents(alloc: Global) -> Result<usize, AllocError> {
    let mut count = 0usize;
    for graft in &grafts(alloc, GRAFTS)? {
        count = count.saturating_add(graft.parents.len());
    }
    Ok(count)
}

#[test]
fn reads_small_files(rt: HostRuntime) -> Result<(), Fail> {
    let count = parents(rt.alloc())?;
    assert!(rt; count == 1);
    assert!(rt; shallow(rt.alloc(), GRAFTS).is_err());
    Ok(())
}
