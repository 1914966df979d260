//! Descriptions as text and as bytes, as git-describe prints them (`--long`, `--abbrev`,
//! `--dirty`), and copies.

use super::cases::{FIRST_PARENT, Want, names_of, options_of, says};
use crate::shared::histories::id;
use crate::shared::printed::prints;
use gix_base::hash::ObjectId;
use gix_revision::Seed;
use gix_revision::describe::{Format, Names, Options, Outcome};
use std::alloc::{AllocError, Global};
use std::borrow::CowSlice;
use std::collections::HashMap;
use std::test::Fail;

/// The name, the depth, whether the long form is chosen, the number of digits and the suffix; the
/// text, and the bytes that are written.
#[derive(Clone, Copy)]
struct Printed(
    Option<&'static [u8]>,
    u32,
    bool,
    usize,
    Option<&'static str>,
    &'static str,
    &'static [u8],
);

static PRINTED: [Printed; 9] = [
    Printed(
        Some(b"v1"),
        0,
        false,
        7,
        Some("dirty"),
        "v1-dirty",
        b"v1-dirty",
    ),
    Printed(
        Some(b"v1"),
        0,
        true,
        7,
        Some("dirty"),
        "v1-0-g0123456-dirty",
        b"v1-0-g0123456-dirty",
    ),
    Printed(
        Some(b"v1"),
        2,
        false,
        7,
        None,
        "v1-2-g0123456",
        b"v1-2-g0123456",
    ),
    Printed(Some(b"v1"), 2, false, 0, None, "v1-2-g", b"v1-2-g"),
    Printed(
        Some(b"v1"),
        2,
        false,
        99,
        None,
        "v1-2-g0123456789abcdeffedcba987654321076543210",
        b"v1-2-g0123456789abcdeffedcba987654321076543210",
    ),
    Printed(None, 0, false, 7, None, "0123456", b"0123456"),
    Printed(
        None,
        0,
        false,
        7,
        Some("dirty"),
        "0123456-dirty",
        b"0123456-dirty",
    ),
    // Names that are not UTF-8.
    Printed(Some(b"v\xff"), 0, false, 7, None, "v\u{fffd}", b"v\xff"),
    Printed(
        Some(b"caf\xe9"),
        2,
        false,
        7,
        None,
        "caf\u{fffd}-2-g0123456",
        b"caf\xe9-2-g0123456",
    ),
];

const DIGITS: &str = "0123456789abcdeffedcba987654321076543210";

/// Makes the format of a description by a name or by digits.
fn format_of(alloc: Global, id: ObjectId, row: &Printed) -> Result<Format<'static>, AllocError> {
    let Printed(name, depth, long, hex_len, suffix, _, _) = *row;
    let outcome = Outcome {
        name: name.map(|name| CowSlice::Borrowed(name)),
        id,
        depth,
        name_by_oid: HashMap::with_hasher(alloc, Seed::default()),
        commits_seen: 3,
    };
    let mut format = outcome.into_format(hex_len);
    format.long(long);
    if let Some(suffix) = suffix {
        format.dirty_suffix = Some(format!(in alloc; "{suffix}")?);
    }
    Ok(format)
}

/// Tests whether a format writes these bytes.
fn writes(alloc: Global, format: &Format<'static>, bytes: &[u8]) -> bool {
    let mut written = Vec::new(alloc);
    format.write_to(&mut written).is_ok() && written.as_slice() == bytes
}

/// Tests whether a copy of a format is equal.
fn is_copied(format: &Format<'static>) -> bool {
    match &format.clone() {
        Ok(copy) => *copy == *format,
        Err(_) => false,
    }
}

/// Tests whether a format is printed and written as its row says, and its copy is equal.
fn is_of(alloc: Global, format: &Format<'static>, row: &Printed) -> Result<bool, AllocError> {
    Ok(writes(alloc, format, row.6) && is_copied(format) && prints(alloc, format, row.5)?)
}

fn is_printed(alloc: Global, row: &Printed) -> Result<bool, AllocError> {
    match ObjectId::from_hex(DIGITS.as_bytes()) {
        Ok(id) => is_of(alloc, &format_of(alloc, id, row)?, row),
        Err(_) => Ok(false),
    }
}

/// Returns the text of the first row that is printed or written otherwise.
fn first_miswritten(alloc: Global) -> Result<Option<&'static str>, AllocError> {
    for row in &PRINTED {
        if !is_printed(alloc, row)? {
            return Ok(Some(row.5));
        }
    }
    Ok(None)
}

/// Tests whether a copy of options has all of their fields.
fn are_options_copied(options: &Options<'static>) -> bool {
    match &options.clone() {
        Ok(copy) => {
            copy.max_candidates == options.max_candidates
                && copy.fallback_to_oid == options.fallback_to_oid
                && copy.first_parent == options.first_parent
                && copy.name_by_oid == options.name_by_oid
        }
        Err(_) => false,
    }
}

/// Tests whether a copy of an outcome, v1 two commits before [3], has all of its fields.
fn is_outcome_copied(outcome: &Outcome<'static>) -> bool {
    match &outcome.clone() {
        Ok(copy) => {
            says(copy, 3, Want::Named("v1", 2, 3, 3, &[]))
                && copy.name_by_oid == outcome.name_by_oid
        }
        Err(_) => false,
    }
}

fn outcome_of(name_by_oid: Names<'static>) -> Outcome<'static> {
    Outcome {
        name: Some(CowSlice::Borrowed(b"v1")),
        id: id(3),
        depth: 2,
        name_by_oid,
        commits_seen: 3,
    }
}

fn are_copied(alloc: Global) -> Result<bool, AllocError> {
    let are_options = are_options_copied(&options_of(alloc, &[(1, "v1")], FIRST_PARENT)?);
    let outcome = outcome_of(names_of(alloc, &[(1, "v1")])?);
    Ok(are_options && is_outcome_copied(&outcome))
}

#[test]
fn descriptions_are_printed_and_copied(rt: HostRuntime) -> Result<(), Fail> {
    assert_eq!(rt; first_miswritten(rt.alloc())?, None);
    assert!(rt; are_copied(rt.alloc())?);
    Ok(())
}
