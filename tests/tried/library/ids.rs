//! Ids and prefixes that are read, printed and compared.

use crate::shared::printed::prints;
use gix_revision::hash::{HexError, ObjectId, Prefix};
use std::alloc::{AllocError, Global};
use std::cmp::Ordering;
use std::test::Fail;

// The example of git-rev-parse, "Specifying Revisions".
const NAME: &str = "dae86e1950b1277e545cee180551750029cfe735";

const UPPER: &str = "DAE86E1950B1277E545CEE180551750029CFE735";

const FOURS: &str = "4444444444444444444444444444444444444444";

/// A text of digits, and the id that it names as it is printed, or why it names none.
static IDS: [(&str, Result<&str, HexError>); 10] = [
    (FOURS, Ok(FOURS)),
    (NAME, Ok(NAME)),
    (UPPER, Ok(NAME)),
    ("", Err(HexError::WrongLength)),
    (
        "444444444444444444444444444444444444444",
        Err(HexError::WrongLength),
    ),
    (
        "44444444444444444444444444444444444444444",
        Err(HexError::WrongLength),
    ),
    (
        "g4444444444444444444444444444444444444444",
        Err(HexError::WrongLength),
    ),
    (
        "444444444444444444444444444444444444444g",
        Err(HexError::NotHex),
    ),
    (
        "444444444444444444444444444444444444444G",
        Err(HexError::NotHex),
    ),
    (
        "444444444444444444444444444444444444444 ",
        Err(HexError::NotHex),
    ),
];

/// Tests whether a text is read as an id that prints so, or is refused so.
fn reads_id(alloc: Global, text: &str, want: Result<&str, HexError>) -> Result<bool, AllocError> {
    match (ObjectId::from_hex(text.as_bytes()), want) {
        (Ok(id), Ok(printed)) => prints(alloc, &id, printed),
        (found, want) => Ok(found.err() == want.err()),
    }
}

/// A text; the number of digits of its prefix, the printed prefix and its printed id; or the error.
static PREFIXES: [(&str, Result<(usize, &str, &str), HexError>); 10] = [
    (
        "dae8",
        Ok((4, "dae8", "dae8000000000000000000000000000000000000")),
    ),
    (
        "DAE86",
        Ok((5, "dae86", "dae8600000000000000000000000000000000000")),
    ),
    (
        "DAE86E1950B1277E545CEE180551750029CFE73",
        Ok((
            39,
            "dae86e1950b1277e545cee180551750029cfe73",
            "dae86e1950b1277e545cee180551750029cfe730",
        )),
    ),
    (NAME, Ok((40, NAME, NAME))),
    ("", Err(HexError::TooShort)),
    ("dae", Err(HexError::TooShort)),
    ("xyz", Err(HexError::TooShort)),
    ("daeg", Err(HexError::NotHex)),
    (
        "dae86e1950b1277e545cee180551750029cfe7350",
        Err(HexError::TooLong),
    ),
    (
        "xae86e1950b1277e545cee180551750029cfe7350",
        Err(HexError::TooLong),
    ),
];

/// Tests whether a prefix has this many digits, and it and its id print so.
fn is_prefix(
    alloc: Global,
    prefix: &Prefix,
    (len, printed, padded): (usize, &str, &str),
) -> Result<bool, AllocError> {
    Ok(
        prefix.hex_len() == len
            && prints(alloc, prefix, printed)?
            && prints(alloc, prefix.as_oid(), padded)?,
    )
}

/// Tests whether a text is read as a prefix that has this many digits and prints so, as does its
/// id, or is refused so.
fn reads_prefix(
    alloc: Global,
    text: &str,
    want: Result<(usize, &str, &str), HexError>,
) -> Result<bool, AllocError> {
    match (Prefix::from_hex(text.as_bytes()), want) {
        (Ok(prefix), Ok(want)) => is_prefix(alloc, &prefix, want),
        (found, want) => Ok(found.err() == want.err()),
    }
}

/// The texts of the errors.
static REFUSALS: [(HexError, &str); 4] = [
    (HexError::WrongLength, "WrongLength"),
    (HexError::NotHex, "NotHex"),
    (HexError::TooShort, "TooShort"),
    (HexError::TooLong, "TooLong"),
];

/// Returns the first text that is not read as the table of ids says.
fn first_misread_id(alloc: Global) -> Result<Option<&'static str>, AllocError> {
    for (text, want) in &IDS {
        if !reads_id(alloc, text, *want)? {
            return Ok(Some(*text));
        }
    }
    Ok(None)
}

/// Returns the first text that is not read as the table of prefixes says.
fn first_misread_prefix(alloc: Global) -> Result<Option<&'static str>, AllocError> {
    for (text, want) in &PREFIXES {
        if !reads_prefix(alloc, text, *want)? {
            return Ok(Some(*text));
        }
    }
    Ok(None)
}

/// Returns the first text that does not match its error.
fn first_misprinted(alloc: Global) -> Result<Option<&'static str>, AllocError> {
    for (refusal, text) in &REFUSALS {
        if !prints(alloc, refusal, text)? {
            return Ok(Some(*text));
        }
    }
    Ok(None)
}

/// Tests whether all texts are read, and all errors printed, as the tables say.
fn are_read(alloc: Global) -> Result<bool, AllocError> {
    Ok(
        first_misread_id(alloc)?.is_none()
            && first_misread_prefix(alloc)?.is_none()
            && first_misprinted(alloc)?.is_none(),
    )
}

#[test]
fn digits_are_read_and_printed(rt: HostRuntime) -> Result<(), Fail> {
    assert!(rt; are_read(rt.alloc())?);
    Ok(())
}

/// How many digits are asked for, how many are written, and what the room for them holds then.
static WRITTEN: [(usize, usize, &str); 5] = [
    (0, 0, "----------------------------------------"),
    (7, 7, "dae86e1---------------------------------"),
    (40, 40, NAME),
    (41, 40, NAME),
    (usize::MAX, 40, NAME),
];

/// A prefix, and its order against the id of the example.
static AGAINST_NAME: [(&str, Ordering); 4] = [
    ("dae86e1", Ordering::Equal),
    (UPPER, Ordering::Equal),
    ("dae86e0", Ordering::Less),
    ("dae9", Ordering::Greater),
];

/// Two prefixes, and their order.
static AMONG_PREFIXES: [(&str, &str, Ordering); 3] = [
    ("4444", "44440", Ordering::Less),
    ("44441", "4445", Ordering::Less),
    ("abcd", "ABCD", Ordering::Equal),
];

/// Tests whether this many digits of an id are written to the front of the room.
fn writes(id: &ObjectId, len: usize, count: usize, want: &str) -> bool {
    let mut out = [b'-'; 40];
    id.write_hex(len, &mut out) == count && out.as_slice() == want.as_bytes()
}

/// Tests whether a prefix has this order against an id.
fn meets(text: &str, id: &ObjectId, order: Ordering) -> bool {
    match Prefix::from_hex(text.as_bytes()) {
        Ok(prefix) => prefix.cmp_oid(id) == order,
        Err(_) => false,
    }
}

/// Tests whether two prefixes have this order.
fn compare(text: &str, other: &str, order: Ordering) -> bool {
    match (
        Prefix::from_hex(text.as_bytes()),
        Prefix::from_hex(other.as_bytes()),
    ) {
        (Ok(prefix), Ok(other)) => prefix.cmp(&other) == order,
        _ => false,
    }
}

/// Returns the first number of digits of an id that is not written so.
fn first_unwritten(id: &ObjectId) -> Option<usize> {
    for (len, count, want) in &WRITTEN {
        if !writes(id, *len, *count, want) {
            return Some(*len);
        }
    }
    None
}

/// Returns the first prefix that has another order against an id.
fn first_unmet(id: &ObjectId) -> Option<&'static str> {
    for (text, order) in &AGAINST_NAME {
        if !meets(text, id, *order) {
            return Some(*text);
        }
    }
    None
}

/// Returns the first of two prefixes that have another order.
fn first_uncompared() -> Option<&'static str> {
    for (text, other, order) in &AMONG_PREFIXES {
        if !compare(text, other, *order) {
            return Some(*text);
        }
    }
    None
}

/// Tests whether the id of the example has its bytes, is written and is compared.
fn is_written_and_compared() -> bool {
    match &ObjectId::from_hex(UPPER.as_bytes()) {
        Ok(id) => {
            id.as_bytes().first() == Some(&0xda)
                && id.as_bytes().last() == Some(&0x35)
                && first_unwritten(id).is_none()
                && first_unmet(id).is_none()
        }
        Err(_) => false,
    }
}

#[test]
fn ids_are_written_and_compared(rt: HostRuntime) {
    assert!(rt; is_written_and_compared());
    assert_eq!(rt; first_uncompared(), None);
}
