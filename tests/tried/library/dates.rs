//! Reads texts that are dates, and texts that are not.

use crate::shared::printed::prints;
use gix_revision::date::{DateError, Time, parse};
use std::alloc::{AllocError, Global};
use std::test::Fail;

const RANGE: Result<(i64, i32), DateError> = Err(DateError::OutOfRange);

const NONE: Result<(i64, i32), DateError> = Err(DateError::NotADate);

/// A text; the seconds and the offset of the moment at which it is read; and those of its date.
static ROWS: [(&str, (i64, i32), Result<(i64, i32), DateError>); 84] = [
    // The worked rows.
    ("1234567890 +0200", (77, 0), Ok((1234567890, 7200))),
    ("1979-02-26", (77, 0), Ok((288835200, 0))),
    ("1979-02-26T18:30:00Z", (77, 60), Ok((288901800, 0))),
    ("1979-02-26 18:30:00 +0100", (77, 0), Ok((288898200, 3600))),
    ("1979-02-26 18:30:00", (77, 3600), Ok((288898200, 3600))),
    ("1979-02-26 18:30:00", (0, 0), Ok((288901800, 0))),
    ("yesterday", (1000000, 0), Ok((913600, 0))),
    ("1 month ago", (1617192000, 0), Ok((1614513600, 0))),
    ("2.weeks.ago", (2000000, 0), Ok((790400, 0))),
    ("1 day 1 hour ago", (1000000, 0), Ok((910000, 0))),
    (
        "Thu, 18 Aug 2022 12:45:06 +0800",
        (0, 0),
        Ok((1660797906, 28800)),
    ),
    ("2021-02-29", (77, 0), RANGE),
    ("2021-01-01 00:00:00 +2400", (77, 0), RANGE),
    ("noon", (77, 0), NONE),
    ("", (77, 0), NONE),
    // Seconds and an offset, up to both ends of an `i64`.
    ("9223372036854775807 +2359", (0, 0), Ok((i64::MAX, 86340))),
    ("9223372036854775808 +0000", (0, 0), RANGE),
    ("-9223372036854775808 -2359", (0, 0), Ok((i64::MIN, -86340))),
    ("-9223372036854775809 +0000", (0, 0), RANGE),
    ("18446744073709551616 +0000", (0, 0), RANGE),
    ("00000000000000000000000000001 -0000", (0, 9), Ok((1, 0))),
    ("-0 +0001", (0, 0), Ok((0, 60))),
    ("0 +2400", (0, 0), RANGE),
    ("0 +2360", (0, 0), RANGE),
    ("0 +2559", (0, 0), RANGE),
    ("+1 +0000", (0, 0), NONE),
    ("1  +0000", (0, 0), NONE),
    ("1 +00:00", (0, 0), NONE),
    ("1", (0, 0), NONE),
    // Days, and times of a day.
    ("0000-01-01", (0, 0), Ok((-62167219200, 0))),
    ("-9999-01-01", (0, 0), NONE),
    ("10000-01-01", (0, 0), NONE),
    (
        "9999-12-31T23:59:59-2359",
        (0, 0),
        Ok((253402387139, -86340)),
    ),
    ("2024-02-29", (0, 0), Ok((1709164800, 0))),
    ("2000-02-29", (0, 0), Ok((951782400, 0))),
    ("1900-02-29", (0, 0), RANGE),
    ("2021-04-31", (0, 0), RANGE),
    ("2021-00-01", (0, 0), RANGE),
    ("2021-13-01", (0, 0), RANGE),
    ("2021-01-00", (0, 0), RANGE),
    ("2016-12-31T23:59:60Z", (0, 0), RANGE),
    ("2016-12-31T23:60:00Z", (0, 0), RANGE),
    ("2016-12-31T24:00:00Z", (0, 0), RANGE),
    (
        "2016-12-31 00:00:00 -01:30",
        (0, 0),
        Ok((1483147800, -5400)),
    ),
    ("2016-12-31 00:00:00+01:30", (0, 0), Ok((1483137000, 5400))),
    ("2016-12-31 00:00:00  +0130", (0, 0), NONE),
    ("2016-12-31 00:00:00 Z", (0, 0), NONE),
    ("2016-12-31 00:00:00z", (0, 0), NONE),
    ("2016-12-31t00:00:00Z", (0, 0), NONE),
    ("2016-12-31 00:00:00.5", (0, 0), NONE),
    (" 2016-12-31", (0, 0), NONE),
    // RFC 2822, as `jiff` reads it.
    ("1 Jan 1970 00:00 +2559", (0, 0), Ok((-93540, 93540))),
    ("32 Jan 1970 00:00 GMT", (0, 0), NONE),
    ("31 Dec 2016 23:59:60 +0000", (0, 0), Ok((1483228799, 0))),
    ("Fri, 18 Aug 2022 12:45:06 +0800", (0, 0), NONE),
    ("1 Jan 70 00:00 abc", (0, 7), Ok((0, 0))),
    // Words.
    ("NoW", (i64::MIN, i32::MIN), Ok((i64::MIN, i32::MIN))),
    ("YESTERDAY", (86400, -3600), Ok((0, -3600))),
    ("yesterday", (i64::MIN + 86399, 0), RANGE),
    ("now ", (0, 0), NONE),
    // Units counted back.
    ("1 . .day...ago", (1000000, 0), Ok((913600, 0))),
    ("1 DAYS aGo", (1000000, 0), Ok((913600, 0))),
    ("ago", (0, 0), NONE),
    (" 1 day ago", (0, 0), NONE),
    ("1 day ago.", (0, 0), NONE),
    ("1day ago", (0, 0), NONE),
    ("-1 day ago", (0, 0), NONE),
    ("1 dayss ago", (0, 0), NONE),
    ("1 day 2 ago", (0, 0), NONE),
    (
        "9223372036854775807 seconds ago",
        (-1, 3),
        Ok((i64::MIN, 3)),
    ),
    ("9223372036854775807 seconds ago", (-2, 3), RANGE),
    (
        "9223372036854775807 seconds 1 second ago",
        (i64::MAX, 0),
        RANGE,
    ),
    ("99999999999999999999 days fortnight ago", (0, 0), NONE),
    ("99999999999999999999 days 1 day ago", (0, 0), RANGE),
    // Months and years: the 31st of March, the 29th of February, the ends of the calendar.
    ("1 month ago", (1711924200, 3600), Ok((1709245800, 3600))),
    ("13 months ago", (1711924200, 3600), Ok((1677623400, 3600))),
    ("1 year ago", (1709208000, 0), Ok((1677585600, 0))),
    ("4 years ago", (1709208000, 0), Ok((1582977600, 0))),
    ("0 months ago", (i64::MAX, 7), Ok((i64::MAX, 7))),
    ("1 month ago", (i64::MAX, 1), RANGE),
    ("1 month ago", (i64::MIN, -1), RANGE),
    ("1 month ago", (253402300800, -1), Ok((253399622400, -1))),
    ("1 month ago", (253402300800, 0), RANGE),
    ("2 months ago", (-377702438400, 0), RANGE),
];

// Tests whether a text has this date at a moment.
fn means(text: &[u8], now: (i64, i32), want: Result<(i64, i32), DateError>) -> bool {
    let now = Time {
        seconds: now.0,
        offset: now.1,
    };
    match (parse(text, now), want) {
        (Ok(time), Ok((seconds, offset))) => time.seconds == seconds && time.offset == offset,
        (Err(error), Err(wanted)) => error == wanted,
        _ => false,
    }
}

/// Returns the first text of a table that has another date.
fn first_misread() -> Option<&'static str> {
    for (text, now, want) in &ROWS {
        if !means(text.as_bytes(), *now, *want) {
            return Some(*text);
        }
    }
    None
}

#[test]
fn dates_mean_their_times(rt: HostRuntime) {
    assert_eq!(rt; first_misread(), None);
}

/// Tests whether a text has this date. A part is repeated before another one, and the moment is a
/// minute east of Greenwich.
fn repeated_means(
    alloc: Global,
    (text, count, rest): (&[u8], usize, &[u8]),
    want: Result<(i64, i32), DateError>,
) -> Result<bool, AllocError> {
    let mut long = text.repeat(alloc, count)?;
    long.extend_from_slice(rest)?;
    Ok(means(&long, (0, 60), want))
}

/// A repeated part, how often it is repeated, and the part after it; and the date of the text.
static LONG: [(&[u8], usize, &[u8], Result<(i64, i32), DateError>); 6] = [
    (b"\xff", 1, b"", NONE),
    (b"1 Jan 1970 00:00 GMT (\xff)", 1, b"", NONE),
    (b"7", 100_000, b"", NONE),
    (b"7", 100_000, b" +0000", RANGE),
    (b"1 day ", 20_000, b"", NONE),
    (b"1 day ", 20_000, b"ago", Ok((-1_728_000_000, 60))),
];

/// Returns the index of the first of these texts that has another date.
fn first_long_misread(alloc: Global) -> Result<Option<usize>, AllocError> {
    for (i, (text, count, rest, want)) in LONG.iter().enumerate() {
        if !repeated_means(alloc, (text, *count, rest), *want)? {
            return Ok(Some(i));
        }
    }
    Ok(None)
}

/// The texts of the errors.
static REFUSALS: [(DateError, &str); 3] = [
    (DateError::NotADate, "NotADate"),
    (DateError::OutOfRange, "OutOfRange"),
    (DateError::OutOfMemory, "out of memory"),
];

/// Returns the first text that does not match its error.
fn first_misprinted(alloc: Global) -> Result<Option<&'static str>, AllocError> {
    for (refusal, text) in &REFUSALS {
        if !prints(alloc, refusal, text)? {
            return Ok(Some(*text));
        }
    }
    Ok(None)
}

#[test]
fn long_texts_and_other_bytes(rt: HostRuntime) -> Result<(), Fail> {
    assert!(rt;
        first_long_misread(rt.alloc())?.is_none() && first_misprinted(rt.alloc())?.is_none()
    );
    Ok(())
}
