//! Revisions with braces: dates, entries, siblings, targets and searches, with the calls that they
//! make and the fault of each refused call; the braces alone; and failing allocations while an
//! escape is removed.

use crate::revtool::calls::{first_wrong, makes};
use crate::revtool::cut_short::first_lost;
use crate::shared::refusing::Refusing;
use gix_spec::spec::parse::{Error, Fault, parens};
use std::alloc::{AllocError, Allocator, Global};
use std::borrow::CowSlice;
use std::test::Fail;

/// Rows in the form of `calls`.
const ROWS: &str = "\
@~3^2^{tree} => find_ref(HEAD) or P2; ancestor(3) or P24 (3^2^{tree}); parent(2) or P24 (2^{tree}); \
    peel(tree) or P25 ({tree}); done or P5
@{-1}^- => branch(1) or P20 (-1); parent(1) or P24 (-); kind(RangeBetween) or P1 (-); refused P4 (-)
abcd@{1} => prefix(abcd) or next; refused P17 (abcd)
abcd@{1} => !prefix(abcd); find_ref(abcd) or P12 (abcd@{1}); reflog(entry 1) or P20 (1); done or P5
@{-0} => refused P15 (-0)
@{+1} => reflog(entry 1) or P20 (+1); done or P5
main@{99999999} => find_ref(main) or P12 (main@{99999999}); reflog(entry 99999999) or P20 (99999999); done or P5
main@{100000000} => find_ref(main) or P12 (main@{100000000}); reflog(date 100000000 0) or P20 (100000000); \
    done or P5
main@{U} => find_ref(main) or P12 (main@{U}); sibling(upstream) or P20 (U); done or P5
main@{1979-02-26 18:30:00} => find_ref(main) or P12 (main@{1979-02-26 18:30:00}); \
    reflog(date 288901800 0) or P20 (1979-02-26 18:30:00); done or P5
main^{/a\\{b} => find_ref(main) or P12 (main^{/a\\{b}); find(a{b) or P10 (a\\{b); done or P5
main^{/} => find_ref(main) or P12 (main^{/}); find() or P10 (); done or P5
main^{tree => find_ref(main) or P12 (main^{tree); refused P14 ({tree)
@{u} => sibling(upstream) or P20 (u); done or P5
@{-1}@{u} => branch(1) or P20 (-1); refused P4 (@{u})
main@{} => find_ref(main) or P12 (main@{}); refused P19 ()
main@{+0} => find_ref(main) or P12 (main@{+0}); reflog(entry 0) or P20 (+0); done or P5
main@{-00} => find_ref(main) or P12 (main@{-00}); refused P15 (-00)
main@{2021-02-29} => find_ref(main) or P12 (main@{2021-02-29}); refused P19 (2021-02-29)
main@{Thu, 18 Aug 2022 12:45:06 +0800} => find_ref(main) or P12 (main@{Thu, 18 Aug 2022 12:45:06 +0800}); \
    reflog(date 1660797906 28800) or P20 (Thu, 18 Aug 2022 12:45:06 +0800); done or P5
main^{/!-a} => find_ref(main) or P12 (main^{/!-a}); find_not(a) or P10 (a); done or P5
main^{/!x} => find_ref(main) or P12 (main^{/!x}); refused P9 (!x)
main^{{}} => find_ref(main) or P12 (main^{{}}); refused P26 ({})
main@{a\\} => find_ref(main) or P12 (main@{a\\}); refused P14 ({a\\})
@{-9223372036854775808} => branch(9223372036854775808) or P20 (-9223372036854775808); done or P5
main@{9223372036854775807} => find_ref(main) or P12 (main@{9223372036854775807}); \
    reflog(date 9223372036854775807 0) or P20 (9223372036854775807); done or P5
main@{9223372036854775808} => find_ref(main) or P12 (main@{9223372036854775808}); \
    refused P19 (9223372036854775808)
main@{1234567890 +0200} => find_ref(main) or P12 (main@{1234567890 +0200}); \
    reflog(date 1234567890 7200) or P20 (1234567890 +0200); done or P5
main@{noon} => find_ref(main) or P12 (main@{noon}); refused P19 (noon)
main^0^{} => find_ref(main) or P12 (main^0^{}); peel(commit) or P25 (0^{}); peel() or P25 ({}); done or P5
@{-1} => branch(1) or P20 (-1); done or P5
main^{x} => find_ref(main) or P12 (main^{x}); refused P26 (x)
main@{-1} => find_ref(main) or P12 (main@{-1}); refused P16 (-1)
main^{tree} => find_ref(main) or P12 (main^{tree}); peel(tree) or P25 ({tree}); done or P5
main@{1} => find_ref(main) or P12 (main@{1}); reflog(entry 1) or P20 (1); done or P5
abcd@{push} => prefix(abcd) or next; refused P18 (abcd)
abcd@{push} => !prefix(abcd); find_ref(abcd) or P12 (abcd@{push}); sibling(push) or P20 (push); done or P5
abcd@{yesterday} => prefix(abcd) or next; refused P17 (abcd)
abcd@{yesterday} => !prefix(abcd); find_ref(abcd) or P12 (abcd@{yesterday}); \
    reflog(date -86400 0) or P20 (yesterday); done or P5
abcd@{-1} => prefix(abcd) or next; refused P16 (-1)
abcd@{-1} => !prefix(abcd); find_ref(abcd) or P12 (abcd@{-1}); refused P16 (-1)
main^{commit}^{object}^{blob}^{tag} => find_ref(main) or P12 (main^{commit}^{object}^{blob}^{tag}); \
    peel(commit) or P25 ({commit}^{object}^{blob}^{tag}); peel(object) or P25 ({object}^{blob}^{tag}); \
    peel(blob) or P25 ({blob}^{tag}); peel(tag) or P25 ({tag}); done or P5
main^{/!!a\\\\b} => find_ref(main) or P12 (main^{/!!a\\\\b}); find(!a\\b) or P10 (!a\\\\b); done or P5
main^{/!-} => find_ref(main) or P12 (main^{/!-}); find_not() or P10 (); done or P5
main^{/!} => find_ref(main) or P12 (main^{/!}); refused P9 (!)
main^{/a\\\\}b} => find_ref(main) or P12 (main^{/a\\\\}b}); find(a\\) or P10 (a\\\\); refused P4 (b})
main^{\\a} => find_ref(main) or P12 (main^{\\a}); refused P26 (\\a)
main@{\\\\} => find_ref(main) or P12 (main@{\\\\}); refused P19 (\\\\)
@{} => refused P19 ()
main@{PuSh}~1 => find_ref(main) or P12 (main@{PuSh}~1); sibling(push) or P20 (PuSh); ancestor(1) or P24 (1); \
    done or P5
a..b@{1} => find_ref(a) or P12 (a..b@{1}); kind(RangeBetween) or P1; find_ref(b) or P12 (b@{1}); \
    reflog(entry 1) or P20 (1); done or P5
@{1}..@{2} => reflog(entry 1) or P20 (1); kind(RangeBetween) or P1; reflog(entry 2) or P20 (2); done or P5
a@{1}^! => find_ref(a) or P12 (a@{1}^!); reflog(entry 1) or P20 (1); kind(ExcludeReachableFromParents) or P1 (); \
    done or P6 ()
abcd..b@{u} => prefix(abcd) or next; kind(RangeBetween) or P1; find_ref(b) or P12 (b@{u}); \
    sibling(upstream) or P20 (u); done or P5
abcd..b@{u} => !prefix(abcd); find_ref(abcd) or P12 (abcd..b@{u}); kind(RangeBetween) or P1; \
    find_ref(b) or P12 (b@{u}); sibling(upstream) or P20 (u); done or P5
@{-9223372036854775809} => refused P19 (-9223372036854775809)
main@{-+1} => find_ref(main) or P12 (main@{-+1}); refused P19 (-+1)
main@{+-1} => find_ref(main) or P12 (main@{+-1}); refused P19 (+-1)
^@{u} => kind(ExcludeReachable) or P1; sibling(upstream) or P20 (u); done or P5
main@{1979-02-26} => find_ref(main) or P12 (main@{1979-02-26}); reflog(date 288835200 0) or P20 (1979-02-26); \
    done or P5
main@{1979-02-26T18:30:00Z} => find_ref(main) or P12 (main@{1979-02-26T18:30:00Z}); \
    reflog(date 288901800 0) or P20 (1979-02-26T18:30:00Z); done or P5
main@{1979-02-26 18:30:00 +0100} => find_ref(main) or P12 (main@{1979-02-26 18:30:00 +0100}); \
    reflog(date 288898200 3600) or P20 (1979-02-26 18:30:00 +0100); done or P5
main@{2021-01-01 00:00:00 +2400} => find_ref(main) or P12 (main@{2021-01-01 00:00:00 +2400}); \
    refused P19 (2021-01-01 00:00:00 +2400)
main@{#} => find_ref(main) or P12 (main@{#}); refused P19 (#)
main^{#} => find_ref(main) or P12 (main^{#}); refused P26 (#)
a^{/\\{}^{/\\}} => find_ref(a) or P12 (a^{/\\{}^{/\\}}); find({) or P10 (\\{); find(}) or P10 (\\}); done or P5
";

#[test]
fn texts_in_braces_make_their_calls(rt: HostRuntime) -> Result<(), Fail> {
    assert_eq!(rt; first_wrong(rt.alloc(), ROWS)?, None);
    Ok(())
}

#[test]
fn memory_is_wanted_for_escapes_alone(rt: HostRuntime) -> Result<(), Fail> {
    assert_eq!(rt; first_lost(rt.alloc(), ROWS)?, None);
    Ok(())
}

/// A text that begins with braces, what they hold, what is left, and whether what they hold is
/// borrowed: it is if no escape is removed.
type Row = (&'static [u8], &'static [u8], &'static [u8], bool);

static BRACED: [Row; 6] = [
    (b"{}", b"", b"", true),
    (b"{a{b}c}d}", b"a{b}c", b"d}", true),
    (b"{\\a}", b"\\a", b"", true),
    (b"{a\\{b}c", b"a{b", b"c", false),
    (b"{\\\\}}", b"\\", b"}", false),
    (b"{\\{\\}{\\\\}}^", b"{}{\\}", b"^", false),
];

// Tests whether the braces hold what the row says, what is left, and how long they are.
fn is_of<A: Allocator>(
    (held, rest, taken): &(CowSlice<'_, u8, A>, &[u8], usize),
    (text, inner, left, borrows): Row,
) -> bool {
    held.as_ref() == inner
        && *rest == left
        && taken.saturating_add(rest.len()) == text.len()
        && matches!(held, CowSlice::Borrowed(_)) == borrows
}

/// The result of reading the braces at the beginning of a text.
#[derive(Clone, Copy, PartialEq)]
enum Came {
    /// What the row says.
    Held,
    /// The text does not begin with braces.
    Nothing,
    Unclosed,
    OutOfMemory,
    Otherwise,
}

fn came_of<A: Allocator + Copy>(alloc: A, row: Row) -> Came {
    match &parens(alloc, row.0) {
        Ok(Some(read)) if is_of(read, row) => Came::Held,
        Ok(None) => Came::Nothing,
        Err(Error::OutOfMemory) => Came::OutOfMemory,
        Err(
            Error::Refused {
                fault: Fault::UnclosedBrace,
                ..
            },
        ) => Came::Unclosed,
        _ => Came::Otherwise,
    }
}

// Tests whether each failed allocation is reported, and the text is then read. There is an
// allocation exactly if nothing is borrowed.
fn is_held(alloc: Global, row: Row) -> bool {
    for before in 0..100u64 {
        let refusing = Refusing::new(alloc, before);
        let came = came_of(&refusing, row);
        if !refusing.has_refused() {
            return (before == 0) == row.3 && came == Came::Held;
        }
        if came != Came::OutOfMemory || came_of(&refusing, row) != Came::Held {
            return false;
        }
    }
    false
}

// Returns the first text that is read otherwise.
fn first_unheld(alloc: Global) -> Option<&'static [u8]> {
    for row in &BRACED {
        if !is_held(alloc, *row) {
            return Some(row.0);
        }
    }
    None
}

/// Texts that do not begin with a brace, and texts whose first brace never closes.
static UNBRACED: [(&[u8], Came); 5] = [
    (b"a{b}", Came::Nothing),
    (b"", Came::Nothing),
    (b"{", Came::Unclosed),
    (b"{a\\}", Came::Unclosed),
    (b"{{}", Came::Unclosed),
];

fn are_refused(alloc: Global) -> bool {
    for (text, came) in &UNBRACED {
        if came_of(alloc, (*text, b"", b"", true)) != *came {
            return false;
        }
    }
    true
}

#[test]
fn braces_are_read_alone(rt: HostRuntime) {
    assert_eq!(rt; first_unheld(rt.alloc()), None);
    assert!(rt; are_refused(rt.alloc()));
}

// Makes the text `main^{/`, opening braces, as many closing ones, and perhaps the last one.
fn nested(alloc: Global, depth: usize, closed: bool) -> Result<Vec<u8>, AllocError> {
    let mut text = b"main^{/".to_vec(alloc)?;
    text.extend_from_slice(&b"{".repeat(alloc, depth)?)?;
    text.extend_from_slice(&b"}".repeat(alloc, depth.saturating_add(closed as usize))?)?;
    Ok(text)
}

// Tests whether a text makes these calls, with a part of the text between their first and last
// words.
fn tells(
    alloc: Global,
    text: &[u8],
    part: Option<&[u8]>,
    (first, last): (&[u8], &[u8]),
) -> Result<bool, AllocError> {
    let mut want = first.to_vec(alloc)?;
    want.extend_from_slice(part.unwrap_or(&[]))?;
    want.extend_from_slice(last)?;
    makes(alloc, text, &want)
}

// Tests whether the delegate gets the regex in the braces.
fn is_regex_told(alloc: Global, depth: usize) -> Result<bool, AllocError> {
    let closed = nested(alloc, depth, true)?;
    let regex = closed.get(7..closed.len().saturating_sub(1));
    tells(
        alloc,
        &closed,
        regex,
        (b"find_ref(main); find(", b"); done"),
    )
}

// Tests whether a pair that never closes is refused.
fn is_refused(alloc: Global, depth: usize) -> Result<bool, AllocError> {
    let open = nested(alloc, depth, false)?;
    tells(
        alloc,
        &open,
        open.get(5..),
        (b"find_ref(main); refused P14 (", b")"),
    )
}

#[test]
fn braces_nest_deep(rt: HostRuntime) -> Result<(), Fail> {
    assert!(rt; is_regex_told(rt.alloc(), 5000)?);
    assert!(rt; is_refused(rt.alloc(), 5000)?);
    Ok(())
}
