//! Revisions without braces: ranges, names, steps and colon forms, with the calls that they make
//! and the fault of each refused call; very long ones; printed faults and specs.

use crate::revtool::calls::{count, first_wrong};
use crate::shared::printed::prints;
use gix_base::hash::ObjectId;
use gix_spec::spec::parse::delegate::{SiblingBranch, Traversal};
use gix_spec::spec::parse::{Error, Fault};
use gix_spec::spec::{Kind, Spec};
use std::alloc::{AllocError, Global};
use std::test::Fail;

/// Rows in the form of `calls`.
const ROWS: &str = "\
^ => kind(ExcludeReachable) or P1; done or P5
 => done or P5
.. => find_ref(HEAD) or P2; kind(RangeBetween) or P1; find_ref(HEAD) or P2; done or P5
... => find_ref(HEAD) or P2; kind(ReachableToMergeBase) or P1; find_ref(HEAD) or P2; done or P5
^.. => kind(ExcludeReachable) or P1; refused P3
^... => kind(ExcludeReachable) or P1; refused P3
^..b => kind(ExcludeReachable) or P1; refused P3
a.....b => find_ref(a) or P12 (a.....b); kind(ReachableToMergeBase) or P1; find_ref(HEAD) or P2; refused P4 (..b)
main~+1 => find_ref(main) or P12 (main~+1); refused P22 (+1)
~1 => refused P21
v1.2-10-gabcdef1 => prefix(abcdef1 v1.2 10) or next; done or P5
v1.2-10-gabcdef1 => !prefix(abcdef1 v1.2 10); find_ref(v1.2-10-gabcdef1) or P12 (v1.2-10-gabcdef1); done or P5
3-gabcdef => prefix(abcdef commit) or next; done or P5
3-gabcdef => !prefix(abcdef commit); find_ref(3-gabcdef) or P12 (3-gabcdef); done or P5
abcd-dirty => prefix(abcd) or next; done or P5
abcd-dirty => !prefix(abcd); find_ref(abcd-dirty) or P12 (abcd-dirty); done or P5
abcd-g => find_ref(abcd-g) or P12 (abcd-g); done or P5
[4]4 => find_ref([4]4) or P12 ([4]4); done or P5
main^-2 => find_ref(main) or P12 (main^-2); parent(2) or P24 (-2); kind(RangeBetween) or P1 (-2); \
    find_ref(main) or P27 (-2); done or P6 ()
abcd..main^- => prefix(abcd) or next; kind(RangeBetween) or P1; find_ref(main) or P12 (main^-); \
    parent(1) or P24 (-); kind(RangeBetween) or P1 (-); find_ref(main) or P27 (-); done or P6 (); done or P5
abcd..main^- => !prefix(abcd); find_ref(abcd) or P12 (abcd..main^-); kind(RangeBetween) or P1; \
    find_ref(main) or P12 (main^-); parent(1) or P24 (-); kind(RangeBetween) or P1 (-); find_ref(main) or P27 (-); \
    done or P6 (); done or P5
main^1-2 => find_ref(main) or P12 (main^1-2); refused P23 (1-2)
a.@ => find_ref(a.) or P12 (a.@); refused P13 (@)
a@ => find_ref(a@) or P12 (a@); done or P5
:4:x => index(0 4:x) or P11 (4:x); done or P5
:/!-fix => find_not(fix) or P10 (fix); done or P5
:/!- => refused P4 (:/!-)
:/! => refused P9 (!)
a..b^! => find_ref(a) or P12 (a..b^!); kind(RangeBetween) or P1; find_ref(b) or P12 (b^!); \
    kind(ExcludeReachableFromParents) or P1 (); done or P6 (); done or P5
^a^! => kind(ExcludeReachable) or P1; find_ref(a) or P12 (a^!); kind(ExcludeReachableFromParents) or P1 (); \
    done or P6 ()
a^!..b => find_ref(a) or P12 (a^!..b); kind(ExcludeReachableFromParents) or P1 (..b); done or P6 (..b); \
    refused P4 (..b)
@@ => find_ref(@@) or P12 (@@); done or P5
a@..b => find_ref(a@) or P12 (a@..b); kind(RangeBetween) or P1; find_ref(b) or P12 (b); done or P5
@..b => find_ref(HEAD) or P2; kind(RangeBetween) or P1; find_ref(b) or P12 (b); done or P5
a^2^-3 => find_ref(a) or P12 (a^2^-3); parent(2) or P24 (2^-3); parent(3) or P24 (-3); \
    kind(RangeBetween) or P1 (-3); find_ref(a) or P27 (-3); done or P6 ()
a^b => find_ref(a) or P12 (a^b); parent(1) or P24 (b); refused P4 (b)
^^ => kind(ExcludeReachable) or P1; parent(1) or P24 (); done or P5
a..~1 => find_ref(a) or P12 (a..~1); kind(RangeBetween) or P1; refused P21
a..:x => find_ref(a) or P12 (a..:x); kind(RangeBetween) or P1; index(0 x) or P11 (x); done or P5
::x => index(0 :x) or P11 (:x); done or P5
a..b => find_ref(a) or P12 (a..b); kind(RangeBetween) or P1; find_ref(b) or P12 (b); done or P5
a...b => find_ref(a) or P12 (a...b); kind(ReachableToMergeBase) or P1; find_ref(b) or P12 (b); done or P5
a@.b => find_ref(a) or P12 (a@.b); refused P13 (@.b)
a^@ => find_ref(a) or P12 (a^@); kind(IncludeReachableFromParents) or P1 (); done or P6 ()
a:b..c => find_ref(a) or P12 (a:b..c); peel(:b..c) or P25 (b..c); done or P5
:2:a.txt => index(2 a.txt) or P11 (a.txt); done or P5
v1-3-gabcd-dirty => prefix(abcd v1 3) or next; done or P5
v1-3-gabcd-dirty => !prefix(abcd v1 3); find_ref(v1-3-gabcd-dirty) or P12 (v1-3-gabcd-dirty); done or P5
@^- => find_ref(HEAD) or P2; parent(1) or P24 (-); kind(RangeBetween) or P1 (-); find_ref(HEAD) or P27 (-); \
    done or P6 ()
main^+1 => find_ref(main) or P12 (main^+1); refused P22 (+1)
main~-1 => find_ref(main) or P12 (main~-1); refused P22 (-1)
[4] => prefix([4]) or next; done or P5
[4] => !prefix([4]); find_ref([4]) or P12 ([4]); done or P5
ABCDEFabcdef0123456789012345678901234567 => prefix(abcdefabcdef0123456789012345678901234567) or next; done or P5
ABCDEFabcdef0123456789012345678901234567 => !prefix(abcdefabcdef0123456789012345678901234567); \
    find_ref(ABCDEFabcdef0123456789012345678901234567) or P12 (ABCDEFabcdef0123456789012345678901234567); \
    done or P5
^[4].. => kind(ExcludeReachable) or P1; prefix([4]) or next; refused P3
^[4].. => kind(ExcludeReachable) or P1; !prefix([4]); find_ref([4]) or P12 ([4]..); refused P3
[1]...[2] => prefix([1]) or next; kind(ReachableToMergeBase) or P1; prefix([2]) or next; done or P5
[1]...[2] => !prefix([1]); find_ref([1]) or P12 ([1]...[2]); kind(ReachableToMergeBase) or P1; \
    prefix([2]) or next; done or P5
[1]...[2] => prefix([1]) or next; kind(ReachableToMergeBase) or P1; !prefix([2]); find_ref([2]) or P12 ([2]); \
    done or P5
[1]...[2] => !prefix([1]); find_ref([1]) or P12 ([1]...[2]); kind(ReachableToMergeBase) or P1; !prefix([2]); \
    find_ref([2]) or P12 ([2]); done or P5
ABCD => prefix(abcd) or next; done or P5
ABCD => !prefix(abcd); find_ref(ABCD) or P12 (ABCD); done or P5
@~3^2 => find_ref(HEAD) or P2; ancestor(3) or P24 (3^2); parent(2) or P24 (2); done or P5
a:x => find_ref(a) or P12 (a:x); peel(:x) or P25 (x); done or P5
main~18446744073709551615 => find_ref(main) or P12 (main~18446744073709551615); \
    ancestor(18446744073709551615) or P24 (18446744073709551615); done or P5
main~18446744073709551616 => find_ref(main) or P12 (main~18446744073709551616); \
    refused P23 (18446744073709551616)
main^9223372036854775808 => find_ref(main) or P12 (main^9223372036854775808); refused P23 (9223372036854775808)
main^-9223372036854775808 => find_ref(main) or P12 (main^-9223372036854775808); \
    refused P23 (-9223372036854775808)
v-18446744073709551616-gabcd => prefix(abcd commit) or next; done or P5
v-18446744073709551616-gabcd => !prefix(abcd commit); \
    find_ref(v-18446744073709551616-gabcd) or P12 (v-18446744073709551616-gabcd); done or P5
v-+3-gabcd => prefix(abcd v 3) or next; done or P5
v-+3-gabcd => !prefix(abcd v 3); find_ref(v-+3-gabcd) or P12 (v-+3-gabcd); done or P5
main^-0 => find_ref(main) or P12 (main^-0); refused P15 (-0)
main^00 => find_ref(main) or P12 (main^00); peel(commit) or P25 (00); done or P5
: => refused P7
:/ => refused P8
:/x => find(x) or P10 (x); done or P5
:/!!x => find(!x) or P10 (!x); done or P5
:3:a => index(3 a) or P11 (a); done or P5
abcd^- => prefix(abcd) or next; parent(1) or P24 (-); kind(RangeBetween) or P1 (-); prefix(abcd) or P27 (-); \
    done or P6 ()
abcd^- => !prefix(abcd); find_ref(abcd) or P12 (abcd^-); parent(1) or P24 (-); kind(RangeBetween) or P1 (-); \
    find_ref(abcd) or P27 (-); done or P6 ()
a..b^- => find_ref(a) or P12 (a..b^-); kind(RangeBetween) or P1; find_ref(b) or P12 (b^-); parent(1) or P24 (-); \
    kind(RangeBetween) or P1 (-); find_ref(b) or P27 (-); done or P6 (); done or P5
-gabcd => find_ref(-gabcd) or P12 (-gabcd); done or P5
a.@^ => find_ref(a.) or P12 (a.@^); refused P13 (@^)
a@~1 => find_ref(a) or P12 (a@~1); refused P13 (@~1)
a@.@..b => find_ref(a) or P12 (a@.@..b); refused P13 (@.@..b)
^- => kind(ExcludeReachable) or P1; find_ref(-) or P12 (-); done or P5
v1-3-gabcd..v2-gabcd-gx => prefix(abcd v1 3) or next; kind(RangeBetween) or P1; prefix(abcd commit) or next; \
    done or P5
v1-3-gabcd..v2-gabcd-gx => !prefix(abcd v1 3); find_ref(v1-3-gabcd) or P12 (v1-3-gabcd..v2-gabcd-gx); \
    kind(RangeBetween) or P1; prefix(abcd commit) or next; done or P5
v1-3-gabcd..v2-gabcd-gx => prefix(abcd v1 3) or next; kind(RangeBetween) or P1; !prefix(abcd commit); \
    find_ref(v2-gabcd-gx) or P12 (v2-gabcd-gx); done or P5
[1]^@ => prefix([1]) or next; kind(IncludeReachableFromParents) or P1 (); done or P6 ()
[1]^@ => !prefix([1]); find_ref([1]) or P12 ([1]^@); kind(IncludeReachableFromParents) or P1 (); done or P6 ()
main => find_ref(main) or P12 (main); done or P5
# => find_ref(#) or P12 (#); done or P5
a\0b => find_ref(a\0b) or P12 (a\0b); done or P5
";

#[test]
fn texts_make_their_calls(rt: HostRuntime) -> Result<(), Fail> {
    assert_eq!(rt; first_wrong(rt.alloc(), ROWS)?, None);
    Ok(())
}

/// Counts the calls of five thousand `^`, and of five thousand `~1` after a name.
fn count_long(alloc: Global) -> Result<(usize, usize), AllocError> {
    let carets = vec![in alloc; b'^'; 5000]?;
    let mut steps = vec![in alloc; b'a'; 1]?;
    for _ in 0..5000 {
        steps.extend_from_slice(b"~1")?;
    }
    Ok((count(alloc, &carets), count(alloc, &steps)))
}

#[test]
fn long_texts_are_read(rt: HostRuntime) -> Result<(), Fail> {
    assert_eq!(rt; count_long(rt.alloc())?, (5001, 5002));
    Ok(())
}

/// The texts of faults that contain a debug form; a clause has the others.
static FAULTS: [(Fault, &str); 5] = [
    (
        Fault::KindRefused(Kind::RangeBetween),
        "delegate.kind(RangeBetween) failed",
    ),
    (
        Fault::KindTwice {
            was: Kind::ExcludeReachable,
            now: Kind::ReachableToMergeBase,
        },
        "cannot set spec kind more than once (was ExcludeReachable, now ReachableToMergeBase)",
    ),
    (
        Fault::TraverseRefused(Traversal::NthParent(2)),
        "delegate.traverse(NthParent(2)) failed",
    ),
    (
        Fault::TraverseRefused(Traversal::NthAncestor(3)),
        "delegate.traverse(NthAncestor(3)) failed",
    ),
    (Fault::IndexRefused(2), "the delegate found no index entry"),
];

// Tests whether a refusal for a fault prints as this text.
fn refusal_prints(alloc: Global, fault: Fault, text: &str) -> Result<bool, AllocError> {
    let refused = Error::Refused {
        fault,
        input: None,
        first: None,
        second: None,
    };
    prints(alloc, &refused, text)
}

// Tests whether a fault and a refusal for it print as this text.
fn both_print(alloc: Global, fault: &Fault, text: &str) -> Result<bool, AllocError> {
    Ok(prints(alloc, fault, text)? && refusal_prints(alloc, *fault, text)?)
}

/// Returns the first text that its fault does not print as.
fn first_misprinted(alloc: Global) -> Result<Option<&'static str>, AllocError> {
    for (fault, text) in &FAULTS {
        if !both_print(alloc, fault, text)? {
            return Ok(Some(*text));
        }
    }
    Ok(None)
}

#[test]
fn faults_print_their_kind_and_step(rt: HostRuntime) -> Result<(), Fail> {
    assert_eq!(rt; first_misprinted(rt.alloc())?, None);
    assert!(rt; prints(rt.alloc(), &Error::OutOfMemory, "out of memory")?);
    Ok(())
}

const ONE: ObjectId = ObjectId([0x11; 20]);

const TWO: ObjectId = ObjectId([0x22; 20]);

/// Specs, their kinds, and their texts.
static SPECS: [(Spec, Kind, &str); 6] = [
    (
        Spec::Include(ONE),
        Kind::IncludeReachable,
        "1111111111111111111111111111111111111111",
    ),
    (
        Spec::Exclude(ONE),
        Kind::ExcludeReachable,
        "^1111111111111111111111111111111111111111",
    ),
    (
        Spec::Range { from: ONE, to: TWO },
        Kind::RangeBetween,
        "1111111111111111111111111111111111111111..2222222222222222222222222222222222222222",
    ),
    (
        Spec::Merge {
            theirs: ONE,
            ours: TWO,
        },
        Kind::ReachableToMergeBase,
        "1111111111111111111111111111111111111111...2222222222222222222222222222222222222222",
    ),
    (
        Spec::IncludeOnlyParents(ONE),
        Kind::IncludeReachableFromParents,
        "1111111111111111111111111111111111111111^@",
    ),
    (
        Spec::ExcludeParents(ONE),
        Kind::ExcludeReachableFromParents,
        "1111111111111111111111111111111111111111^!",
    ),
];

/// Returns the first text that its spec does not print as, or that makes no calls.
fn first_unread(alloc: Global) -> Result<Option<&'static str>, AllocError> {
    for (spec, kind, text) in &SPECS {
        if spec.kind() != *kind
            || !prints(alloc, spec, text)?
            || count(alloc, text.as_bytes()) < 2
        {
            return Ok(Some(*text));
        }
    }
    Ok(None)
}

#[test]
fn specs_print_and_read_back(rt: HostRuntime) -> Result<(), Fail> {
    assert_eq!(rt; first_unread(rt.alloc())?, None);
    assert!(rt; Kind::default() == Kind::IncludeReachable);
    Ok(())
}

/// The text in the braces of a sibling branch, in any case, and which one it means.
static SIBLINGS: [(&str, Option<SiblingBranch>); 8] = [
    ("u", Some(SiblingBranch::Upstream)),
    ("U", Some(SiblingBranch::Upstream)),
    ("UpStream", Some(SiblingBranch::Upstream)),
    ("push", Some(SiblingBranch::Push)),
    ("PUSH", Some(SiblingBranch::Push)),
    ("", None),
    ("up", None),
    ("pushed", None),
];

#[test]
fn sibling_branches_are_read_in_any_case(rt: HostRuntime) {
    assert!(rt; SIBLINGS.iter().all(|(text, want)| SiblingBranch::parse(text.as_bytes()) == *want));
}
