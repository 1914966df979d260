//! Revisions over small histories, and what they resolve to.

use crate::shared::histories::{CRISS_CROSS, Row};
use gix_revision::hash::ObjectId;

/// Which wins if a name could be an abbreviated id.
#[derive(Clone, Copy)]
pub enum Order {
    /// The abbreviated id: `resolve`.
    DigitsFirst,
    /// The ref: `rev_parse`.
    NamesFirst,
}

/// The order, a history, names and the digits of their ids, further ids of the table, and rows. A
/// row is a text and what it resolves to: a spec; or the number of a fault, in round brackets the
/// part of the text, and what the resolver said.
pub struct Case {
    pub order: Order,
    pub history: &'static [Row<'static>],
    pub names: &'static [(&'static str, u8)],
    pub more_ids: &'static [ObjectId],
    pub rows: &'static str,
}

pub static CROSSED: Case = Case {
    order: Order::DigitsFirst,
    history: &CRISS_CROSS,
    names: &[("HEAD", 4), ("main", 5), ("gone", 9)],
    more_ids: &[],
    rows: "\
@ => [4]
HEAD => [4]
4444 => [4]
v1-3-g4444 => [4]
main~1 => [2]
main^ => [2]
main^2 => [3]
main~0 => [5]
main^0 => [5]
HEAD^2~1 => [1]
^main => ^[5]
..main => [4]..[5]
main.. => [5]..[4]
HEAD...main => [4]...[5]
main^-2 => [3]..[5]
main~1^- => [1]..[5]
main^@ => [5]^@
main^! => [5]^!
gone => [9]
gone^@ => [9]^@
main~3 => P24 (3) no such parent
main~18446744073709551615 => P24 (18446744073709551615) no such parent
main^3 => P24 (3) no such parent
gone~0 => P24 (0) no such commit
gone^1 => P24 (1) no such commit
gone^0 => P25 (0) no such commit
HEAD..main^! => P1 () kind or end given twice
HEAD..main^- => P1 (-) kind or end given twice
^main^@ => P1 () kind or end given twice
 => P5 no revision
^ => P5 no revision
^^ => P24 () no revision
^~1 => P21
no => P12 (no) no such name
head => P12 (head) no such name
6666 => P12 (6666) no object with this prefix; no such name
6666..main => P12 (6666..main) no object with this prefix; no such name
:/fix => P10 (fix) not supported here
:a.txt => P11 (a.txt) not supported here
main:a.txt => P25 (a.txt) not supported here
main^{commit} => [5]
main^{tree} => P25 ({tree}) not supported here
main^{} => P25 ({}) not supported here
gone^{commit} => P25 ({commit}) no such commit
main^{/fix} => P10 (fix) not supported here
main@{1} => P20 (1) not supported here
@{-1} => P20 (-1) not supported here
main@{u} => P20 (u) not supported here
",
};

/// A second id begins like the first.
pub static AMBIGUOUS: Case = Case {
    order: Order::DigitsFirst,
    history: &CRISS_CROSS,
    names: &[("HEAD", 4), ("main", 5)],
    more_ids: &[ObjectId([
        0x44, 0x44, 0, 0, 0, 0, 0, 0, 0, 0, 0, 0, 0, 0, 0, 0, 0, 0, 0, 0,
    ])],
    rows: "\
4444 => P12 (4444) prefix is ambiguous; no such name
44444 => [4]
44440 => 4444000000000000000000000000000000000000
main..4444 => P12 (4444) prefix is ambiguous; no such name
",
};

/// Rounds of one, two and three commits, and one commit before a round.
pub static ROUNDS: Case = Case {
    order: Order::DigitsFirst,
    history: &[
        Row(1, 1, None, &[1]),
        Row(2, 1, None, &[3]),
        Row(3, 1, None, &[2]),
        Row(4, 1, None, &[5]),
        Row(5, 1, None, &[6]),
        Row(6, 1, None, &[4]),
        Row(7, 1, None, &[4]),
    ],
    names: &[],
    more_ids: &[],
    rows: "\
1111~18446744073709551615 => [1]
2222~18446744073709551614 => [2]
2222~18446744073709551615 => [3]
4444~18446744073709551613 => [5]
4444~18446744073709551614 => [6]
4444~18446744073709551615 => [4]
7777~18446744073709551615 => [6]
",
};

/// Names that could be an abbreviated id: of one id, of another or of none, of two ids.
pub static NAMES_FIRST: Case = Case {
    order: Order::NamesFirst,
    history: &CRISS_CROSS,
    names: &[
        ("HEAD", 4),
        ("main", 5),
        ("gone", 9),
        ("2222", 5),
        ("222", 4),
        ("[3]", 5),
        ("[6]", 5),
        ("1111-login", 5),
        ("v1-2-g2222", 4),
        ("x-g4444-more", 1),
        ("AbCd", 4),
        ("dead", 1),
        ("topic-g", 3),
        ("caf#", 2),
    ],
    more_ids: &[
        ObjectId([
            0xab, 0xcd, 0, 0, 0, 0, 0, 0, 0, 0, 0, 0, 0, 0, 0, 0, 0, 0, 0, 0,
        ]),
        ObjectId([
            0x55, 0x55, 0, 0, 0, 0, 0, 0, 0, 0, 0, 0, 0, 0, 0, 0, 0, 0, 0, 0,
        ]),
    ],
    rows: "\
@ => [4]
main => [5]
2222 => [5]
22222 => [2]
222 => [4]
[2] => [2]
[3] => [3]
3333 => [3]
333 => P12 (333) no such name
[6] => P12 ([6]) a name comes first; no object with this prefix
[6]6 => P12 ([6]6) no such name
6666 => P12 (6666) a name comes first; no object with this prefix
5555 => P12 (5555) a name comes first; prefix is ambiguous
55555 => [5]
1111-login => [5]
4444-login => P12 (4444-login) a name comes first; no such name
v1-2-g2222 => [4]
v1-3-g2222 => [2]
v1-3-g222 => P12 (v1-3-g222) no such name
v1-3-g5555 => P12 (v1-3-g5555) a name comes first; prefix is ambiguous
v1-3-g6666 => P12 (v1-3-g6666) a name comes first; no object with this prefix
v1-3-g[2] => [2]
v1-3-g[2]2 => P12 (v1-3-g[2]2) no such name
v1-g3333-g2222 => [2]
any-g2222 => [2]
-g2222 => P12 (-g2222) no such name
x-g4444-more => [1]
y-g4444-more => P12 (y-g4444-more) a name comes first; no such name
AbCd => [4]
ABCD => abcd000000000000000000000000000000000000
v1-3-gAbCd => abcd000000000000000000000000000000000000
dead => [1]
DEAD => P12 (DEAD) a name comes first; no object with this prefix
topic-g => [3]
topic-g2222 => [2]
caf# => [2]
caf#-1-g2222 => [2]
#2222 => P12 (#2222) no such name
2222~1 => [2]
22222~1 => [1]
2222^2 => [3]
1111-login^ => [2]
^2222 => ^[5]
2222..22222 => [5]..[2]
22222...1111-login => [2]...[5]
..2222 => [4]..[5]
2222^- => [2]..[5]
22222^- => [1]..[2]
v1-3-g2222^! => [2]^!
[3]^@ => [3]^@
2222@{0} => P20 (0) not supported here
22222@{0} => P20 (0) not supported here
66666@{0} => P12 (66666@{0}) a name comes first; no object with this prefix
2222:a.txt => P25 (a.txt) not supported here
main^{} => [5]
main^{object} => [5]
main^{commit} => [5]
main^0 => [5]
v1-3-g2222^{}^{object}~1 => [1]
main^{tag} => P25 ({tag}) commits alone are known
main^{tree} => P25 ({tree}) commits alone are known
main^{blob} => P25 ({blob}) commits alone are known
gone => [9]
gone^{} => P25 ({}) no such commit
gone^{object} => P25 ({object}) no such commit
gone^0 => P25 (0) no such commit
main^{/fix} => P10 (fix) not supported here
@{-1} => P20 (-1) not supported here
 => P5 no revision
^{} => P12 ({}) no such name
no..2222 => P12 (no..2222) no such name
",
};
