//! Has files `packed-refs`, names, and what git 2.39.5 says of each name. A bar is a line feed.

use super::questions::Ask;

/// Files, and rows in the form of `questions` about references in them.
pub(crate) static PACKED: [(&str, Ask, &str); 12] = [
    (UNSORTED, Ask::Find, OF_UNSORTED),
    (BEGINNINGS, Ask::Find, OF_BEGINNINGS),
    (PEELED, Ask::Find, OF_PEELED),
    (SINGLE, Ask::Find, OF_SINGLE),
    (HEADER, Ask::Find, "refs/heads/a => nothing"),
    ("", Ask::Find, "refs/heads/a => nothing"),
    (RETURNS, Ask::Find, OF_RETURNS),
    (ALL_TOLD, Ask::All, OF_ALL_TOLD),
    (TAGS_TOLD, Ask::All, OF_TAGS_TOLD),
    (TOLD_BEFORE_ZERO, Ask::All, OF_TAGS_TOLD),
    (NONE_TOLD, Ask::All, OF_NONE_TOLD),
    (ZEROS_TOLD, Ask::All, OF_ZEROS_TOLD),
];

/// The names of this file are not sorted, and no header says that they are.
const UNSORTED: &str = "\
    1111111111111111111111111111111111111111 refs/heads/c|\
    2222222222222222222222222222222222222222 refs/heads/a|\
    ^3333333333333333333333333333333333333333|\
    4444444444444444444444444444444444444444 refs/heads/b|";

const OF_UNSORTED: &str = "\
refs/heads/a => 2222222222222222222222222222222222222222 3333333333333333333333333333333333333333
refs/heads/b => 4444444444444444444444444444444444444444
refs/heads/c => 1111111111111111111111111111111111111111
refs/heads/d => nothing
";

/// The names of this file are beginnings of one another.
const BEGINNINGS: &str = "\
    # pack-refs with: peeled fully-peeled sorted |\
    1111111111111111111111111111111111111111 refs/heads/a|\
    2222222222222222222222222222222222222222 refs/heads/a-b|\
    3333333333333333333333333333333333333333 refs/heads/a/b|\
    4444444444444444444444444444444444444444 refs/heads/a0|\
    5555555555555555555555555555555555555555 refs/heads/ab|";

const OF_BEGINNINGS: &str = "\
refs/heads/a => 1111111111111111111111111111111111111111
refs/heads/a-b => 2222222222222222222222222222222222222222
refs/heads/a/b => 3333333333333333333333333333333333333333
refs/heads/a0 => 4444444444444444444444444444444444444444
refs/heads/ab => 5555555555555555555555555555555555555555
refs/heads/A => nothing
refs/heads/a- => nothing
refs/heads/a-a => nothing
refs/heads/a-c => nothing
refs/heads/a/a => nothing
refs/heads/a/b/c => nothing
refs/heads/b => nothing
";

/// This file has lines `^ID` in between.
const PEELED: &str = "\
    # pack-refs with: peeled fully-peeled sorted |\
    1111111111111111111111111111111111111111 refs/heads/a|\
    2222222222222222222222222222222222222222 refs/tags/a|\
    ^3333333333333333333333333333333333333333|\
    4444444444444444444444444444444444444444 refs/tags/b|\
    ^5555555555555555555555555555555555555555|\
    1111111111111111111111111111111111111111 refs/tags/c|";

const OF_PEELED: &str = "\
refs/heads/a => 1111111111111111111111111111111111111111
refs/tags/a => 2222222222222222222222222222222222222222 3333333333333333333333333333333333333333
refs/tags/b => 4444444444444444444444444444444444444444 5555555555555555555555555555555555555555
refs/tags/c => 1111111111111111111111111111111111111111
refs/tags/d => nothing
";

/// This file has one line.
const SINGLE: &str = "1111111111111111111111111111111111111111 refs/heads/m|";

const OF_SINGLE: &str = "\
refs/heads/m => 1111111111111111111111111111111111111111
refs/heads/l => nothing
refs/heads/n => nothing
";

/// This file has only a header.
const HEADER: &str = "# pack-refs with: peeled fully-peeled sorted |";

/// The lines of this file end with a carriage return, which belongs to the name.
const RETURNS: &str = "\
    # pack-refs with: peeled fully-peeled sorted \r|\
    1111111111111111111111111111111111111111 refs/heads/a\r|\
    2222222222222222222222222222222222222222 refs/heads/b\r|";

const OF_RETURNS: &str = "\
refs/heads/a => nothing
refs/heads/b => nothing
";

/// The header of this file says that references without a line `^ID` lead to no tag. In a list
/// such a reference leads to its own id.
const ALL_TOLD: &str = "\
    # pack-refs with: peeled fully-peeled sorted |\
    1111111111111111111111111111111111111111 refs/heads/a|\
    2222222222222222222222222222222222222222 refs/tags/a|\
    3333333333333333333333333333333333333333 refs/tags/b|\
    ^4444444444444444444444444444444444444444|";

const OF_ALL_TOLD: &str = "\
refs/ => refs/heads/a 1111111111111111111111111111111111111111 \
    1111111111111111111111111111111111111111|\
    refs/tags/a 2222222222222222222222222222222222222222 \
    2222222222222222222222222222222222222222|\
    refs/tags/b 3333333333333333333333333333333333333333 \
    4444444444444444444444444444444444444444|
";

/// The header of this file says so of those below `refs/tags/`.
const TAGS_TOLD: &str = "\
    # pack-refs with: peeled |\
    1111111111111111111111111111111111111111 refs/heads/a|\
    2222222222222222222222222222222222222222 refs/tags/a|\
    3333333333333333333333333333333333333333 refs/tags/b|\
    ^4444444444444444444444444444444444444444|";

const OF_TAGS_TOLD: &str = "\
refs/ => refs/heads/a 1111111111111111111111111111111111111111|\
    refs/tags/a 2222222222222222222222222222222222222222 \
    2222222222222222222222222222222222222222|\
    refs/tags/b 3333333333333333333333333333333333333333 \
    4444444444444444444444444444444444444444|
";

/// The header of this file ends for git at the zero byte.
const TOLD_BEFORE_ZERO: &str = "\
    # pack-refs with: peeled\u{0} fully-peeled |\
    1111111111111111111111111111111111111111 refs/heads/a|\
    2222222222222222222222222222222222222222 refs/tags/a|\
    3333333333333333333333333333333333333333 refs/tags/b|\
    ^4444444444444444444444444444444444444444|";

/// The header of this file says it of no reference.
const NONE_TOLD: &str = "\
    # pack-refs with: sorted |\
    1111111111111111111111111111111111111111 refs/heads/a|\
    2222222222222222222222222222222222222222 refs/tags/a|\
    3333333333333333333333333333333333333333 refs/tags/b|\
    ^4444444444444444444444444444444444444444|";

const OF_NONE_TOLD: &str = "\
refs/ => refs/heads/a 1111111111111111111111111111111111111111|\
    refs/tags/a 2222222222222222222222222222222222222222|\
    refs/tags/b 3333333333333333333333333333333333333333 \
    4444444444444444444444444444444444444444|
";

/// A line of this file says by zeros that a reference leads to no tag.
const ZEROS_TOLD: &str = "\
    1111111111111111111111111111111111111111 refs/tags/a|\
    ^0000000000000000000000000000000000000000|";

const OF_ZEROS_TOLD: &str = "\
refs/ => refs/tags/a 1111111111111111111111111111111111111111 \
    1111111111111111111111111111111111111111|
";

/// Files that git refuses, in which a name is twice, or in which it finds no name or not the first,
/// each after the reason.
pub(crate) const DAMAGED: &str = "\
a comment behind the header => # pack-refs with: peeled fully-peeled sorted |\
    # x|\
    56a6051ca2b02b04ef92d5150c9ef600403cb1de refs/heads/a|
another comment => # x|56a6051ca2b02b04ef92d5150c9ef600403cb1de refs/heads/a|
junk behind a reference => 56a6051ca2b02b04ef92d5150c9ef600403cb1de refs/heads/a|\
    junk|\
    56a6051ca2b02b04ef92d5150c9ef600403cb1de refs/heads/b|
junk in front => junk|56a6051ca2b02b04ef92d5150c9ef600403cb1de refs/heads/a|
no line feed at the end => 56a6051ca2b02b04ef92d5150c9ef600403cb1de refs/heads/a
an id of 39 digits => 56a6051ca2b02b04ef92d5150c9ef600403cb1de refs/heads/a|\
    56a6051ca2b02b04ef92d5150c9ef600403cb1d refs/heads/b|
an id of 41 digits => 56a6051ca2b02b04ef92d5150c9ef600403cb1de refs/heads/a|\
    56a6051ca2b02b04ef92d5150c9ef600403cb1de0 refs/heads/b|
a letter that is no digit => 56a6051ca2b02b04ef92d5150c9ef600403cb1de refs/heads/a|\
    g6a6051ca2b02b04ef92d5150c9ef600403cb1de refs/heads/b|
no name => 56a6051ca2b02b04ef92d5150c9ef600403cb1de refs/heads/a|\
    56a6051ca2b02b04ef92d5150c9ef600403cb1de |\
    56a6051ca2b02b04ef92d5150c9ef600403cb1de refs/heads/b|
`^` in front => ^56a6051ca2b02b04ef92d5150c9ef600403cb1de|\
    56a6051ca2b02b04ef92d5150c9ef600403cb1de refs/heads/a|
two lines of `^` => 56a6051ca2b02b04ef92d5150c9ef600403cb1de refs/heads/a|\
    ^56a6051ca2b02b04ef92d5150c9ef600403cb1de|\
    ^56a6051ca2b02b04ef92d5150c9ef600403cb1de|
39 digits behind `^` => 56a6051ca2b02b04ef92d5150c9ef600403cb1de refs/heads/a|\
    ^56a6051ca2b02b04ef92d5150c9ef600403cb1d|
an empty line => 56a6051ca2b02b04ef92d5150c9ef600403cb1de refs/heads/a||
not sorted => # pack-refs with: peeled fully-peeled sorted |\
    56a6051ca2b02b04ef92d5150c9ef600403cb1de refs/heads/b|\
    56a6051ca2b02b04ef92d5150c9ef600403cb1de refs/heads/a|
twice => # pack-refs with: peeled fully-peeled sorted |\
    56a6051ca2b02b04ef92d5150c9ef600403cb1de refs/heads/a|\
    56a6051ca2b02b04ef92d5150c9ef600403cb1de refs/heads/a|
twice without a header => 1111111111111111111111111111111111111111 refs/heads/a|\
    2222222222222222222222222222222222222222 refs/heads/a|
twice with others in between => # pack-refs with: peeled fully-peeled |\
    1111111111111111111111111111111111111111 refs/heads/b|\
    ^2222222222222222222222222222222222222222|\
    3333333333333333333333333333333333333333 refs/heads/a|\
    4444444444444444444444444444444444444444 refs/heads/c|\
    5555555555555555555555555555555555555555 refs/heads/b|
";

/// Files in which git finds `refs/heads/a`, each after what is special.
pub(crate) const WHOLE: &str = "\
no header => 56a6051ca2b02b04ef92d5150c9ef600403cb1de refs/heads/b|\
    56a6051ca2b02b04ef92d5150c9ef600403cb1de refs/heads/a|
capital letters => 56A6051CA2B02B04EF92D5150C9EF600403CB1DE refs/heads/a|
an object behind `^` => # pack-refs with: peeled fully-peeled sorted |\
    56a6051ca2b02b04ef92d5150c9ef600403cb1de refs/heads/a|\
    ^56a6051ca2b02b04ef92d5150c9ef600403cb1de|\
    56a6051ca2b02b04ef92d5150c9ef600403cb1de refs/heads/b|
";

/// Files in which git finds `refs/heads/a`, but of which it lists no reference, each after the name
/// that is the reason.
pub(crate) const DANGEROUS: &str = "\
refs/heads/../b => 1111111111111111111111111111111111111111 refs/heads/a|\
    2222222222222222222222222222222222222222 refs/heads/../b|
refs/heads/./b => 1111111111111111111111111111111111111111 refs/heads/a|\
    2222222222222222222222222222222222222222 refs/heads/./b|
refs/heads//b => 1111111111111111111111111111111111111111 refs/heads/a|\
    2222222222222222222222222222222222222222 refs/heads//b|
refs/heads/b/ => 1111111111111111111111111111111111111111 refs/heads/a|\
    2222222222222222222222222222222222222222 refs/heads/b/|
refs//b => 1111111111111111111111111111111111111111 refs/heads/a|\
    2222222222222222222222222222222222222222 refs//b|
refs/heads/ => 1111111111111111111111111111111111111111 refs/heads/a|\
    2222222222222222222222222222222222222222 refs/heads/|
refs/heads/b/.. => 1111111111111111111111111111111111111111 refs/heads/a|\
    2222222222222222222222222222222222222222 refs/heads/b/..|
";
