//! Has questions about the references of a repository, and the answers of git 2.39.5.
//!
//! A row is a name, a number if the question needs one, and the answer as a text:
//!
//! ```text
//! !HEAD 1 => bf0d87ab1b2b0ec1a11a3973d2845b42413d9767
//! ```
//!
//! - `!` in front: the question is asked while each call and each allocation fails, too.
//! - `w:` in front of the name: it is asked in the linked worktree.
//! - `nothing` is an answer without a name or an id.
//! - A bar is a line feed, and each other character is the byte of its number.

use super::texts::after;
use crate::files::files::written_out;
use std::alloc::Global;

/// A question.
#[derive(Clone, Copy)]
pub(crate) enum Ask {
    Short,
    Find,
    Follow,
    /// The shortest text that no other rule reads.
    Strict,
    /// The shortest text that no rule before it reads.
    Loose,
    Nth,
    At,
    Before,
    Logged,
    All,
    Heads,
}

/// A question about a name and a number, with its answer as a text.
#[derive(Drop)]
pub(crate) struct Row {
    pub(crate) ask: Ask,
    /// Whether it is asked in the linked worktree.
    pub(crate) is_linked: bool,
    pub(crate) name: Vec<u8>,
    pub(crate) number: usize,
    pub(crate) answer: Vec<u8>,
    /// Whether it is asked while each call and each allocation fails, too.
    pub(crate) fails: bool,
}

/// Reads a row of a table.
pub(crate) fn row_of(alloc: Global, ask: Ask, row: &str) -> Option<Row> {
    let (asked, answer) = row.split_once(" => ")?;
    let (fails, asked) = after(asked, "!");
    let (is_linked, asked) = after(asked, "w:");
    let (name, number) = asked.split_once(' ').unwrap_or((asked, "0"));
    let (_, answer) = after(answer, "nothing");
    let number = number.parse::<usize>().ok()?;
    let name = written_out(alloc, name).ok()?;
    let answer = written_out(alloc, answer).ok()?;
    Some(Row {
        ask,
        is_linked,
        name,
        number,
        answer,
        fails,
    })
}

/// The tables of all questions.
pub(crate) static TABLES: [(Ask, &str); 11] = [
    (Ask::Short, SHORT),
    (Ask::Find, FIND),
    (Ask::Follow, FOLLOW),
    (Ask::Strict, STRICT),
    (Ask::Loose, LOOSE),
    (Ask::Nth, NTH),
    (Ask::At, AT),
    (Ask::Before, BEFORE),
    (Ask::Logged, LOGGED),
    (Ask::All, ALL),
    (Ask::Heads, HEADS),
];

/// Short names, each with the reference that it is short for, the one at its end, and the id. After
/// them is why references were passed over.
const SHORT: &str = "\
main => refs/heads/main refs/heads/main 56a6051ca2b02b04ef92d5150c9ef600403cb1de
!both => refs/tags/both refs/tags/both c7930257dfef505fd996e1d6f22f2f35149990d0 ambiguous
packed => refs/heads/packed refs/heads/packed bf0d87ab1b2b0ec1a11a3973d2845b42413d9767
HEAD => HEAD refs/heads/main 56a6051ca2b02b04ef92d5150c9ef600403cb1de
w:HEAD => HEAD HEAD 63d8dbd40c23542e740659a7168a0ce3138ea748
!sym => refs/heads/sym refs/heads/packed bf0d87ab1b2b0ec1a11a3973d2845b42413d9767
chain1 => refs/heads/chain1 refs/heads/main 56a6051ca2b02b04ef92d5150c9ef600403cb1de
chain0 => nothing LeadsNowhere
FETCH_HEAD => nothing LeadsNowhere
ZERO_NAME => nothing LeadsNowhere
dang => nothing LeadsNowhere
broken => nothing Broken
empty => nothing Broken
blanks => refs/heads/blanks refs/heads/main 56a6051ca2b02b04ef92d5150c9ef600403cb1de
junk => refs/heads/junk refs/heads/junk 56a6051ca2b02b04ef92d5150c9ef600403cb1de
upper => refs/heads/upper refs/heads/upper 7813681f5b41c028345ca62a2be376bae70b7f61
badname => nothing LeadsNowhere
loop => nothing LeadsNowhere
ann => refs/tags/ann refs/tags/ann 896519d262bef0cf300a6a9f862c48b40772a539
tags/ann => refs/tags/ann refs/tags/ann 896519d262bef0cf300a6a9f862c48b40772a539
origin => refs/remotes/origin/HEAD refs/remotes/origin/main \
    301160a93062df23030a69f4b5e4d9bf71866ee9
origin/main => refs/remotes/origin/main refs/remotes/origin/main \
    301160a93062df23030a69f4b5e4d9bf71866ee9
origin/HEAD => refs/remotes/origin/HEAD refs/remotes/origin/main \
    301160a93062df23030a69f4b5e4d9bf71866ee9
bisect/bad => refs/bisect/bad refs/bisect/bad f11c82a4cb6cc2e8f3bdf52b5cdeaad4d5bb214e
w:bisect/bad => refs/bisect/bad refs/bisect/bad bf0d87ab1b2b0ec1a11a3973d2845b42413d9767
refs/heads/both => refs/heads/both refs/heads/both d8263ee9860594d2806b0dfd1bfd17528b0ba2a4
nosuch => nothing
lost.lock => nothing
worktrees/w/HEAD => worktrees/w/HEAD worktrees/w/HEAD 63d8dbd40c23542e740659a7168a0ce3138ea748
main-worktree/HEAD => main-worktree/HEAD refs/heads/main 56a6051ca2b02b04ef92d5150c9ef600403cb1de
w:main-worktree/HEAD => main-worktree/HEAD refs/heads/main 56a6051ca2b02b04ef92d5150c9ef600403cb1de
main-worktree/refs/bisect/bad => main-worktree/refs/bisect/bad main-worktree/refs/bisect/bad \
    f11c82a4cb6cc2e8f3bdf52b5cdeaad4d5bb214e
w:main-worktree/refs/bisect/bad => main-worktree/refs/bisect/bad main-worktree/refs/bisect/bad \
    f11c82a4cb6cc2e8f3bdf52b5cdeaad4d5bb214e
worktrees/w/refs/bisect/bad => worktrees/w/refs/bisect/bad worktrees/w/refs/bisect/bad \
    bf0d87ab1b2b0ec1a11a3973d2845b42413d9767
refs/heads => nothing
caf\u{e8} => nothing
!odd/caf\u{e9} => not UTF-8
";

/// References, and what each one says by itself.
const FIND: &str = "\
refs/heads/main => 56a6051ca2b02b04ef92d5150c9ef600403cb1de
refs/heads/both => d8263ee9860594d2806b0dfd1bfd17528b0ba2a4
refs/heads/packed => bf0d87ab1b2b0ec1a11a3973d2845b42413d9767
!refs/tags/ann => 896519d262bef0cf300a6a9f862c48b40772a539 62f9457511f879886bb7728c986fe10b0ece6bcb
refs/heads/sym => ref: refs/heads/packed
refs/heads/blanks => ref: refs/heads/main
refs/heads/upper => 7813681f5b41c028345ca62a2be376bae70b7f61
refs/heads/junk => 56a6051ca2b02b04ef92d5150c9ef600403cb1de
HEAD => ref: refs/heads/main
refs/heads/broken => broken
refs/heads/empty => broken
refs/heads/badname => broken
nosuch => nothing
refs/heads/a..b => nothing
refs/heads => nothing
@ => nothing
 => nothing
w:HEAD => 63d8dbd40c23542e740659a7168a0ce3138ea748
FETCH_HEAD => broken
MERGE_HEAD => ref: refs/heads/main
main-worktree/FETCH_HEAD => ref: refs/heads/main
ZERO_BLANK => broken
ZERO_ID => 56a6051ca2b02b04ef92d5150c9ef600403cb1de
ZERO_NAME => broken
ZERO_REF => ref: refs/heads/main
";

/// References, and where they lead.
const FOLLOW: &str = "\
!refs/heads/chain1 => refs/heads/main 56a6051ca2b02b04ef92d5150c9ef600403cb1de
refs/heads/chain0 => too deep
refs/heads/loop => too deep
refs/heads/dang => nothing
!refs/heads/broken => broken
refs/heads/nosuch => nothing
FETCH_TO => broken
!MERGE_TO => refs/heads/main 56a6051ca2b02b04ef92d5150c9ef600403cb1de
ZERO_REF => refs/heads/main 56a6051ca2b02b04ef92d5150c9ef600403cb1de
";

/// References, and the shortest names for them that no other rule reads.
const STRICT: &str = "\
refs/heads/both => heads/both
refs/tags/both => tags/both
refs/heads/main => main
refs/remotes/origin/main => origin/main
refs/bisect/bad => bisect/bad
refs/heads/packed => packed
";

/// References, and the shortest names for them that no rule before theirs reads.
const LOOSE: &str = "\
refs/heads/both => heads/both
!refs/tags/both => both
refs/heads/main => main
refs/remotes/origin/main => origin/main
refs/bisect/bad => bisect/bad
refs/heads/packed => packed
";

/// References with numbers of entries in their reflogs, and the ids there.
const NTH: &str = "\
refs/heads/main 0 => 56a6051ca2b02b04ef92d5150c9ef600403cb1de
refs/heads/main 1 => bf0d87ab1b2b0ec1a11a3973d2845b42413d9767
refs/heads/main 2 => bf0d87ab1b2b0ec1a11a3973d2845b42413d9767
refs/heads/main 3 => nothing
HEAD 0 => 56a6051ca2b02b04ef92d5150c9ef600403cb1de
!HEAD 1 => bf0d87ab1b2b0ec1a11a3973d2845b42413d9767
HEAD 2 => d8263ee9860594d2806b0dfd1bfd17528b0ba2a4
HEAD 3 => nothing
refs/heads/packed 0 => bf0d87ab1b2b0ec1a11a3973d2845b42413d9767
refs/heads/packed 1 => nothing
refs/heads/packed 2 => nothing
refs/heads/packed 3 => nothing
refs/heads/both 0 => nothing
refs/heads/both 1 => nothing
refs/heads/both 2 => nothing
refs/heads/both 3 => nothing
refs/heads/odd 0 => c227083464fb9af8955c90d2924774ee50abb547
refs/heads/odd 1 => e440e5c842586965a7fb77deda2eca68612b1f53
refs/heads/odd 2 => 56a6051ca2b02b04ef92d5150c9ef600403cb1de
refs/heads/odd 3 => d8263ee9860594d2806b0dfd1bfd17528b0ba2a4
refs/heads/odd 4 => 7813681f5b41c028345ca62a2be376bae70b7f61
refs/heads/odd 5 => bf0d87ab1b2b0ec1a11a3973d2845b42413d9767
refs/heads/odd 6 => nothing
";

/// References with seconds, and the ids that they had then.
const AT: &str = "\
refs/heads/main 100050 => bf0d87ab1b2b0ec1a11a3973d2845b42413d9767
refs/heads/main 100099 => bf0d87ab1b2b0ec1a11a3973d2845b42413d9767
refs/heads/main 100100 => bf0d87ab1b2b0ec1a11a3973d2845b42413d9767
refs/heads/main 100150 => bf0d87ab1b2b0ec1a11a3973d2845b42413d9767
refs/heads/main 100200 => 7813681f5b41c028345ca62a2be376bae70b7f61
refs/heads/main 100299 => 56a6051ca2b02b04ef92d5150c9ef600403cb1de
refs/heads/main 100300 => 56a6051ca2b02b04ef92d5150c9ef600403cb1de
!refs/heads/main 100350 => 56a6051ca2b02b04ef92d5150c9ef600403cb1de
refs/heads/odd 100099 => bf0d87ab1b2b0ec1a11a3973d2845b42413d9767
refs/heads/odd 100100 => 7813681f5b41c028345ca62a2be376bae70b7f61
refs/heads/odd 100200 => d8263ee9860594d2806b0dfd1bfd17528b0ba2a4
refs/heads/odd 100399 => d8263ee9860594d2806b0dfd1bfd17528b0ba2a4
refs/heads/odd 100400 => c227083464fb9af8955c90d2924774ee50abb547
";

/// HEAD with numbers, and what was checked out so many times before.
const BEFORE: &str = "\
HEAD 0 => nothing
!HEAD 1 => packed
HEAD 2 => both
HEAD 3 => nothing
";

/// Short names of references with a reflog, and the newest entry of each.
const LOGGED: &str = "\
both => refs/heads/both d8263ee9860594d2806b0dfd1bfd17528b0ba2a4
main => refs/heads/main 56a6051ca2b02b04ef92d5150c9ef600403cb1de
packed => refs/heads/packed bf0d87ab1b2b0ec1a11a3973d2845b42413d9767
!sym => refs/heads/packed bf0d87ab1b2b0ec1a11a3973d2845b42413d9767
tags/ann => nothing
";

/// Beginnings of names, and all references whose names begin so.
const ALL: &str = "\
!refs/heads/ch => refs/heads/chain1 56a6051ca2b02b04ef92d5150c9ef600403cb1de ref|\
    refs/heads/chain2 56a6051ca2b02b04ef92d5150c9ef600403cb1de ref|\
    refs/heads/chain3 56a6051ca2b02b04ef92d5150c9ef600403cb1de ref|\
    refs/heads/chain4 56a6051ca2b02b04ef92d5150c9ef600403cb1de ref|\
    refs/heads/chain0 LeadsNowhere|
refs/t => refs/tags/ann 896519d262bef0cf300a6a9f862c48b40772a539 \
    62f9457511f879886bb7728c986fe10b0ece6bcb|\
    refs/tags/both c7930257dfef505fd996e1d6f22f2f35149990d0 \
    c7930257dfef505fd996e1d6f22f2f35149990d0|
refs/heads/caf\u{e8}/ => nothing
 => refs/bisect/bad f11c82a4cb6cc2e8f3bdf52b5cdeaad4d5bb214e|\
    refs/heads/blanks 56a6051ca2b02b04ef92d5150c9ef600403cb1de ref|\
    refs/heads/both d8263ee9860594d2806b0dfd1bfd17528b0ba2a4|\
    refs/heads/caf\u{c3}\u{a9} 2e65efe2a145dda7ee51d1741299f848e5bf752e|\
    refs/heads/chain1 56a6051ca2b02b04ef92d5150c9ef600403cb1de ref|\
    refs/heads/chain2 56a6051ca2b02b04ef92d5150c9ef600403cb1de ref|\
    refs/heads/chain3 56a6051ca2b02b04ef92d5150c9ef600403cb1de ref|\
    refs/heads/chain4 56a6051ca2b02b04ef92d5150c9ef600403cb1de ref|\
    refs/heads/junk 56a6051ca2b02b04ef92d5150c9ef600403cb1de|\
    refs/heads/main 56a6051ca2b02b04ef92d5150c9ef600403cb1de|\
    refs/heads/packed bf0d87ab1b2b0ec1a11a3973d2845b42413d9767 \
    bf0d87ab1b2b0ec1a11a3973d2845b42413d9767|\
    refs/heads/sym bf0d87ab1b2b0ec1a11a3973d2845b42413d9767 ref|\
    refs/heads/upper 7813681f5b41c028345ca62a2be376bae70b7f61|\
    refs/remotes/origin/HEAD 301160a93062df23030a69f4b5e4d9bf71866ee9 ref|\
    refs/remotes/origin/main 301160a93062df23030a69f4b5e4d9bf71866ee9 \
    301160a93062df23030a69f4b5e4d9bf71866ee9|\
    refs/tags/ann 896519d262bef0cf300a6a9f862c48b40772a539 \
    62f9457511f879886bb7728c986fe10b0ece6bcb|\
    refs/tags/both c7930257dfef505fd996e1d6f22f2f35149990d0 \
    c7930257dfef505fd996e1d6f22f2f35149990d0|\
    refs/heads/badname LeadsNowhere|\
    refs/heads/broken Broken|\
    refs/heads/chain0 LeadsNowhere|\
    refs/heads/dang LeadsNowhere|\
    refs/heads/empty Broken|\
    refs/heads/loop LeadsNowhere|\
    refs/heads/lost.lock Broken|\
    refs/heads/zeros Broken|\
    refs/odd/caf\u{e9} NotUtf8|
w: => refs/bisect/bad bf0d87ab1b2b0ec1a11a3973d2845b42413d9767|\
    refs/heads/blanks 56a6051ca2b02b04ef92d5150c9ef600403cb1de ref|\
    refs/heads/both d8263ee9860594d2806b0dfd1bfd17528b0ba2a4|\
    refs/heads/caf\u{c3}\u{a9} 2e65efe2a145dda7ee51d1741299f848e5bf752e|\
    refs/heads/chain1 56a6051ca2b02b04ef92d5150c9ef600403cb1de ref|\
    refs/heads/chain2 56a6051ca2b02b04ef92d5150c9ef600403cb1de ref|\
    refs/heads/chain3 56a6051ca2b02b04ef92d5150c9ef600403cb1de ref|\
    refs/heads/chain4 56a6051ca2b02b04ef92d5150c9ef600403cb1de ref|\
    refs/heads/junk 56a6051ca2b02b04ef92d5150c9ef600403cb1de|\
    refs/heads/main 56a6051ca2b02b04ef92d5150c9ef600403cb1de|\
    refs/heads/packed bf0d87ab1b2b0ec1a11a3973d2845b42413d9767 \
    bf0d87ab1b2b0ec1a11a3973d2845b42413d9767|\
    refs/heads/sym bf0d87ab1b2b0ec1a11a3973d2845b42413d9767 ref|\
    refs/heads/upper 7813681f5b41c028345ca62a2be376bae70b7f61|\
    refs/remotes/origin/HEAD 301160a93062df23030a69f4b5e4d9bf71866ee9 ref|\
    refs/remotes/origin/main 301160a93062df23030a69f4b5e4d9bf71866ee9 \
    301160a93062df23030a69f4b5e4d9bf71866ee9|\
    refs/tags/ann 896519d262bef0cf300a6a9f862c48b40772a539 \
    62f9457511f879886bb7728c986fe10b0ece6bcb|\
    refs/tags/both c7930257dfef505fd996e1d6f22f2f35149990d0 \
    c7930257dfef505fd996e1d6f22f2f35149990d0|\
    refs/heads/badname LeadsNowhere|\
    refs/heads/broken Broken|\
    refs/heads/chain0 LeadsNowhere|\
    refs/heads/dang LeadsNowhere|\
    refs/heads/empty Broken|\
    refs/heads/loop LeadsNowhere|\
    refs/heads/lost.lock Broken|\
    refs/heads/zeros Broken|\
    refs/odd/caf\u{e9} NotUtf8|
";

/// What is checked out in linked worktrees, whatever the name.
const HEADS: &str = "\
! => 63d8dbd40c23542e740659a7168a0ce3138ea748
";
