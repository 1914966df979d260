//! Has the files of a repository in memory.

use crate::files::files::{Written, written_out};
use std::alloc::{AllocError, Global};

/// Writes out the file of a row.
fn file_of(alloc: Global, row: &str) -> Result<Written, AllocError> {
    let (path, bytes) = row.split_once(' ').unwrap_or((row, ""));
    let path = written_out(alloc, path)?;
    let bytes = written_out(alloc, bytes)?;
    Ok(Written { path, bytes })
}

/// Writes out all files, sorted by path.
pub(crate) fn files(alloc: Global) -> Result<Vec<Written>, AllocError> {
    let mut files = Vec::new(alloc);
    for row in FILES.lines() {
        files.push(file_of(alloc, row)?)?;
    }
    Ok(files)
}

/// The paths and bytes of the files, sorted by path. `r` is the git folder, with a linked worktree
/// `w`. A bar is a line feed.
const FILES: &str = "\
r/FETCH_HEAD ref: refs/heads/main|
r/FETCH_TO ref: FETCH_HEAD|
r/HEAD ref: refs/heads/main|
r/MERGE_HEAD ref: refs/heads/main
r/MERGE_TO ref: MERGE_HEAD|
r/ZERO_BLANK ref: refs/heads/main \u{0}x|
r/ZERO_ID 56a6051ca2b02b04ef92d5150c9ef600403cb1de\u{0}x|
r/ZERO_NAME ref:\u{0} refs/heads/main|
r/ZERO_REF ref: refs/heads/main\u{0}x|
r/logs/HEAD d8263ee9860594d2806b0dfd1bfd17528b0ba2a4 bf0d87ab1b2b0ec1a11a3973d2845b42413d9767 a \
    <b> 100100 +0000\tcheckout: moving from both to packed|\
    bf0d87ab1b2b0ec1a11a3973d2845b42413d9767 56a6051ca2b02b04ef92d5150c9ef600403cb1de a <b> \
    100200 +0000\tcheckout: moving from packed to main|
r/logs/refs/heads/both
r/logs/refs/heads/main 0000000000000000000000000000000000000000 \
    bf0d87ab1b2b0ec1a11a3973d2845b42413d9767 a <b> 100100 +0130\tcommit: x|\
    bf0d87ab1b2b0ec1a11a3973d2845b42413d9767 7813681f5b41c028345ca62a2be376bae70b7f61 a <b> \
    100200 -0700\tm|\
    bad line|\
    0000000000000000000000000000000000000000 56a6051ca2b02b04ef92d5150c9ef600403cb1de a <b> \
    100300 +0000\tcheckout: moving from packed to main|\
    56a6051ca2b02b04ef92d5150c9ef600403cb1de d8263ee9860594d2806b0dfd1bfd17528b0ba2a4 a <b> 0 \
    +0000\tm|\
    56a6051ca2b02b04ef92d5150c9ef600403cb1de e440e5c842586965a7fb77deda2eca68612b1f53 a <b> \
    100400 +0000 m
r/logs/refs/heads/odd 0000000000000000000000000000000000000000 \
    bf0d87ab1b2b0ec1a11a3973d2845b42413d9767 a <b> 100050 +0000\tx|\
    bf0d87ab1b2b0ec1a11a3973d2845b42413d9767 7813681f5b41c028345ca62a2be376bae70b7f61 a <b> \t \
    100100 +0000\tm|\
    7813681f5b41c028345ca62a2be376bae70b7f61 d8263ee9860594d2806b0dfd1bfd17528b0ba2a4 a <b> \
    +100200 +01305\tm|\
    d8263ee9860594d2806b0dfd1bfd17528b0ba2a4 56a6051ca2b02b04ef92d5150c9ef600403cb1de a <b> -5 \
    +0000\tm|\
    56a6051ca2b02b04ef92d5150c9ef600403cb1de e440e5c842586965a7fb77deda2eca68612b1f53 a <b> \
    99999999999999999999 +0000\tm|\
    e440e5c842586965a7fb77deda2eca68612b1f53 bf0d87ab1b2b0ec1a11a3973d2845b42413d9767 a <b> \
    100300 +000\tm|\
    bf0d87ab1b2b0ec1a11a3973d2845b42413d9767 7813681f5b41c028345ca62a2be376bae70b7f61 a <b> -0 \
    +0000\tm|\
    7813681f5b41c028345ca62a2be376bae70b7f61 e440e5c842586965a7fb77deda2eca68612b1f53 a <b> - 7 \
    +0000\tm|\
    e440e5c842586965a7fb77deda2eca68612b1f53 d8263ee9860594d2806b0dfd1bfd17528b0ba2a4 a\u{0} <b> 7 \
    +0000\tm|\
    e440e5c842586965a7fb77deda2eca68612b1f53 c227083464fb9af8955c90d2924774ee50abb547 a <b> \
    100400 +0000\u{0}\tm|
r/logs/refs/heads/packed 0000000000000000000000000000000000000000 \
    bf0d87ab1b2b0ec1a11a3973d2845b42413d9767 a <b> 100050 +0000\tx|
r/packed-refs # pack-refs with: peeled fully-peeled sorted |\
    e440e5c842586965a7fb77deda2eca68612b1f53 refs/heads/both|\
    c227083464fb9af8955c90d2924774ee50abb547 refs/heads/lost.lock|\
    bf0d87ab1b2b0ec1a11a3973d2845b42413d9767 refs/heads/packed|\
    301160a93062df23030a69f4b5e4d9bf71866ee9 refs/remotes/origin/main|\
    896519d262bef0cf300a6a9f862c48b40772a539 refs/tags/ann|\
    ^62f9457511f879886bb7728c986fe10b0ece6bcb|\
    c7930257dfef505fd996e1d6f22f2f35149990d0 refs/tags/both|
r/refs/bisect/bad f11c82a4cb6cc2e8f3bdf52b5cdeaad4d5bb214e|
r/refs/heads/badname ref: refs/heads/a..b|
r/refs/heads/blanks ref:\t refs/heads/main \r||
r/refs/heads/both d8263ee9860594d2806b0dfd1bfd17528b0ba2a4|
r/refs/heads/broken garbage|
r/refs/heads/caf\u{c3}\u{a9} 2e65efe2a145dda7ee51d1741299f848e5bf752e|
r/refs/heads/chain0 ref: refs/heads/chain1|
r/refs/heads/chain1 ref: refs/heads/chain2|
r/refs/heads/chain2 ref: refs/heads/chain3|
r/refs/heads/chain3 ref: refs/heads/chain4|
r/refs/heads/chain4 ref: refs/heads/main|
r/refs/heads/dang ref: refs/heads/nowhere|
r/refs/heads/empty
r/refs/heads/junk 56a6051ca2b02b04ef92d5150c9ef600403cb1de junk
r/refs/heads/loop ref: refs/heads/loop|
r/refs/heads/main 56a6051ca2b02b04ef92d5150c9ef600403cb1de|
r/refs/heads/sym ref: refs/heads/packed|
r/refs/heads/upper 7813681F5B41C028345CA62A2BE376BAE70B7F61|
r/refs/heads/zeros 0000000000000000000000000000000000000000|
r/refs/odd/caf\u{e9} 56a6051ca2b02b04ef92d5150c9ef600403cb1de|
r/refs/remotes/origin/HEAD ref: refs/remotes/origin/main|
r/worktrees/u/HEAD 56a6051ca2b02b04ef92d5150c9ef600403cb1de|
r/worktrees/w/HEAD 63d8dbd40c23542e740659a7168a0ce3138ea748|
r/worktrees/w/commondir ../..|
r/worktrees/w/gitdir /w/.git|
r/worktrees/w/refs/bisect/bad bf0d87ab1b2b0ec1a11a3973d2845b42413d9767|
";
