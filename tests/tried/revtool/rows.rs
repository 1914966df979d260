//! Rows of lines, with the status and what is written.

use crate::shared::histories::written_out;
use std::alloc::{AllocError, Global};

pub const CRISS_CROSS: &str =
    "commit [1] 1 -|commit [2] 2 - [1]|commit [3] 2 - [1]|commit [4] 3 - [2] [3]|commit [5] 3 - [2] [3]|";

/// What is read after the criss-cross, the status, and what is written.
pub const AFTER_CRISS_CROSS: &str = "base [9]| => 0 base [9]|
|| => 0
base [4] [5] => 0 base [2] [3]|
base [4] [5]|base [4] [5]| => 0 base [2] [3]|base [2] [3]|
base [4] [9] [5]|base [9] [4]|base [9]| => 0 base [2] [3]|base none|base [9]|
octopus [4] [5]|octopus [4] [5] [4]| => 0 octopus [2]|octopus [2]|
octopus [4] [4] [4]|octopus [9]| => 0 octopus [4]|octopus [9]|
octopus [4] [9]|octopus [9] [4]| => 0 octopus none|octopus none|
base [4] [5]|octopus [4] [5]|base [4] [5]| => 0 base [2] [3]|octopus [2]|base [2] [3]|
name [4] x|describe [4]|describe [4]| => 0 describe x|describe x|
name [2] v|describe [4]| => 0 describe v-2-g4444444|
name [1] v 1|name [3] w|describe [5]| => 0 describe w-2-g5555555|
describe [4]|name [1] v| => 0 describe v-3-g4444444|
describe [4]| => 0 describe none|
name [4] x|describe [1]| => 0 describe none|
name [1] v|describe [9]|describe [1]| => 1 describe refused D2|describe v|
name [1] v|base [4] [5]|describe [2]|base [4] [5]| => 0 base [2] [3]|describe v-1-g2222222|base [2] [3]|
parse [1]|parse ^..|parse [2]| => 1 parse prefix([1]); done|parse kind(ExcludeReachable); refused P3|\
parse prefix([2]); done|
ref [4] HEAD|spec HEAD^2|spec 5555|ref [9] a b|spec a b|base [4] [5]|spec @...5555| => 0 \
spec [3]|spec [5]|spec [9]|base [2] [3]|spec [4]...[5]|
spec HEAD|spec|spec | => 1 spec refused P12|spec refused P5|spec refused P5|
ref [4] 2222-x|spec 2222-x|rev-parse 2222-x|rev-parse 2222|rev-parse 1-g2222^{}..2222-x| => 0 \
spec [2]|rev-parse [4]|rev-parse [2]|rev-parse [2]..[4]|
rev-parse HEAD|rev-parse|rev-parse |rev-parse 2222^{tree}| => 1 \
rev-parse refused P12|rev-parse refused P5|rev-parse refused P5|rev-parse refused P25|
ref [4] HEAD|ref [5] HEAD| => 2 line 7 is unreadable|
ref [4] HEAD|ref [4] head|name [4] HEAD|spec HEAD^!| => 0 spec [4]^!|
base [4] [5]|commit [9] x -| => 2 line 7 is unreadable|";

/// Rows with nothing before their lines.
pub const ALONE: &str = " => 0
commit [1] x -| => 2 line 1 is unreadable|
commit [1] 1 -|commit [2] 2 - [1]|commit [3] 3 - [2]|name [1] v1|describe [3]| => 0 describe v1-2-g3333333|
|base [b] [a]||commit [b] 0 - [a]|commit [a] 0 -| => 0 base [a]|
commit [A] 0 -|commit [b] 0 - [a]|base [B] [a]| => 0 base [a]|
commit [a] -0 0|commit [b] 007 4294967295 [a]|base [a] [b]| => 0 base [a]|
commit [a] -9223372036854775808 00|commit [b] 9223372036854775807 - [a]|base [b] [a]| => 0 base [a]|
commit [a] 0 -|commit [b] 0 - [a] [a]|base [b] [a]| => 0 base [a]|
commit [a] 0 -|name [A] v|describe [a]|describe [A]| => 0 describe v|describe v|
name [a] v|name [A] w| => 2 line 2 is unreadable|
commit [1] 1 -|name [1]  a b|describe [1]| => 0 describe  a b|
commit [a] 0 -|name [a] v#|commit [b] 1 - [a]|describe [a]|describe [b]| => 0 \
describe v\u{fffd}|describe v\u{fffd}-1-gbbbbbbb|
parse|parse |parse ^[A]| => 0 parse done|parse done|parse kind(ExcludeReachable); prefix([a]); done|";

/// All commands after the criss-cross, and a revision that needs memory of its own, in the form of
/// the rows above.
pub const COMMANDS: &str =
    "name [1] v|ref [4] HEAD|base [4] [5]|octopus [4] [5]|parse [1]..[2]|describe [2]|base [4]|parse|octopus [5] [4]|\
describe [2]|parse a^{/\\{}^{/\\}}|base [4] [5]|spec HEAD~2|rev-parse HEAD^2^{}|list HEAD^!|list HEAD^@|list ^HEAD|\
ancestor [1] [4]|independent [4] [5] [1]|octopus-all [4] [5]|ahead-behind [4] [5]|reachable [4] ^[2]|reachable-count [4] [5]|\
describe-as long abbrev=9 [2]|count HEAD^@|rev-list HEAD^!| => 0 \
base [2] [3]|octopus [2]|parse prefix([1]); kind(RangeBetween); prefix([2]); done|describe v-1-g2222222|base [4]|\
parse done|octopus [2]|describe v-1-g2222222|parse find_ref(a); find({); find(}); done|base [2] [3]|spec [1]|rev-parse [3]|list [4]|\
list [1] [2] [3]|list none|ancestor yes|independent [4] [5]|octopus-all [2] [3]|ahead-behind 1 1|reachable [4] [3]|reachable-count 5|\
describe-as v-1-g222222222|count 3|rev-list [4]|";

/// A row: the input, the status, and what is written.
#[derive(Drop)]
pub struct Row {
    pub text: Vec<u8>,
    pub status: u8,
    pub written: Vec<u8>,
}

/// Returns some lines after others.
pub fn text_of(alloc: Global, before: &str, lines: &str) -> Result<Vec<u8>, AllocError> {
    let mut text = written_out(alloc, before)?;
    text.extend_from_slice(&written_out(alloc, lines)?)?;
    Ok(text)
}

/// Returns a row of a table after these lines.
pub fn row_of(alloc: Global, before: &str, row: &str) -> Result<Row, AllocError> {
    let (lines, ended) = row.split_once(" => ").unwrap_or((row, ""));
    let (status, written) = ended.split_once(' ').unwrap_or((ended, ""));
    let text = text_of(alloc, before, lines)?;
    let written = written_out(alloc, written)?;
    Ok(Row {
        text,
        status: match status {
            "0" => 0,
            "1" => 1,
            _ => 2,
        },
        written,
    })
}
