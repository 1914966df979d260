//! Tests the answers of `revtool` to lines.

use crate::revtool::rows::{AFTER_CRISS_CROSS, ALONE, COMMANDS, CRISS_CROSS, row_of, text_of};
use crate::revtool::streams::{Ending, Trickle};
use revtool::run;
use std::alloc::{AllocError, Allocator, Global};
use std::io::Read;
use std::test::Fail;

/// Lines that are unreadable after `commit [a] 1 -`, each with its line feed.
const UNREADABLE: &str = "x|
 base [1]|
Base [1]|
name|
name [1]|
name [1] |
name [g] v|
ref|
ref [1]|
ref [1] |
ref [g] v|
describe|
describe [1] |
describe [1] [2]|
commit|
commit |
commit [1]|
commit [1] 1|
commit [1]  1 -|
commit [1] 1 |
commit [1] 1 - |
commit [1] 1 -  [2]|
commit [1] 1 - [2] |
base|
base |
base [1] |
base [1]  [2]|
octopus|
octopus [1] |
octopus [1] x|
octopus-all|
octopus-all [1] |
independent|
independent |
independent [1]  [2]|
ancestor|
ancestor [1]|
ancestor [1] [2] [1]|
ahead-behind [1]|
ahead-behind [1] ^[2]|
reachable|
reachable |
reachable ^|
reachable [1] ^^[2]|
reachable-count|
reachable-count [1] |
describe-as|
describe-as long|
describe-as [1] long|
describe-as [1] [2]|
describe-as  long [1]|
describe-as long always long [1]|
describe-as first-parent first-parent [1]|
describe-as abbrev=7 abbrev=8 [1]|
describe-as abbrev=41 [1]|
describe-as abbrev= [1]|
describe-as abbrev=+7 [1]|
describe-as abbrev [1]|
describe-as candidates=-1 [1]|
describe-as candidates=4294967296 [1]|
describe-as abbrev=0 long [1]|
describe-as tags [1]|
commit 111 1 -|
commit [1]1 1 -|
commit [g] 1 -|
commit [1] x -|
commit [1] - -|
commit [1] +1 -|
commit [1] --1 -|
commit [1] 9223372036854775808 -|
commit [1] -9223372036854775809 -|
commit [1] 1 x|
commit [1] 1 +1|
commit [1] 1 -1|
commit [1] 1 --|
commit [1] 1 4294967296|
commit [1] 1 - [2] x|
base [1]\r|
base [1]\t[2]|
commit [a] 2 -|
commit [A] 2 -|";

/// The result of a run.
#[derive(Drop)]
pub struct Run {
    pub status: u8,
    pub output: Vec<u8>,
    pub faults: Vec<u8>,
}

impl Run {
    /// Tests whether the run ended with this status and wrote this: as faults if the status is 2,
    /// otherwise as output.
    pub fn is(&self, status: u8, written: &[u8]) -> bool {
        let (used, unused) = if status == 2 {
            (&self.faults, &self.output)
        } else {
            (&self.output, &self.faults)
        };
        self.status == status && used.as_slice() == written && unused.is_empty()
    }
}

/// Runs with all memory from `alloc`.
pub fn run_over<R: Read, A: Allocator + Copy>(to: Global, alloc: A, input: &mut R) -> Run {
    let mut output = Vec::new(to);
    let mut faults = Vec::new(to);
    let status = run(alloc, to, input, &mut output, &mut faults);
    Run {
        status,
        output,
        faults,
    }
}

/// Tests whether a run over a text ends so, both if it is read whole and if each read gives one
/// byte.
fn ends(alloc: Global, text: &[u8], status: u8, written: &[u8]) -> bool {
    let mut whole = text;
    run_over(alloc, alloc, &mut whole).is(status, written)
        && run_over(alloc, alloc, &mut Trickle::new(text, Ending::End)).is(status, written)
}

/// Tests whether the lines of a row end as it says.
fn ends_as_said(alloc: Global, before: &str, row: &str) -> Result<bool, AllocError> {
    let row = row_of(alloc, before, row)?;
    Ok(ends(alloc, &row.text, row.status, &row.written))
}

/// Returns the first row of a table that ends otherwise.
fn first_wrong(
    alloc: Global,
    before: &str,
    rows: &'static str,
) -> Result<Option<&'static str>, AllocError> {
    for row in rows.split('\n') {
        if !ends_as_said(alloc, before, row)? {
            return Ok(Some(row));
        }
    }
    Ok(None)
}

/// Tests whether a line is the first unreadable one, as the fourth of its text.
fn is_unreadable(alloc: Global, line: &str) -> Result<bool, AllocError> {
    let mut text = text_of(alloc, "commit [a] 1 -||base [a]|", line)?;
    text.extend_from_slice(b"base x\n")?;
    Ok(ends(alloc, &text, 2, b"line 4 is unreadable\n"))
}

/// Returns the first line that is readable, or not the first unreadable one.
fn first_readable(alloc: Global) -> Result<Option<&'static str>, AllocError> {
    for line in UNREADABLE.split('\n') {
        if !is_unreadable(alloc, line)? {
            return Ok(Some(line));
        }
    }
    Ok(None)
}

#[test]
fn lines_are_answered(rt: HostRuntime) -> Result<(), Fail> {
    assert_eq!(rt;
        first_wrong(rt.alloc(), CRISS_CROSS, AFTER_CRISS_CROSS)?,
        None
    );
    assert_eq!(rt; first_wrong(rt.alloc(), CRISS_CROSS, COMMANDS)?, None);
    assert_eq!(rt; first_wrong(rt.alloc(), "", ALONE)?, None);
    assert_eq!(rt; first_readable(rt.alloc())?, None);
    Ok(())
}
