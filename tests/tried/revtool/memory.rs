//! Tests the answers of `revtool` while each allocation fails in turn.

use crate::revtool::lines::{Run, run_over};
use crate::revtool::rows::{AFTER_CRISS_CROSS, ALONE, COMMANDS, CRISS_CROSS, row_of};
use crate::shared::refusing::Refusing;
use std::alloc::{AllocError, Global};
use std::test::Fail;

/// The words of answers, and what follows them if there is no memory.
static REFUSALS: [(&[u8], &[u8]); 18] = [
    (b"base ", b"refused M2"),
    (b"octopus ", b"refused M2"),
    (b"octopus-all ", b"refused M2"),
    (b"independent ", b"refused M2"),
    (b"ancestor ", b"refused M2"),
    (b"ahead-behind ", b"refused E2"),
    (b"reachable ", b"refused E2"),
    (b"reachable-count ", b"refused E2"),
    (b"describe ", b"refused D4"),
    (b"describe-as ", b"refused D4"),
    (b"spec ", b"refused P0"),
    (b"rev-parse ", b"refused P0"),
    (b"list ", b"refused P0"),
    (b"list ", b"refused E2"),
    (b"count ", b"refused P0"),
    (b"count ", b"refused E2"),
    (b"rev-list ", b"refused P0"),
    (b"rev-list ", b"refused E2"),
];

/// Tests whether a line is this row, or reports in its place that memory ran out: after the word
/// alone or, for a revision, after some of its calls.
fn is_row_or_refusal(line: &[u8], row: &[u8]) -> bool {
    for (word, refusal) in &REFUSALS {
        if row.starts_with(*word) && line.strip_prefix(*word) == Some(*refusal) {
            return true;
        }
    }
    match line.strip_suffix(b"refused P0") {
        Some(b"parse ") => row.starts_with(b"parse "),
        Some(calls) => {
            calls.starts_with(b"parse ") && calls.ends_with(b"; ") && row.starts_with(calls)
        }
        None => line == row,
    }
}

/// Tests whether each line is its row or an out-of-memory report, and one is a report.
fn are_rows_or_refusals(lines: &[u8], rows: &[u8]) -> bool {
    let mut wanted = rows.split(|byte| *byte == b'\n');
    for line in lines.split(|byte| *byte == b'\n') {
        let Some(row) = wanted.next() else {
            return false;
        };
        if !is_row_or_refusal(line, row) {
            return false;
        }
    }
    wanted.next().is_none() && lines != rows
}

/// The result of a run in which one allocation may fail.
#[derive(Clone, Copy, PartialEq)]
pub enum Came {
    /// It ended as it should.
    Answered,
    /// Its input could not be read.
    Unread,
    /// Some lines report that memory ran out.
    Lacking,
    Wrong,
}

pub fn judged(ran: &Run, (status, written): (u8, &[u8])) -> Came {
    if ran.is(status, written) {
        return Came::Answered;
    }
    if ran.status != 1 {
        return Came::Wrong;
    }
    if ran.output.is_empty() && ran.faults.as_slice() == b"out of memory\n".as_slice() {
        return Came::Unread;
    }
    if status != 2 && ran.faults.is_empty() && are_rows_or_refusals(&ran.output, written) {
        return Came::Lacking;
    }
    Came::Wrong
}

/// How often a run could not read its input, how often some lines ran out of memory, and how often
/// none did, while each allocation fails in turn.
#[derive(Clone, Copy)]
struct Tally {
    unread: u64,
    lacking: u64,
    answered: u64,
}

impl Tally {
    const NONE: Tally = Tally {
        unread: 0,
        lacking: 0,
        answered: 0,
    };

    // Adds a run. Returns `None` if it had another result.
    fn with(self, came: Came) -> Option<Tally> {
        let mut tally = self;
        match came {
            Came::Answered => tally.answered = tally.answered.saturating_add(1),
            Came::Unread => tally.unread = tally.unread.saturating_add(1),
            Came::Lacking => tally.lacking = tally.lacking.saturating_add(1),
            Came::Wrong => return None,
        }
        Some(tally)
    }
}

/// Returns the result of a run if the allocation after some others fails, and whether there is such
/// an allocation.
fn came_with(alloc: Global, text: &[u8], ended: (u8, &[u8]), before: u64) -> (Came, bool) {
    let memory = Refusing::new(alloc, before);
    let mut input = text;
    let came = judged(&run_over(alloc, &memory, &mut input), ended);
    (came, memory.has_refused())
}

/// Runs a row while each allocation fails in turn, and adds the runs to a tally. Returns `None` if
/// a run had another result, or allocations never end.
fn with_refusals(alloc: Global, text: &[u8], ended: (u8, &[u8]), before: Tally) -> Option<Tally> {
    let mut tally = before;
    for number in 0..2000u64 {
        let (came, has_refused) = came_with(alloc, text, ended, number);
        if !has_refused {
            return if came == Came::Answered {
                Some(tally)
            } else {
                None
            };
        }
        tally = tally.with(came)?;
    }
    None
}

/// Adds the runs of a row of a table.
fn row_tally(
    alloc: Global,
    before: &str,
    row: &str,
    all: Tally,
) -> Result<Option<Tally>, AllocError> {
    let row = row_of(alloc, before, row)?;
    Ok(with_refusals(alloc, &row.text, (row.status, &row.written), all))
}

/// Adds the runs of all rows of a table.
fn tally_of(alloc: Global, before: &str, rows: &str) -> Result<Option<Tally>, AllocError> {
    let mut all = Tally::NONE;
    for row in rows.split('\n') {
        match row_tally(alloc, before, row, all)? {
            Some(tally) => all = tally,
            None => return Ok(None),
        }
    }
    Ok(Some(all))
}

// Tests whether lines ran out of memory at least this often, and failures went unseen at most this
// often. A buffer for answers is not needed, nor room to remember the parents of a commit.
fn lacks(tally: Option<Tally>, least: u64, most: u64) -> bool {
    match tally {
        Some(tally) => tally.lacking > least && tally.unread > 20 && tally.answered < most,
        None => false,
    }
}

#[test]
fn each_request_for_memory_is_refused_in_turn(rt: HostRuntime) -> Result<(), Fail> {
    assert!(rt;
        lacks(tally_of(rt.alloc(), CRISS_CROSS, COMMANDS)?, 60, 16),
        "the commands"
    );
    assert!(rt;
        lacks(
            tally_of(rt.alloc(), CRISS_CROSS, AFTER_CRISS_CROSS)?,
            100,
            60
        ),
        "the crossed rows"
    );
    assert!(rt;
        lacks(tally_of(rt.alloc(), "", ALONE)?, 20, 20),
        "rows alone"
    );
    Ok(())
}
