//! Runs `revtool` on inputs that fail, and on outputs that fail.

use crate::revtool::lines::run_over;
use crate::revtool::rows::CRISS_CROSS;
use crate::revtool::streams::{Ending, FailingWriter, Trickle};
use crate::shared::histories::written_out;
use revtool::run;
use std::alloc::{AllocError, Global};
use std::test::Fail;

const UNREAD: &[u8] = b"cannot read standard input\n";

/// Tests whether an input that fails after some bytes is reported.
fn fails_after(alloc: Global, count: usize) -> Result<bool, AllocError> {
    let text = written_out(alloc, CRISS_CROSS)?;
    let left = text.get(..count).unwrap_or(&text);
    let mut input = Trickle::new(left, Ending::Failure);
    Ok(run_over(alloc, alloc, &mut input).is(2, UNREAD))
}

/// How many bytes are read before an input fails.
static BYTES: [usize; 3] = [0, 1, 1000];

/// Returns the first number of bytes after which a failing input is read.
fn first_read(alloc: Global) -> Result<Option<usize>, AllocError> {
    for count in &BYTES {
        if !fails_after(alloc, *count)? {
            return Ok(Some(*count));
        }
    }
    Ok(None)
}

#[test]
fn an_input_may_fail(rt: HostRuntime) -> Result<(), Fail> {
    assert_eq!(rt; first_read(rt.alloc())?, None);
    Ok(())
}

/// The result of a run whose output fails: its status, whether the output failed, how often it was
/// written to after that, and whether no fault was written.
#[derive(Clone, Copy)]
struct Unwritten {
    status: u8,
    has_failed: bool,
    later: u64,
    no_faults: bool,
}

/// Makes the criss-cross and many questions.
fn many_lines(alloc: Global) -> Result<Vec<u8>, AllocError> {
    let mut text = written_out(alloc, CRISS_CROSS)?;
    for _ in 0..100u8 {
        text.extend_from_slice(&written_out(alloc, "base [4] [5]|")?)?;
    }
    Ok(text)
}

/// Answers these lines to an output that fails after some calls.
fn with_failing_output(alloc: Global, lines: &[u8], before: u64) -> Unwritten {
    let mut input = lines;
    let mut output = FailingWriter::new(before);
    let mut faults = Vec::new(alloc);
    let status = run(alloc, alloc, &mut input, &mut output, &mut faults);
    Unwritten {
        status,
        has_failed: output.has_failed(),
        later: output.later(),
        no_faults: faults.is_empty(),
    }
}

/// Runs with faults that cannot be written; returns the status, and whether nothing else was
/// written.
fn with_failing_faults(alloc: Global, text: &[u8]) -> (u8, bool) {
    let mut input = text;
    let mut output = Vec::new(alloc);
    let mut faults = FailingWriter::new(0);
    let status = run(alloc, alloc, &mut input, &mut output, &mut faults);
    (status, output.is_empty())
}

/// Tests whether nothing was written after the failed call, if one failed, and the status says so.
fn is_left_alone(left: Unwritten) -> bool {
    left.status == (if left.has_failed { 2 } else { 0 }) && left.later == 0 && left.no_faults
}

/// Returns how many calls many answers need, while each fails in turn. Returns `None` if a failed
/// call is not the last, or the calls never end.
fn calls_of(alloc: Global, lines: &[u8]) -> Option<u64> {
    for before in 0..100u64 {
        let left = with_failing_output(alloc, lines, before);
        if !is_left_alone(left) {
            return None;
        }
        if !left.has_failed {
            return Some(before);
        }
    }
    None
}

fn calls_of_output(alloc: Global) -> Result<Option<u64>, AllocError> {
    let lines = many_lines(alloc)?;
    Ok(calls_of(alloc, &lines))
}

#[test]
fn nothing_is_written_after_a_write_that_failed(rt: HostRuntime) -> Result<(), Fail> {
    assert!(rt; with_failing_faults(rt.alloc(), b"\n") == (0, true));
    assert!(rt; with_failing_faults(rt.alloc(), b"x\n") == (2, true));
    // 8700 bytes, of which at most 1000 were taken at a time, and a flush.
    assert!(rt; calls_of_output(rt.alloc())? > Some(9));
    Ok(())
}
