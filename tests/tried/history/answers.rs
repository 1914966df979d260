//! Asks all questions: with each read failing in turn, and over histories whose old commits are
//! missing.

use crate::history::asks::{all_right, counts_sides, finds_base, reaches};
use crate::history::fake::{Fake, id_of};
use crate::shared::refusing::Refusing;
use gix_history::{History, Loaded, Origin, ReadError};
use gix_revwalk::Seed;
use std::alloc::{Allocator, Global};
use std::test::Fail;

/// Returns a history of 120 commits, which forks at commit 60. Commit `missing` is missing, and the
/// read with the number `fails` fails.
fn short<A: Allocator + Copy>(alloc: A, missing: u32, fails: u64) -> History<Fake, A> {
    let reader = Fake {
        size: 120,
        join: 60,
        missing,
        fails,
        reads: 0,
    };
    History::new(alloc, Seed::default(), reader)
}

/// Tells whether an error says that a read or an allocation failed.
fn is_refusal(error: ReadError) -> bool {
    matches!(error, ReadError::Failed(_) | ReadError::OutOfMemory)
}

/// Asks all questions, and once more if that was refused. Returns how many reads there were, or
/// `None` if an answer was wrong.
fn survives<A: Allocator + Copy>(alloc: A, fails: u64) -> Option<u64> {
    let mut history = short(alloc, 0, fails);
    let right = match all_right(alloc, &mut history) {
        Ok(right) => right,
        Err(error) => is_refusal(error) && all_right(alloc, &mut history) == Ok(true),
    };
    right.then_some(history.reader.reads)
}

/// Returns how many reads there are, each of which fails in turn; 0 if an answer is wrong.
fn failed_reads(alloc: Global) -> u64 {
    for fails in 0..10_000u64 {
        match survives(alloc, fails) {
            Some(reads) if reads <= fails => return fails,
            Some(_) => {}
            None => return 0,
        }
    }
    0
}

/// Returns how many allocations there are, of which each seventh fails in turn, in the same way.
fn failed_allocations(alloc: Global) -> u64 {
    for turn in 0..10_000u64 {
        let memory = Refusing::new(alloc, turn.wrapping_mul(7));
        if survives(&memory, u64::MAX).is_none() {
            return 0;
        }
        if !memory.has_refused() {
            return turn;
        }
    }
    0
}

#[test]
fn survives_each_failed_read(rt: HostRuntime) -> Result<(), Fail> {
    assert!(rt; failed_reads(rt.alloc()) > 100);
    Ok(())
}

#[test]
fn survives_failed_allocations(rt: HostRuntime) -> Result<(), Fail> {
    assert!(rt; failed_allocations(rt.alloc()) > 100);
    Ok(())
}

/// Tells whether questions that do not need a missing commit are answered, and the others not.
fn needs_only_some(alloc: Global) -> bool {
    let mut history = short(alloc, 10, u64::MAX);
    finds_base(alloc, &mut history) == Ok(true)
        && counts_sides(alloc, &mut history, true) == Ok(true)
        && reaches(alloc, &mut history, true, 118, 119) == Ok(false)
        && counts_sides(alloc, &mut history, false) == Err(ReadError::Missing(id_of(10)))
        && reaches(alloc, &mut history, false, 80, 118) == Ok(true)
        && reaches(alloc, &mut history, false, 5, 118) == Err(ReadError::Missing(id_of(10)))
        && history.known.origin(id_of(60)) == Some(Origin::File)
        && history.known.origin(id_of(10)) == None
}

#[test]
fn needs_no_missing_commit(rt: HostRuntime) -> Result<(), Fail> {
    assert!(rt; needs_only_some(rt.alloc()));
    Ok(())
}

/// Returns how many commits the first and the second question about near tips read.
fn reads_of_two(alloc: Global) -> (u64, u64) {
    let mut history = short(alloc, 0, u64::MAX);
    if reaches(alloc, &mut history, false, 110, 118) != Ok(true) {
        return (0, 0);
    }
    let first = history.reader.reads;
    if reaches(alloc, &mut history, false, 114, 118) != Ok(true) {
        return (0, 0);
    }
    (first, history.reader.reads.saturating_sub(first))
}

#[test]
fn keeps_what_was_read(rt: HostRuntime) -> Result<(), Fail> {
    let (first, second) = reads_of_two(rt.alloc());
    assert!(rt; first > 0);
    assert!(rt; first < 100);
    assert!(rt; second == 0);
    Ok(())
}

/// Tells whether commits from a file are refused in authentic mode.
fn refuses_files(alloc: Global) -> bool {
    let mut reader = Fake {
        size: 4,
        join: 4,
        missing: 0,
        fails: u64::MAX,
        reads: 0,
    };
    let mut loaded = Loaded::new(alloc, Seed::default());
    loaded.load(alloc, &[id_of(4)], &mut reader) == Err(ReadError::NotAuthentic(id_of(4)))
        && loaded.len() == 0
}

#[test]
fn refuses_a_file_in_authentic_mode(rt: HostRuntime) -> Result<(), Fail> {
    assert!(rt; refuses_files(rt.alloc()));
    Ok(())
}

/// Returns how many reads a question about commits 49 steps apart takes in a long history.
fn reads_of_near(alloc: Global) -> u64 {
    let reader = Fake {
        size: 10_000,
        join: 9_000,
        missing: 0,
        fails: u64::MAX,
        reads: 0,
    };
    let mut history = History::new(alloc, Seed::default(), reader);
    match reaches(alloc, &mut history, false, 9_900, 9_998) {
        Ok(true) => history.reader.reads,
        _ => 0,
    }
}

#[test]
fn reads_only_what_is_near(rt: HostRuntime) -> Result<(), Fail> {
    let reads = reads_of_near(rt.alloc());
    assert!(rt; reads > 0);
    assert!(rt; reads < 200);
    Ok(())
}
