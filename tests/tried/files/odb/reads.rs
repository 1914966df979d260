//! Reads all objects while each call on a file, and each allocation, fails in turn.

use super::tables::{IDS, files};
use crate::files::failures::{Outcome, Trial, failed_allocations, failed_calls};
use crate::files::fake::Fake;
use gix_base::hash::{ObjectId, Prefix};
use gix_files::Folders;
use gix_odb::{Error, Store};
use std::alloc::Allocator;
use std::cell::Cell;
use std::io::ErrorKind;
use std::test::Fail;

/// Tells whether an error says that a call on a file or an allocation failed.
fn is_refusal(error: Error) -> bool {
    matches!(
        error,
        Error::Failed(_, ErrorKind::Other) | Error::OutOfMemory
    )
}

/// Opens the store, once more if the first try was refused.
fn opened<F: Folders + Copy + Drop, A: Allocator + Copy>(
    alloc: A,
    files: F,
) -> Option<Store<F, A>> {
    match Store::open(alloc, files, b"first") {
        Ok(store) => Some(store),
        Err(error) if is_refusal(error) => Store::open(alloc, files, b"first").ok(),
        Err(_) => None,
    }
}

/// What is asked of a store.
#[derive(Clone, Copy)]
enum Ask {
    /// Whether the object with an id is read.
    Read(ObjectId),
    /// Whether the store has the object.
    Has(ObjectId),
    /// Whether a header says the kind of the object.
    Tells(ObjectId),
    /// Whether the id is the only one that begins with a prefix.
    Completes(ObjectId, Prefix),
    /// Whether a missing object is reported.
    Misses,
}

/// Tells whether the object with an id is read.
fn reads<F: Folders + Drop, A: Allocator + Copy>(
    alloc: A,
    store: &mut Store<F, A>,
    id: ObjectId,
) -> Result<bool, Error> {
    match store.read(alloc, id) {
        Ok(_) => Ok(true),
        Err(error) => Err(error),
    }
}

/// Tells whether a missing object is reported.
fn misses<F: Folders + Drop, A: Allocator + Copy>(
    alloc: A,
    store: &mut Store<F, A>,
) -> Result<bool, Error> {
    match reads(alloc, store, ObjectId([0xf3; 20])) {
        Ok(_) => Ok(false),
        Err(Error::Missing(_)) => Ok(true),
        Err(error) => Err(error),
    }
}

/// Tells whether the id is the only one that begins with its first digits.
fn completes<F: Folders + Drop, A: Allocator + Copy>(
    alloc: A,
    store: &mut Store<F, A>,
    id: ObjectId,
    prefix: Prefix,
) -> Result<bool, Error> {
    let ids = store.completions(alloc, prefix, 2)?;
    Ok(ids.as_slice() == [id].as_slice())
}

/// Asks once.
fn asked<F: Folders + Drop, A: Allocator + Copy>(
    alloc: A,
    store: &mut Store<F, A>,
    ask: Ask,
) -> Result<bool, Error> {
    match ask {
        Ask::Read(id) => reads(alloc, store, id),
        Ask::Has(id) => store.has(alloc, id),
        Ask::Tells(id) => Ok(store.told_kind(alloc, id)? == store.kind(alloc, id)?),
        Ask::Completes(id, prefix) => completes(alloc, store, id, prefix),
        Ask::Misses => misses(alloc, store),
    }
}

/// Says what came of a question whose answer is to be yes.
fn outcome_of(answer: Result<bool, Error>) -> Outcome {
    match answer {
        Ok(true) => Outcome::Right,
        Ok(false) => Outcome::Wrong,
        Err(error) if is_refusal(error) => Outcome::Failed,
        Err(_) => Outcome::Wrong,
    }
}

/// Tells whether the answer is yes, at the second try if the first was refused.
///
/// A store that has passed over a folder is not whole, and may refuse once more.
fn holds<F: Folders + Drop, A: Allocator + Copy>(
    alloc: A,
    store: &mut Store<F, A>,
    ask: Ask,
    is_whole: bool,
) -> bool {
    let mut outcome = outcome_of(asked(alloc, store, ask));
    if outcome == Outcome::Failed {
        outcome = outcome_of(asked(alloc, store, ask));
    }
    match outcome {
        Outcome::Right => true,
        Outcome::Wrong => false,
        Outcome::Failed => !is_whole,
    }
}

/// Tells whether the object with an id is found and read.
fn is_found<F: Folders + Drop, A: Allocator + Copy>(
    alloc: A,
    store: &mut Store<F, A>,
    digits: &str,
    is_whole: bool,
) -> bool {
    let first = digits.as_bytes().get(..4).unwrap_or(&[]);
    let (Ok(id), Ok(prefix)) = (
        ObjectId::from_hex(digits.as_bytes()),
        Prefix::from_hex(first),
    ) else {
        return false;
    };
    holds(alloc, store, Ask::Completes(id, prefix), is_whole)
        && holds(alloc, store, Ask::Has(id), is_whole)
        && holds(alloc, store, Ask::Tells(id), is_whole)
        && holds(alloc, store, Ask::Read(id), is_whole)
}

/// Tells whether all objects are found and read, and no other.
fn are_found<F: Folders + Drop, A: Allocator + Copy>(
    alloc: A,
    store: &mut Store<F, A>,
    is_whole: bool,
) -> bool {
    for digits in &IDS {
        if !is_found(alloc, store, digits, is_whole) {
            return false;
        }
    }
    holds(alloc, store, Ask::Misses, is_whole)
}

/// Tells whether a new store reads all objects, or refuses those of a folder that it passed over.
fn reads_all<F: Folders + Copy + Drop, A: Allocator + Copy>(
    alloc: A,
    files: F,
    is_whole: bool,
) -> bool {
    match &mut opened(alloc, files) {
        Some(store) => are_found(alloc, store, is_whole),
        None => false,
    }
}

/// Tells whether a new store reads all objects while no call fails.
fn reads_anew<A: Allocator + Copy>(alloc: A, files: Fake<'_>) -> bool {
    let calls = Cell::new(0u64);
    let files = Fake::new(files.files, &calls, u64::MAX, files.most);
    reads_all(alloc, files, true)
}

/// Reads all objects while a call fails. A store that is opened then has to read all of them.
struct Calls;

impl Trial for Calls {
    fn holds<A: Allocator + Copy>(&self, alloc: A, files: Fake<'_>) -> bool {
        reads_all(alloc, files, false) && reads_anew(alloc, files)
    }
}

/// Reads all objects while an allocation fails.
struct Allocations;

impl Trial for Allocations {
    fn holds<A: Allocator + Copy>(&self, alloc: A, files: Fake<'_>) -> bool {
        reads_all(alloc, files, true)
    }
}

#[test]
fn survives_each_failed_call(rt: HostRuntime) -> Result<(), Fail> {
    let files = files(rt.alloc())?;
    assert!(rt; failed_calls(rt.alloc(), &files, usize::MAX, &Calls) > 30);
    assert!(rt; failed_calls(rt.alloc(), &files, 100, &Calls) > 60);
    Ok(())
}

#[test]
fn survives_each_failed_allocation(rt: HostRuntime) -> Result<(), Fail> {
    let files = files(rt.alloc())?;
    assert!(rt; failed_allocations(rt.alloc(), &files, usize::MAX, &Allocations) > 30);
    Ok(())
}
