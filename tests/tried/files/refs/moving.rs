//! Has a reference that another program changes between two readings of its file.

ghost use Rattle.std.specs.Prelude.{[], None};

use gix_files::{FileError, Folders, Memory, Opened};
use gix_ref::References;
use std::alloc::{Allocator, Global};
use std::cell::Cell;
use std::test::Fail;

/// A branch `main`, whose file has another id when it is opened again, and a tag `main` that leads to
/// the branch. It counts how often the file of the branch was opened.
#[derive(Clone, Copy, Drop)]
struct Moving<'a>(&'a Cell<u64>);

/// An open file.
#[derive(Clone, Copy, Drop)]
struct Held(&'static [u8]);

impl Opened for Held {
    // Readings may fail or change, so nothing is promised of the bytes.
    ghost keeps = { ⊥ };

    ghost content = { λ _. [] };

    fn size(&self) -> Result<u64, FileError> {
        Ok(self.0.len() as u64)
    }

    fn read_part(&self, at: u64, buf: &mut [u8]) -> Result<usize, FileError> {
        Memory {
            bytes: self.0,
            most: usize::MAX,
        }
        .read_part(at, buf)
    }
}

impl<'a> Moving<'a> {
    /// Opens the file of the branch.
    fn branch(&self) -> Held {
        let count = self.0.get();
        self.0.set(count.saturating_add(1));
        Held(if count == 0 {
            b"1111111111111111111111111111111111111111\n"
        } else {
            b"2222222222222222222222222222222222222222\n"
        })
    }
}

impl<'a> Folders for Moving<'a> {
    type Opened = Held;

    ghost file = { λ _ _. None };

    fn open(&self, path: &[u8]) -> Result<Option<Held>, FileError> {
        if path.ends_with(b"refs/tags/main") {
            Ok(Some(Held(b"ref: refs/heads/main\n")))
        } else if path.ends_with(b"refs/heads/main") {
            Ok(Some(self.branch()))
        } else {
            Ok(None)
        }
    }

    fn names<A: Allocator>(&self, _path: &[u8], _names: &mut Vec<u8, A>) -> Result<(), FileError> {
        Ok(())
    }

    fn real_path<A: Allocator>(
        &self,
        _path: &[u8],
        _real: &mut Vec<u8, A>,
    ) -> Result<bool, FileError> {
        Ok(false)
    }
}

/// Returns the first byte of the id to which the name `main` leads, if two rules lead to one.
fn led<F: Folders + Drop>(references: &mut References<F>) -> Option<u8> {
    match references.short(b"main") {
        Ok(Some(named)) if named.is_ambiguous => Some(named.reference.id.0[0]),
        _ => None,
    }
}

/// Returns where two answers say that the name leads.
fn two_answers<F: Folders + Drop>(alloc: Global, files: F) -> (Option<u8>, Option<u8>) {
    match References::open(alloc, files, b"r", b"r") {
        Ok(mut references) => (led(&mut references), led(&mut references)),
        Err(_) => (None, None),
    }
}

/// Tests whether an answer opens the file once, though two rules lead to it, and the next answer
/// opens it again.
fn is_opened_once_an_answer(alloc: Global) -> bool {
    let count = Cell::new(0u64);
    two_answers(alloc, Moving(&count)) == (Some(0x11), Some(0x22)) && count.get() == 2
}

#[test]
fn one_answer_has_one_value_of_a_reference(rt: HostRuntime) -> Result<(), Fail> {
    assert!(rt; is_opened_once_an_answer(rt.alloc()));
    Ok(())
}
