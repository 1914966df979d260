//! Has a pack that another program replaces by one of another name after each listing.

ghost use Rattle.std.specs.Prelude.{None};

use super::tables::{IDS, files};
use crate::files::fake::{Fake, Held};
use crate::files::files::Written;
use gix_base::hash::{ObjectId, Prefix};
use gix_files::{FileError, Folders};
use gix_odb::{Error, Store};
use std::alloc::{Allocator, Global};
use std::cell::Cell;
use std::test::Fail;

/// The pack `a` of the tables. A listing says the name that the pack has then, and the pack has the
/// next name before it is opened. It stays from the listing with the number `last` on.
#[derive(Clone, Copy, Drop)]
struct Repacked<'a> {
    files: Fake<'a>,
    listings: &'a Cell<u64>,
    last: u64,
}

impl<'a> Repacked<'a> {
    /// Returns the letter that is the name of the pack at a listing.
    fn letter(&self, listing: u64) -> u8 {
        b'a'.saturating_add(listing.min(self.last).min(100) as u8)
    }

    /// Tells whether a path is that of a file of the pack as it is named now, without its end.
    fn is_now(&self, path: &[u8]) -> bool {
        self.listings.get() >= self.last && path == [self.letter(self.last)].as_slice()
    }
}

impl<'a> Folders for Repacked<'a> {
    type Opened = Held<'a>;

    ghost file = { λ _ _. None };

    fn open(&self, path: &[u8]) -> Result<Option<Held<'a>>, FileError> {
        match path.strip_prefix(b"first/pack/") {
            Some(name) if name.strip_suffix(b".idx").is_some_and(|name| self.is_now(name)) => {
                self.files.open(b"first/pack/a.idx")
            }
            Some(name) if name.strip_suffix(b".pack").is_some_and(|name| self.is_now(name)) => {
                self.files.open(b"first/pack/a.pack")
            }
            _ => Ok(None),
        }
    }

    fn names<A: Allocator>(&self, path: &[u8], names: &mut Vec<u8, A>) -> Result<(), FileError> {
        if path == b"first/pack".as_slice() {
            let listing = self.listings.get().saturating_add(1);
            self.listings.set(listing);
            for end in [".idx", ".pack"] {
                names.push(self.letter(listing))?;
                names.extend_from_slice(end.as_bytes())?;
                names.push(0)?;
            }
        }
        Ok(())
    }

    fn real_path<A: Allocator>(
        &self,
        path: &[u8],
        real: &mut Vec<u8, A>,
    ) -> Result<bool, FileError> {
        self.files.real_path(path, real)
    }
}

/// Says what a store tells of the last id of the pack.
#[derive(Clone, Copy, PartialEq, Eq)]
enum Told {
    There,
    Missing,
    Failed,
}

/// Says what an answer tells.
fn told(answer: Result<bool, Error>) -> Told {
    match answer {
        Ok(true) => Told::There,
        Ok(false) | Err(Error::Missing(_)) => Told::Missing,
        Err(_) => Told::Failed,
    }
}

/// What is asked of a store.
#[derive(Clone, Copy)]
enum Ask {
    Read,
    Has,
    Completes,
}

/// Asks a new store for an object while the pack has another name at each listing.
fn asked(alloc: Global, written: &[Written], last: u64, ask: Ask) -> Told {
    let calls = Cell::new(0u64);
    let listings = Cell::new(0u64);
    let files = Repacked {
        files: Fake::new(written, &calls, u64::MAX, usize::MAX),
        listings: &listings,
        last,
    };
    let id = ObjectId::from_hex(IDS[0].as_bytes());
    let prefix = Prefix::from_hex(IDS[0].as_bytes());
    let (Ok(id), Ok(prefix), Ok(mut store)) = (id, prefix, Store::open(alloc, files, b"first"))
    else {
        return Told::Failed;
    };
    told(match ask {
        Ask::Read => store.read(alloc, id).map(|_| true),
        Ask::Has => store.has(alloc, id),
        Ask::Completes => store.completions(alloc, prefix, 2).map(|ids| ids.len() == 1),
    })
}

/// Tells whether all questions are answered so, whenever the pack stays.
fn are_all(alloc: Global, written: &[Written], lasts: &[u64], wanted: Told) -> bool {
    lasts.iter().all(|last| {
        [Ask::Read, Ask::Has, Ask::Completes]
            .iter()
            .all(|ask| asked(alloc, written, *last, *ask) == wanted)
    })
}

#[test]
fn finds_a_pack_that_was_replaced_after_it_was_listed(rt: HostRuntime) -> Result<(), Fail> {
    let written = files(rt.alloc())?;
    assert!(rt; are_all(rt.alloc(), &written, &[1, 2, 3, 4, 9, 10], Told::There));
    Ok(())
}

#[test]
fn fails_if_other_packs_are_listed_each_time(rt: HostRuntime) -> Result<(), Fail> {
    let written = files(rt.alloc())?;
    assert!(rt; are_all(rt.alloc(), &written, &[12, 100], Told::Failed));
    Ok(())
}
