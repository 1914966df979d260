//! Has files in memory, of which one call fails, and which may read a few bytes at a time.

ghost use Rattle.std.specs.Prelude.{[], None};

use crate::files::files::Written;
use gix_files::{FileError, Folders, Memory, Opened};
use std::alloc::Allocator;
use std::cell::Cell;
use std::io::ErrorKind;

/// Counts calls. The call with the number `fails` fails.
#[derive(Clone, Copy, Drop)]
struct Turn<'a> {
    calls: &'a Cell<u64>,
    fails: u64,
}

impl<'a> Turn<'a> {
    /// Counts a call, and fails if it is the one.
    fn call(&self) -> Result<(), FileError> {
        let n = self.calls.get();
        self.calls.set(n.saturating_add(1));
        if n == self.fails {
            Err(FileError::Failed(ErrorKind::Other))
        } else {
            Ok(())
        }
    }
}

/// Has files, those of a folder one after another. A read returns at most `most` bytes.
#[derive(Clone, Copy, Drop)]
pub(crate) struct Fake<'a> {
    pub(crate) files: &'a [Written],
    turn: Turn<'a>,
    pub(crate) most: usize,
}

/// Is an open file of these.
#[derive(Clone, Copy, Drop)]
pub(crate) struct Held<'a> {
    bytes: &'a [u8],
    turn: Turn<'a>,
    most: usize,
}

impl<'a> Opened for Held<'a> {
    // Readings may fail or change, so nothing is promised of the bytes.
    ghost keeps = { ⊥ };

    ghost content = { λ _. [] };

    fn size(&self) -> Result<u64, FileError> {
        self.turn.call()?;
        Ok(self.bytes.len() as u64)
    }

    fn read_part(&self, at: u64, buf: &mut [u8]) -> Result<usize, FileError> {
        self.turn.call()?;
        Memory {
            bytes: self.bytes,
            most: self.most,
        }
        .read_part(at, buf)
    }
}

/// Returns what comes after a folder and a slash in a path.
fn below<'p>(path: &'p [u8], folder: &[u8]) -> Option<&'p [u8]> {
    let folder = folder.strip_suffix(b"/").unwrap_or(folder);
    match path.strip_prefix(folder) {
        Some([b'/', rest @ ..]) => Some(rest),
        _ => None,
    }
}

/// Returns the bytes of the file with a path.
fn bytes_at<'a>(files: &'a [Written], path: &[u8]) -> Option<&'a [u8]> {
    for file in files {
        if file.path.as_slice() == path {
            return Some(&file.bytes);
        }
    }
    None
}

/// Tests whether there is a folder with a path.
fn is_folder(files: &[Written], path: &[u8]) -> bool {
    for file in files {
        if below(&file.path, path).is_some() {
            return true;
        }
    }
    false
}

/// Returns what comes before the first slash.
fn first_part(path: &[u8]) -> &[u8] {
    let len = path.iter().position(|b| *b == b'/').unwrap_or(path.len());
    path.get(..len).unwrap_or(path)
}

impl<'a> Fake<'a> {
    /// Has these files. The call on them with the number `fails` fails.
    pub(crate) fn new(
        files: &'a [Written],
        calls: &'a Cell<u64>,
        fails: u64,
        most: usize,
    ) -> Fake<'a> {
        let turn = Turn { calls, fails };
        Fake { files, turn, most }
    }

    /// Counts a call, which fails if it is the one or the path is not UTF-8.
    fn call(&self, path: &[u8]) -> Result<(), FileError> {
        self.turn.call()?;
        if str::from_utf8(path).is_err() {
            return Err(FileError::NotUtf8);
        }
        Ok(())
    }
}

impl<'a> Folders for Fake<'a> {
    type Opened = Held<'a>;

    ghost file = { λ _ _. None };

    fn open(&self, path: &[u8]) -> Result<Option<Held<'a>>, FileError> {
        self.call(path)?;
        match bytes_at(self.files, path) {
            Some(bytes) => Ok(Some(Held {
                bytes,
                turn: self.turn,
                most: self.most,
            })),
            None if is_folder(self.files, path) => Err(FileError::Failed(ErrorKind::IsADirectory)),
            None => Ok(None),
        }
    }

    fn names<A: Allocator>(&self, path: &[u8], names: &mut Vec<u8, A>) -> Result<(), FileError> {
        self.call(path)?;
        let mut last = b"".as_slice();
        for file in self.files {
            let name = first_part(below(&file.path, path).unwrap_or(b""));
            if name != last {
                names.extend_from_slice(name)?;
                names.push(0)?;
                last = name;
            }
        }
        Ok(())
    }

    fn real_path<A: Allocator>(
        &self,
        path: &[u8],
        real: &mut Vec<u8, A>,
    ) -> Result<bool, FileError> {
        self.call(path)?;
        let folder = path.strip_prefix(b"/").unwrap_or(path);
        let is_there = is_folder(self.files, folder);
        if is_there {
            real.extend_from_slice(folder)?;
        }
        Ok(is_there)
    }
}
