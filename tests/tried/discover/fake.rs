//! Has a repository in memory, of which one call fails.

ghost use Rattle.std.specs.Prelude.{[], None};

use gix_discover::{PathKind, Place, Places};
use gix_files::{FileError, Folders, Memory, Opened};
use std::alloc::Allocator;
use std::cell::Cell;
use std::io::ErrorKind;

/// Is a file with its path.
struct Written {
    path: &'static [u8],
    bytes: &'static [u8],
}

/// The files: a repository above the current folder, and the user's settings.
static FILES: [Written; 6] = [
    Written {
        path: b"../.git/HEAD",
        bytes: b"ref: refs/heads/main\n",
    },
    Written {
        path: b"../.git/config",
        bytes: b"[core]\nrepositoryformatversion = 0\n[include]\npath = more\n",
    },
    Written {
        path: b"../.git/more",
        bytes: b"[t]\nk = more\n[includeIf \"onbranch:ma*\"]\npath = last\n",
    },
    Written {
        path: b"../.git/last",
        bytes: b"[t]\nk = last\n",
    },
    Written {
        path: b"/home/.gitconfig",
        bytes: b"[t]\nk = first\n",
    },
    Written {
        path: b"../.git/shallow",
        bytes: b"",
    },
];

/// The folders.
static FOLDERS: [&[u8]; 5] = [b".", b"..", b"../.git", b"../.git/objects", b"../.git/refs"];

/// Has these files. The call with the number `fails` fails.
#[derive(Clone, Copy, Drop)]
pub(crate) struct Fake<'a> {
    pub(crate) calls: &'a Cell<u64>,
    pub(crate) fails: u64,
}

/// Is an open file of these.
#[derive(Clone, Copy, Drop)]
pub(crate) struct Held<'a> {
    bytes: &'static [u8],
    fake: Fake<'a>,
}

impl<'a> Fake<'a> {
    /// Counts a call, and fails if it is the one.
    fn call(&self) -> Result<(), FileError> {
        let n = self.calls.get();
        self.calls.set(n.saturating_add(1));
        if n == self.fails {
            Err(FileError::Failed(ErrorKind::Other))
        } else {
            Ok(())
        }
    }
}

/// Returns the bytes of the file with a path.
fn bytes_at(path: &[u8]) -> Option<&'static [u8]> {
    for file in &FILES {
        if file.path == path {
            return Some(file.bytes);
        }
    }
    None
}

/// Tells whether there is a folder with a path.
fn has_folder(path: &[u8]) -> bool {
    for folder in &FOLDERS {
        if *folder == path {
            return true;
        }
    }
    false
}

impl<'a> Opened for Held<'a> {
    // Readings may fail or change, so nothing is promised of the bytes.
    ghost keeps = { ⊥ };

    ghost content = { λ _. [] };

    fn size(&self) -> Result<u64, FileError> {
        self.fake.call()?;
        Ok(self.bytes.len() as u64)
    }

    fn read_part(&self, at: u64, buf: &mut [u8]) -> Result<usize, FileError> {
        self.fake.call()?;
        Memory {
            bytes: self.bytes,
            most: usize::MAX,
        }
        .read_part(at, buf)
    }
}

impl<'a> Folders for Fake<'a> {
    type Opened = Held<'a>;

    ghost file = { λ _ _. None };

    fn open(&self, path: &[u8]) -> Result<Option<Held<'a>>, FileError> {
        self.call()?;
        match bytes_at(path) {
            Some(bytes) => Ok(Some(Held { bytes, fake: *self })),
            None => Ok(None),
        }
    }

    fn names<A: Allocator>(&self, _path: &[u8], _names: &mut Vec<u8, A>) -> Result<(), FileError> {
        self.call()
    }

    fn real_path<A: Allocator>(
        &self,
        _path: &[u8],
        _real: &mut Vec<u8, A>,
    ) -> Result<bool, FileError> {
        self.call()?;
        Ok(false)
    }
}

/// Returns what is at a path.
fn place_at(path: &[u8]) -> Option<Place> {
    let kind = if has_folder(path) {
        PathKind::Folder
    } else if bytes_at(path).is_some() {
        PathKind::File
    } else {
        return None;
    };
    Some(Place {
        kind,
        owner: 7,
        device: 1,
    })
}

impl<'a> Places for Fake<'a> {
    fn place(&self, path: &[u8]) -> Result<Option<Place>, FileError> {
        self.call()?;
        Ok(place_at(path))
    }

    fn link_place(&self, path: &[u8]) -> Result<Option<Place>, FileError> {
        self.call()?;
        Ok(place_at(path))
    }

    fn own_user(&self) -> Result<u32, FileError> {
        self.call()?;
        Ok(7)
    }
}
