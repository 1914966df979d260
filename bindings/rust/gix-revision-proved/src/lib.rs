//! Merge bases, commit descriptions and revisions: safe types over the proved library
//! `gix_revision`.
//!
//! A [`History`] has commits: those of git's commit-graph file, commits that the program adds, or
//! both. Its methods answer questions about it. Each of them calls a function of the library, whose
//! contract is proved; `docs/PROMISES.md` lists the promises. Every method that returns a
//! `Result` can fail with [`Error::OutOfMemory`], and a question about a
//! [partial](History::set_partial) history also with [`Error::Wants`]. "Errors" lists the others.
//!
//! A [`Repository`] is one on disk. It asks the program `git-proved`, which reads it.
//!
//! # Premises
//!
//! Some answers are promised only for a history with these properties. They concern only the
//! commits that the arguments of the call can reach. Without them a call is still safe. A method
//! that names no premise has none.
//!
//! - *Acyclic*: no chain of parents leads from a commit back to it.
//! - *Ordered generations*: no parent has a greater generation number than its child. A missing
//!   number counts as infinity.
//! - *Older parents*: each parent is strictly older than its child.
//!
//! The commits of an opened commit-graph file, or of an opened chain of such files, are acyclic and
//! have ordered generations. The history stays acyclic if the commits that are added later form no
//! cycle. Its generations stay ordered if these commits have no generation number.
//!
//! # Example
//!
//! ```
//! use gix_revision_proved::{History, Id};
//!
//! let id = |byte| Id([byte; 20]);
//! let mut history = History::new()?;
//! history.insert(id(1), &[], 1, None)?;
//! history.insert(id(2), &[id(1)], 2, None)?;
//! history.insert(id(3), &[id(1)], 3, None)?;
//! assert_eq!(history.merge_bases(id(2), &[id(3)])?, [id(1)]);
//! assert!(history.is_ancestor(id(1), id(3))?);
//! # Ok::<(), gix_revision_proved::Error>(())
//! ```

/// Compiles the examples of the README.
#[cfg(doctest)]
#[doc = include_str!("../README.md")]
struct Readme;

mod repository;

pub use repository::{AskError, Authentic, DescribeOptions, ListOptions, Reference, Repository};

use gix_revision_proved_sys as sys;
use std::collections::hash_map::RandomState;
use std::fmt;
use std::hash::{BuildHasher, Hasher};
use std::iter::FusedIterator;
use std::mem::size_of;
use std::ptr::{self, NonNull};
use std::str::FromStr;

/// The 20 bytes of an id.
///
/// ```
/// use gix_revision_proved::Id;
///
/// let id: Id = "00112233445566778899aabbccddeeff00112233".parse()?;
/// assert_eq!(id.0[1], 0x11);
/// assert_eq!(id.to_string(), "00112233445566778899aabbccddeeff00112233");
/// assert_eq!(format!("{id:?}"), "Id(00112233445566778899aabbccddeeff00112233)");
/// assert!("0011".parse::<Id>().is_err());
/// # Ok::<(), gix_revision_proved::ParseIdError>(())
/// ```
#[repr(transparent)]
#[derive(Clone, Copy, PartialEq, Eq, PartialOrd, Ord, Hash)]
pub struct Id(pub [u8; 20]);

impl Id {
    fn raw(&self) -> *const sys::gix_id {
        ptr::from_ref(self).cast()
    }
}

impl fmt::Display for Id {
    /// Writes 40 hex digits in lower case.
    fn fmt(&self, f: &mut fmt::Formatter<'_>) -> fmt::Result {
        self.0.iter().try_for_each(|byte| write!(f, "{byte:02x}"))
    }
}

impl fmt::Debug for Id {
    fn fmt(&self, f: &mut fmt::Formatter<'_>) -> fmt::Result {
        write!(f, "Id({self})")
    }
}

/// The text is not 40 hex digits.
#[derive(Clone, Copy, Debug, PartialEq, Eq, Hash)]
pub struct ParseIdError;

impl fmt::Display for ParseIdError {
    fn fmt(&self, f: &mut fmt::Formatter<'_>) -> fmt::Result {
        f.write_str("an id is 40 hex digits")
    }
}

impl std::error::Error for ParseIdError {}

impl FromStr for Id {
    type Err = ParseIdError;

    /// Reads 40 hex digits, in upper or lower case.
    fn from_str(text: &str) -> Result<Id, ParseIdError> {
        let digit = |byte: u8| char::from(byte).to_digit(16).map(|it| it as u8);
        let mut id = Id([0; 20]);
        let (pairs, rest) = (text.as_bytes().chunks_exact(2), text.len() % 2);
        if pairs.len() != 20 || rest != 0 {
            return Err(ParseIdError);
        }
        for (byte, pair) in id.0.iter_mut().zip(pairs) {
            let (high, low) = (digit(pair[0]), digit(pair[1]));
            *byte = high.zip(low).map(|(h, l)| 16 * h + l).ok_or(ParseIdError)?;
        }
        Ok(id)
    }
}

impl From<[u8; 20]> for Id {
    fn from(bytes: [u8; 20]) -> Id {
        Id(bytes)
    }
}

impl AsRef<[u8]> for Id {
    fn as_ref(&self) -> &[u8] {
        &self.0
    }
}

/// Why a call failed. The history keeps its commits and can be used again.
#[derive(Clone, Copy, Debug, PartialEq, Eq, Hash)]
#[non_exhaustive]
pub enum Error {
    /// An allocation failed.
    OutOfMemory,
    /// The history has a commit with this id, and keeps it.
    AlreadyThere,
    /// The history does not have the commit to describe.
    NoCommit,
    /// 2^32 commits or more are reachable.
    TooMany,
    /// The bytes are not a commit-graph file that can be opened, or the files are not a chain.
    NoGraph,
    /// A commit of the files has no level, or a level that is not greater than its parents'.
    NoLevels,
    /// The id of a commit is not the hash of its content.
    Altered,
    /// The content is not a commit that can be read.
    Misshapen,
    /// The answer needs a commit that was not added. [`History::wanted`] has its id.
    Wants,
    /// The revision has a fault, with a number from 1 to 27. The part of the text that it names
    /// begins at the byte `start` and has `length` bytes. If the text has these bytes at several
    /// places, `start` is the last one.
    Fault {
        number: u8,
        start: usize,
        length: usize,
    },
    /// The library returned a code, or the kind of a set, that this crate does not know.
    Unknown(i32),
}

/// What the faults mean, in the order of their numbers.
const FAULTS: [&str; 27] = [
    "a second operator, or an operator without a revision",
    "HEAD is meant, and there is no ref HEAD",
    "a range after '^'",
    "text is left over",
    "the text names no revision",
    "the text names no revision, and ends with '^!', '^@' or '^-'",
    "':' alone",
    "':/' alone",
    "'/!' is followed neither by '-' nor by '!'",
    "a commit by its message is not supported",
    "an entry of the index is not supported",
    "no ref or commit has this name, or several commits have it",
    "'@' after a name, without '{'",
    "a brace is never closed",
    "a minus sign before zeros",
    "a negative number in braces after a name",
    "an entry of a reflog after an abbreviated id",
    "an upstream after an abbreviated id",
    "the text in the braces is not a date",
    "reflogs, earlier branches and upstreams are not supported",
    "'~' at the start",
    "a sign in the wrong place",
    "not a number, or too large a number",
    "a step leads to no parent, or starts at no commit",
    "the commit is missing, or not what '^{..}' or ':' asks for",
    "an unknown word in '^{..}'",
    "what '^-' repeats was refused",
];

/// Writes the number of a fault, where it is, and what it means.
fn write_fault(
    f: &mut fmt::Formatter<'_>,
    number: u8,
    start: usize,
    length: usize,
) -> fmt::Result {
    write!(f, "the revision has fault {number}")?;
    if length > 0 {
        write!(f, " at byte {start}")?;
    }
    let place = usize::from(number).checked_sub(1);
    let meaning = place.and_then(|place| FAULTS.get(place));
    write!(f, ": {}", meaning.unwrap_or(&"unknown to this crate"))
}

impl fmt::Display for Error {
    fn fmt(&self, f: &mut fmt::Formatter<'_>) -> fmt::Result {
        match self {
            Error::OutOfMemory => f.write_str("out of memory"),
            Error::AlreadyThere => f.write_str("the history has a commit with this id"),
            Error::NoCommit => f.write_str("the history does not have the commit"),
            Error::TooMany => f.write_str("2^32 commits or more are reachable"),
            Error::NoGraph => {
                f.write_str("the bytes are not a commit-graph file that can be opened")
            }
            Error::NoLevels => {
                f.write_str("levels of the commit-graph file are missing or not ordered")
            }
            Error::Altered => f.write_str("the id of the commit is not the hash of its content"),
            Error::Misshapen => f.write_str("the content is not a commit that can be read"),
            Error::Wants => f.write_str("the answer needs a commit that was not added"),
            Error::Unknown(code) => write!(f, "the library returned the unknown code {code}"),
            Error::Fault {
                number,
                start,
                length,
            } => write_fault(f, *number, *start, *length),
        }
    }
}

impl std::error::Error for Error {}

/// Returns whether the code is `GIX_OK` and not `GIX_NONE`, or the error that it means.
fn answered(code: i32) -> Result<bool, Error> {
    match code {
        sys::GIX_OK => Ok(true),
        sys::GIX_NONE => Ok(false),
        sys::GIX_ALREADY_THERE => Err(Error::AlreadyThere),
        sys::GIX_NO_COMMIT => Err(Error::NoCommit),
        sys::GIX_TOO_MANY => Err(Error::TooMany),
        sys::GIX_NO_GRAPH => Err(Error::NoGraph),
        sys::GIX_NO_LEVELS => Err(Error::NoLevels),
        sys::GIX_ALTERED => Err(Error::Altered),
        sys::GIX_MISSHAPEN => Err(Error::Misshapen),
        sys::GIX_WANTS => Err(Error::Wants),
        sys::GIX_OUT_OF_MEMORY => Err(Error::OutOfMemory),
        _ => Err(Error::Unknown(code)),
    }
}

/// Returns the set that a revision resolves to, or the error that the code means.
fn meant(code: i32, span: &sys::gix_span, fault: &sys::gix_fault) -> Result<Span, Error> {
    if code > sys::GIX_FAULT {
        return Err(Error::Fault {
            number: fault.number,
            start: fault.start,
            length: fault.length,
        });
    }
    answered(code)?;
    Span::of_raw(span).ok_or(Error::Unknown(span.kind as i32))
}

const NO_FAULT: sys::gix_fault = sys::gix_fault {
    number: 0,
    start: 0,
    length: 0,
};

/// Options of [`History::describe`] (git-describe, "Options").
#[derive(Clone, Copy, Debug, PartialEq, Eq, Hash)]
pub struct How {
    /// How many names are considered; more than 32 count as 32. With 0 only the commit's own name
    /// is used.
    pub max_candidates: usize,
    /// How many hex digits of the id are printed; more than 40 count as 40. With 0 the name alone is
    /// printed, or all digits if no name is found.
    pub hex_len: usize,
    /// Follow only first parents.
    pub first_parent: bool,
    /// Print the digits alone if no name is found.
    pub fallback_to_id: bool,
    /// Print depth and digits also if the commit itself has a name. Ignored if `hex_len` is 0.
    pub long_form: bool,
    /// Choose among equally near names as git does: of commits with the same date visit the one that
    /// was met first, and take the name that was visited first. Otherwise the smaller id and the
    /// smaller name come first.
    pub git_order: bool,
}

impl How {
    fn to_raw(self) -> sys::gix_how {
        let How {
            max_candidates,
            hex_len,
            first_parent,
            fallback_to_id,
            long_form,
            git_order,
        } = self;
        sys::gix_how {
            size: size_of::<sys::gix_how>(),
            max_candidates,
            hex_len,
            first_parent,
            fallback_to_id,
            long_form,
            git_order,
        }
    }
}

impl Default for How {
    /// Returns 10 names, 7 digits, and no other option.
    fn default() -> How {
        How {
            max_candidates: 10,
            hex_len: 7,
            first_parent: false,
            fallback_to_id: false,
            long_form: false,
            git_order: false,
        }
    }
}

/// A commit of a history.
#[derive(Clone, Debug, PartialEq, Eq, Hash)]
pub struct Commit {
    /// The parents in git's order.
    pub parents: Vec<Id>,
    /// The commit date in seconds since 1970.
    pub time: i64,
    /// The generation number, if there is one.
    pub generation: Option<u32>,
}

/// A set of commits (gitrevisions, "Specifying Ranges").
#[derive(Clone, Copy, Debug, PartialEq, Eq, Hash)]
pub enum Span {
    /// `id`: what it reaches.
    Include(Id),
    /// `^id`: no commit.
    Exclude(Id),
    /// `from..to`: what `to` reaches and `from` does not.
    Range { from: Id, to: Id },
    /// `theirs...ours`: what exactly one of the two reaches.
    Merge { theirs: Id, ours: Id },
    /// `id^@`: what its parents reach.
    OnlyParents(Id),
    /// `id^!`: the commit alone.
    WithoutParents(Id),
}

impl Span {
    fn to_raw(self) -> sys::gix_span {
        let (kind, first, second) = match self {
            Span::Include(id) => (sys::GIX_INCLUDE, id, id),
            Span::Exclude(id) => (sys::GIX_EXCLUDE, id, id),
            Span::Range { from, to } => (sys::GIX_RANGE, from, to),
            Span::Merge { theirs, ours } => (sys::GIX_MERGE, theirs, ours),
            Span::OnlyParents(id) => (sys::GIX_ONLY_PARENTS, id, id),
            Span::WithoutParents(id) => (sys::GIX_WITHOUT_PARENTS, id, id),
        };
        sys::gix_span {
            kind,
            first: sys::gix_id { bytes: first.0 },
            second: sys::gix_id { bytes: second.0 },
        }
    }

    /// Returns the set, unless its kind is one of a later library.
    fn of_raw(raw: &sys::gix_span) -> Option<Span> {
        let (first, second) = (Id(raw.first.bytes), Id(raw.second.bytes));
        Some(match raw.kind {
            sys::GIX_INCLUDE => Span::Include(first),
            sys::GIX_EXCLUDE => Span::Exclude(first),
            sys::GIX_RANGE => Span::Range {
                from: first,
                to: second,
            },
            sys::GIX_MERGE => Span::Merge {
                theirs: first,
                ours: second,
            },
            sys::GIX_ONLY_PARENTS => Span::OnlyParents(first),
            sys::GIX_WITHOUT_PARENTS => Span::WithoutParents(first),
            _ => return None,
        })
    }
}

/// Returns the version of the C library that is used: its three numbers.
pub fn library_version() -> (u32, u32, u32) {
    // SAFETY: the function has no arguments.
    let version = unsafe { sys::gix_version() };
    (version / 10000, version / 100 % 100, version % 100)
}

/// Returns the number of one thing that is wrong with a commit-graph file, from 1 to 20.
///
/// The names `GIX_GRAPH_..` in `gix_revision.h` say what it is. It is 0 if the file is well-formed,
/// so that [`History::open`] does not return [`Error::NoGraph`].
pub fn graph_fault(bytes: &[u8]) -> u32 {
    // SAFETY: pointer and length are those of a slice.
    unsafe { sys::gix_graph_fault(bytes.as_ptr(), bytes.len()) }
}

/// Returns a random seed for the hash tables of a history.
fn random_seed() -> u64 {
    RandomState::new().build_hasher().finish()
}

/// How many ids are fetched at a time.
const PAGE: usize = 1000;

/// Returns room for `len` ids.
fn room(len: usize) -> Result<Vec<Id>, Error> {
    let mut room = Vec::new();
    room.try_reserve_exact(len)
        .map_err(|_| Error::OutOfMemory)?;
    room.resize(len, Id([0; 20]));
    Ok(room)
}

/// Returns names as C has them.
fn raw_names(names: &[(Id, &[u8])]) -> Vec<sys::gix_name> {
    let name = |(id, text): &(Id, &[u8])| sys::gix_name {
        id: sys::gix_id { bytes: id.0 },
        text: text.as_ptr(),
        text_len: text.len(),
    };
    names.iter().map(name).collect()
}

/// Calls a function that describes a commit, with a larger buffer until the text fits.
fn described(
    mut call: impl FnMut(*mut u8, usize, &mut usize, &mut u32) -> i32,
) -> Result<Option<(Vec<u8>, u32)>, Error> {
    let (mut out, mut count, mut depth) = (vec![0; 64], 0, 0);
    loop {
        let (room, len) = (out.as_mut_ptr(), out.len());
        if !answered(call(room, len, &mut count, &mut depth))? {
            return Ok(None);
        }
        let was = out.len();
        out.resize(count, 0);
        if count <= was {
            return Ok(Some((out, depth)));
        }
    }
}

/// Names of commits, prepared once for many calls of [`History::describe_by`].
///
/// If there are several names for one commit, the first one counts.
#[derive(Debug)]
pub struct Names(NonNull<sys::gix_names>);

// SAFETY: it owns what it points to, and nothing there belongs to the thread that made it.
unsafe impl Send for Names {}

impl Names {
    /// Makes a table of names, with copies of the texts.
    pub fn new(names: &[(Id, &[u8])]) -> Result<Names, Error> {
        let (names, mut at) = (raw_names(names), ptr::null_mut());
        // SAFETY: pointers and lengths are those of slices, and `at` is written.
        answered(unsafe {
            sys::gix_names_new(names.as_ptr(), names.len(), random_seed(), &mut at)
        })?;
        NonNull::new(at).map(Names).ok_or(Error::OutOfMemory)
    }
}

impl Drop for Names {
    fn drop(&mut self) {
        // SAFETY: the library made it, and nothing uses it any more.
        unsafe { sys::gix_names_free(self.0.as_ptr()) }
    }
}

/// Commits, ref names for revisions, and what earlier queries have cached.
#[derive(Debug)]
pub struct History(NonNull<sys::gix_history>);

// SAFETY: it owns what it points to, and nothing there belongs to the thread that made it.
unsafe impl Send for History {}

impl History {
    /// Makes a history without commits.
    pub fn new() -> Result<History, Error> {
        let mut at = ptr::null_mut();
        // SAFETY: pointers and lengths are those of slices, and `at` is written.
        answered(unsafe { sys::gix_history_new(random_seed(), &mut at) })?;
        NonNull::new(at).map(History).ok_or(Error::OutOfMemory)
    }

    /// Makes a history of the commits in git's commit-graph file.
    ///
    /// The bytes are copied. [`History::insert`] adds newer commits.
    ///
    /// # Errors
    ///
    /// [`Error::NoGraph`], of which [`graph_fault`] says more, and [`Error::NoLevels`].
    pub fn open(bytes: &[u8]) -> Result<History, Error> {
        let mut at = ptr::null_mut();
        // SAFETY: pointers and lengths are those of slices, and `at` is written.
        answered(unsafe {
            sys::gix_history_open(bytes.as_ptr(), bytes.len(), random_seed(), &mut at)
        })?;
        NonNull::new(at).map(History).ok_or(Error::OutOfMemory)
    }

    /// Makes a history of the commits in a split commit-graph: a chain of files.
    ///
    /// The lowest file is the first, as in git's file `commit-graph-chain`. The bytes are copied.
    /// [`History::insert`] adds newer commits.
    ///
    /// # Errors
    ///
    /// [`Error::NoGraph`], also if there is no file, and [`Error::NoLevels`].
    pub fn open_chain(files: &[&[u8]]) -> Result<History, Error> {
        let raw = |file: &&[u8]| sys::gix_bytes {
            bytes: file.as_ptr(),
            bytes_len: file.len(),
        };
        let files: Vec<_> = files.iter().map(raw).collect();
        let mut at = ptr::null_mut();
        // SAFETY: pointers and lengths are those of slices, and `at` is written.
        answered(unsafe {
            sys::gix_history_open_chain(files.as_ptr(), files.len(), random_seed(), &mut at)
        })?;
        NonNull::new(at).map(History).ok_or(Error::OutOfMemory)
    }

    fn at(&mut self) -> *mut sys::gix_history {
        self.0.as_ptr()
    }

    /// Adds a commit.
    ///
    /// `parents` are in git's order; they may be added before the commit, after it, or never.
    /// `time` is the commit date in seconds since 1970.
    ///
    /// # Errors
    ///
    /// [`Error::AlreadyThere`].
    pub fn insert(
        &mut self,
        id: Id,
        parents: &[Id],
        time: i64,
        generation: Option<u32>,
    ) -> Result<(), Error> {
        let (has, generation) = (generation.is_some(), generation.unwrap_or(0));
        // SAFETY: the history is alive, inputs come from references, and outputs have room.
        answered(unsafe {
            sys::gix_history_insert(
                self.at(),
                id.raw(),
                parents.as_ptr().cast(),
                parents.len(),
                time,
                has,
                generation,
            )
        })?;
        Ok(())
    }

    /// Adds the commit with this content, after a check of its id.
    ///
    /// The content is what `git cat-file commit` prints. The commit has no generation number.
    ///
    /// # Errors
    ///
    /// - [`Error::Altered`]: the id is not the hash of the content.
    /// - [`Error::Misshapen`]: the content cannot be read as a commit.
    /// - [`Error::AlreadyThere`].
    pub fn insert_object(&mut self, id: Id, content: &[u8]) -> Result<(), Error> {
        // SAFETY: the history is alive, inputs come from references, and outputs have room.
        answered(unsafe {
            sys::gix_history_insert_object(self.at(), id.raw(), content.as_ptr(), content.len())
        })?;
        Ok(())
    }

    /// Makes the history partial, or complete again.
    ///
    /// A partial history may have commits that were not added. A question that needs such a commit
    /// fails with [`Error::Wants`]. An answer is right whatever other commits the history has, but
    /// premises concern these, too.
    ///
    /// ```
    /// use gix_revision_proved::{Error, History, Id};
    ///
    /// let mut history = History::new()?;
    /// let (old, new) = (Id([0x11; 20]), Id([0x22; 20]));
    /// history.set_partial(true);
    /// history.insert(new, &[old], 2, None)?;
    /// assert_eq!(history.is_ancestor(old, new), Err(Error::Wants));
    /// assert_eq!(history.wanted()?, Some(old));
    /// history.insert(old, &[], 1, None)?;
    /// assert_eq!(history.is_ancestor(old, new), Ok(true));
    /// # Ok::<(), Error>(())
    /// ```
    pub fn set_partial(&mut self, partial: bool) {
        // SAFETY: the history is alive, inputs come from references, and outputs have room.
        unsafe { sys::gix_history_set_partial(self.at(), partial) }
    }

    /// Returns the commit that the last question that failed with [`Error::Wants`] needed.
    ///
    /// It is `None` if none did since the history was made partial, or if the history is complete.
    pub fn wanted(&mut self) -> Result<Option<Id>, Error> {
        let mut out = Id([0; 20]);
        let at = ptr::from_mut(&mut out).cast();
        // SAFETY: the history is alive, inputs come from references, and outputs have room.
        let found = answered(unsafe { sys::gix_history_wanted(self.at(), at) })?;
        Ok(found.then_some(out))
    }

    /// Returns the number of commits.
    ///
    /// Each insertion that failed with [`Error::OutOfMemory`] may make it too great by one, until a
    /// commit with its id is added.
    pub fn len(&mut self) -> usize {
        // SAFETY: the history is alive, inputs come from references, and outputs have room.
        unsafe { sys::gix_history_len(self.at()) }
    }

    /// Returns whether there are no commits, with the reservation of [`History::len`].
    pub fn is_empty(&mut self) -> bool {
        self.len() == 0
    }

    /// Returns a commit, or `None` if the history does not have it.
    ///
    /// ```
    /// use gix_revision_proved::{Commit, History, Id};
    ///
    /// let mut history = History::new()?;
    /// history.insert(Id([2; 20]), &[Id([1; 20])], 5, None)?;
    /// let commit = Commit { parents: vec![Id([1; 20])], time: 5, generation: None };
    /// assert_eq!(history.commit(Id([2; 20]))?, Some(commit));
    /// assert_eq!(history.commit(Id([1; 20]))?, None);
    /// # Ok::<(), gix_revision_proved::Error>(())
    /// ```
    pub fn commit(&mut self, id: Id) -> Result<Option<Commit>, Error> {
        let mut fields = sys::gix_commit {
            time: 0,
            generation: 0,
            has_generation: false,
            parents_len: 0,
        };
        let mut parents = room(2)?;
        loop {
            let (at, len) = (parents.as_mut_ptr().cast(), parents.len());
            // SAFETY: the history is alive, inputs come from references, and outputs have room.
            let code =
                unsafe { sys::gix_history_commit(self.at(), id.raw(), &mut fields, at, len) };
            if !answered(code)? {
                return Ok(None);
            }
            if fields.parents_len <= len {
                parents.truncate(fields.parents_len);
                return Ok(Some(Commit {
                    parents,
                    time: fields.time,
                    generation: fields.has_generation.then_some(fields.generation),
                }));
            }
            parents = room(fields.parents_len)?;
        }
    }

    /// Returns how many hex digits of `id` are enough, like `git rev-parse --short`.
    ///
    /// It is the least number, from `least` on and from 4 to 40, such that no other id of a commit
    /// of the history begins with these digits.
    pub fn abbreviate(&mut self, id: Id, least: usize) -> usize {
        // SAFETY: the history is alive, inputs come from references, and outputs have room.
        unsafe { sys::gix_history_abbreviate(self.at(), id.raw(), least) }
    }

    /// Returns the merge bases of `first` and a hypothetical merge of `others`, like
    /// `git merge-base --all`.
    ///
    /// They are sorted: greatest generation number first (a missing one counts as infinity), then
    /// latest date, then smallest id. The list is empty if there is no merge base.
    ///
    /// Premises: [acyclic, ordered generations](crate#premises).
    pub fn merge_bases(&mut self, first: Id, others: &[Id]) -> Result<Vec<Id>, Error> {
        let mut out = room(8)?;
        let mut count = 0;
        loop {
            let (at, len) = (out.as_mut_ptr().cast(), out.len());
            // SAFETY: the history is alive, inputs come from references, and outputs have room.
            answered(unsafe {
                sys::gix_history_merge_bases(
                    self.at(),
                    first.raw(),
                    others.as_ptr().cast(),
                    others.len(),
                    at,
                    len,
                    &mut count,
                )
            })?;
            if count <= len {
                out.truncate(count);
                return Ok(out);
            }
            out = room(count)?;
        }
    }

    /// Returns the best common ancestor of `first` and all of `others`, like
    /// `git merge-base --octopus`.
    ///
    /// If there are several, it is the first in the order of [`History::merge_bases`].
    ///
    /// Premises: [acyclic, ordered generations](crate#premises).
    pub fn octopus(&mut self, first: Id, others: &[Id]) -> Result<Option<Id>, Error> {
        let mut out = Id([0; 20]);
        let at = ptr::from_mut(&mut out).cast();
        // SAFETY: the history is alive, inputs come from references, and outputs have room.
        let found = answered(unsafe {
            sys::gix_history_octopus(
                self.at(),
                first.raw(),
                others.as_ptr().cast(),
                others.len(),
                at,
            )
        })?;
        Ok(found.then_some(out))
    }

    /// Returns whether `ancestor` is reachable from `of`, like `git merge-base --is-ancestor`.
    ///
    /// A commit is reachable from itself, but an id that is not in the history is not.
    ///
    /// Premises: [ordered generations](crate#premises). Without it `true` is still right, but
    /// `false` may be wrong. Cycles do not matter.
    pub fn is_ancestor(&mut self, ancestor: Id, of: Id) -> Result<bool, Error> {
        // SAFETY: the history is alive, inputs come from references, and outputs have room.
        answered(unsafe { sys::gix_history_is_ancestor(self.at(), ancestor.raw(), of.raw()) })
    }

    /// Returns those of `ids` that no other one of them reaches, like
    /// `git merge-base --independent`.
    ///
    /// Each is returned once, in the order of the first places in `ids`.
    ///
    /// Premises: [acyclic, ordered generations](crate#premises).
    pub fn independent(&mut self, ids: &[Id]) -> Result<Vec<Id>, Error> {
        let mut out = room(ids.len())?;
        let mut count = 0;
        let at = out.as_mut_ptr().cast();
        // SAFETY: the history is alive, inputs come from references, and outputs have room.
        answered(unsafe {
            sys::gix_history_independent(
                self.at(),
                ids.as_ptr().cast(),
                ids.len(),
                at,
                ids.len(),
                &mut count,
            )
        })?;
        out.truncate(count);
        Ok(out)
    }

    /// Returns how many commits only `ours` reaches, and how many only `theirs` reaches, like
    /// `git rev-list --left-right --count`.
    ///
    /// Premises: [ordered generations](crate#premises). Without it a count may be too great, but
    /// not too small. Cycles do not matter.
    pub fn ahead_behind(&mut self, ours: Id, theirs: Id) -> Result<(usize, usize), Error> {
        let (mut ahead, mut behind) = (0, 0);
        // SAFETY: the history is alive, inputs come from references, and outputs have room.
        answered(unsafe {
            sys::gix_history_ahead_behind(
                self.at(),
                ours.raw(),
                theirs.raw(),
                &mut ahead,
                &mut behind,
            )
        })?;
        Ok((ahead, behind))
    }

    /// Returns those of `ids` that the history has, each once, in the order of
    /// [`History::merge_bases`].
    pub fn newest_first(&mut self, ids: &[Id]) -> Result<Vec<Id>, Error> {
        let mut out = room(ids.len())?;
        let mut count = 0;
        let at = out.as_mut_ptr().cast();
        // SAFETY: the history is alive, inputs come from references, and outputs have room.
        answered(unsafe {
            sys::gix_history_newest_first(
                self.at(),
                ids.as_ptr().cast(),
                ids.len(),
                at,
                ids.len(),
                &mut count,
            )
        })?;
        out.truncate(count);
        Ok(out)
    }

    /// Returns at most `page` missing parents in rising order, those after the id `after`.
    ///
    /// A missing parent is an id that a commit of the history has as a parent, and that is not in
    /// the history. Without `after` the page is the first. A page with fewer ids is the last.
    ///
    /// ```
    /// use gix_revision_proved::{History, Id};
    ///
    /// let id = |byte| Id([byte; 20]);
    /// let mut history = History::new()?;
    /// history.insert(id(3), &[id(1), id(2)], 3, None)?;
    /// assert_eq!(history.missing(None, 10)?, [id(1), id(2)]);
    /// assert_eq!(history.missing(Some(id(1)), 10)?, [id(2)]);
    /// # Ok::<(), gix_revision_proved::Error>(())
    /// ```
    pub fn missing(&mut self, after: Option<Id>, page: usize) -> Result<Vec<Id>, Error> {
        let mut list = self.all(What::Missing)?;
        let mut from = 0;
        if let Some(after) = after {
            from = list.past(after)?;
        }
        list.read(from, page)
    }

    /// Returns an iterator over all missing parents in rising order.
    ///
    /// They are those of the first call of `next`.
    ///
    /// ```
    /// use gix_revision_proved::{History, Id};
    ///
    /// let id = |byte| Id([byte; 20]);
    /// let mut history = History::new()?;
    /// history.insert(id(3), &[id(2), id(1)], 3, None)?;
    /// assert_eq!(history.missing_parents().collect::<Result<Vec<_>, _>>()?, [id(1), id(2)]);
    /// # Ok::<(), gix_revision_proved::Error>(())
    /// ```
    pub fn missing_parents(&mut self) -> Ids<'_> {
        Ids::of(self, What::Missing, PAGE)
    }

    /// Returns the description of `commit` by its own name or by that of an ancestor, and its
    /// depth, like `git describe`.
    ///
    /// The text is `NAME-DEPTH-gHEX`, or the name alone at depth 0 unless `how.long_form` is set.
    /// If no name is found, the answer is the digits alone or `None`, as `how.fallback_to_id` says.
    /// If `names` has several names for one commit, the first one counts.
    ///
    /// A commit with a name of its own has depth 0. Otherwise the depth is at least the number of
    /// commits that `commit` reaches and the named commit does not. With [older
    /// parents](crate#premises), and if at most `how.max_candidates` and at most 32 ancestors have
    /// names, it is the least such number of all named ancestors.
    ///
    /// # Errors
    ///
    /// [`Error::NoCommit`] and [`Error::TooMany`].
    pub fn describe(
        &mut self,
        commit: Id,
        names: &[(Id, &[u8])],
        how: How,
    ) -> Result<Option<(Vec<u8>, u32)>, Error> {
        let names = raw_names(names);
        let how = how.to_raw();
        // SAFETY: the history is alive, inputs come from references, and outputs have room.
        described(|out, room, count, depth| unsafe {
            sys::gix_history_describe(
                self.at(),
                commit.raw(),
                names.as_ptr(),
                names.len(),
                &how,
                out,
                room,
                count,
                depth,
            )
        })
    }

    /// Returns the description of `commit` like [`History::describe`], by names that were prepared
    /// once.
    ///
    /// ```
    /// use gix_revision_proved::{History, How, Id, Names};
    ///
    /// let id = |byte| Id([byte; 20]);
    /// let mut history = History::new()?;
    /// history.insert(id(1), &[], 1, None)?;
    /// history.insert(id(2), &[id(1)], 2, None)?;
    /// let mut names = Names::new(&[(id(1), b"v1")])?;
    /// let found = history.describe_by(id(1), &mut names, How::default())?;
    /// assert_eq!(found, Some((b"v1".to_vec(), 0)));
    /// let found = history.describe_by(id(2), &mut names, How::default())?;
    /// assert_eq!(found, Some((b"v1-1-g0202020".to_vec(), 1)));
    /// # Ok::<(), gix_revision_proved::Error>(())
    /// ```
    ///
    /// # Errors
    ///
    /// [`Error::NoCommit`] and [`Error::TooMany`].
    pub fn describe_by(
        &mut self,
        commit: Id,
        names: &mut Names,
        how: How,
    ) -> Result<Option<(Vec<u8>, u32)>, Error> {
        let how = how.to_raw();
        // SAFETY: the history is alive, inputs come from references, and outputs have room.
        described(|out, room, count, depth| unsafe {
            sys::gix_history_describe_by(
                self.at(),
                commit.raw(),
                names.0.as_ptr(),
                &how,
                out,
                room,
                count,
                depth,
            )
        })
    }

    /// Gives a ref name, such as `HEAD` or `main`, to an id, for revisions.
    ///
    /// A revision finds only names that were given, letter for letter: `refs/heads/main` is not
    /// found as `main` unless `main` was given, too. If the name was given before, it now stands
    /// for the new id.
    pub fn name(&mut self, name: &[u8], id: Id) -> Result<(), Error> {
        // SAFETY: the history is alive, inputs come from references, and outputs have room.
        answered(unsafe { sys::gix_history_name(self.at(), name.as_ptr(), name.len(), id.raw()) })?;
        Ok(())
    }

    /// Takes a ref name back. Returns whether there was such a name.
    pub fn unname(&mut self, name: &[u8]) -> Result<bool, Error> {
        // SAFETY: the history is alive, inputs come from references, and outputs have room.
        answered(unsafe { sys::gix_history_unname(self.at(), name.as_ptr(), name.len()) })
    }

    /// Resolves a revision such as `main~2..topic` to a set of commits. An abbreviated id wins over
    /// a ref name.
    ///
    /// Relative dates count back from `seconds` since 1970; `offset` is the UTC offset in seconds.
    ///
    /// # Errors
    ///
    /// [`Error::Fault`].
    pub fn resolve(&mut self, text: &[u8], seconds: i64, offset: i32) -> Result<Span, Error> {
        let mut raw = Span::Include(Id([0; 20])).to_raw();
        let mut fault = NO_FAULT;
        // SAFETY: the history is alive, inputs come from references, and outputs have room.
        let code = unsafe {
            sys::gix_history_resolve(
                self.at(),
                text.as_ptr(),
                text.len(),
                seconds,
                offset,
                &mut raw,
                &mut fault,
            )
        };
        meant(code, &raw, &fault)
    }

    /// Resolves a revision like [`History::resolve`], but a ref name wins over an abbreviated id,
    /// as in git.
    ///
    /// # Errors
    ///
    /// [`Error::Fault`].
    pub fn rev_parse(&mut self, text: &[u8], seconds: i64, offset: i32) -> Result<Span, Error> {
        let mut raw = Span::Include(Id([0; 20])).to_raw();
        let mut fault = NO_FAULT;
        // SAFETY: the history is alive, inputs come from references, and outputs have room.
        let code = unsafe {
            sys::gix_history_rev_parse(
                self.at(),
                text.as_ptr(),
                text.len(),
                seconds,
                offset,
                &mut raw,
                &mut fault,
            )
        };
        meant(code, &raw, &fault)
    }

    /// Returns an iterator over the commits of a set in rising order of their ids.
    ///
    /// They are those of the first call of `next`, and are fetched `page` at a time; 0 counts as 1.
    ///
    /// ```
    /// use gix_revision_proved::{History, Id, Span};
    ///
    /// let id = |byte| Id([byte; 20]);
    /// let mut history = History::new()?;
    /// history.insert(id(1), &[], 1, None)?;
    /// history.insert(id(2), &[id(1)], 2, None)?;
    /// history.name(b"main", id(2))?;
    /// let span = history.resolve(b"main", 0, 0)?;
    /// assert_eq!(span, Span::Include(id(2)));
    /// assert_eq!(history.list(span, 1).collect::<Result<Vec<_>, _>>()?, [id(1), id(2)]);
    /// # Ok::<(), gix_revision_proved::Error>(())
    /// ```
    pub fn list(&mut self, span: Span, page: usize) -> Ids<'_> {
        Ids::of(self, What::Span(span), page.max(1))
    }

    /// Returns the number of commits of a set, like `git rev-list --count`.
    pub fn count(&mut self, span: Span) -> Result<usize, Error> {
        let mut count = 0;
        let raw = span.to_raw();
        // SAFETY: the history is alive, inputs come from references, and outputs have room.
        answered(unsafe { sys::gix_history_count(self.at(), &raw, &mut count) })?;
        Ok(count)
    }

    /// Makes a list.
    fn all(&mut self, what: What) -> Result<List, Error> {
        let (history, mut at) = (self.at(), ptr::null_mut());
        answered(match what {
            // SAFETY: the history is alive, inputs come from references, and outputs have room.
            What::Missing => unsafe { sys::gix_history_missing_all(history, &mut at) },
            // SAFETY: the history is alive, inputs come from references, and outputs have room.
            What::Span(span) => unsafe {
                let raw = span.to_raw();
                sys::gix_history_list_all(history, &raw, &mut at)
            },
        })?;
        NonNull::new(at).map(List).ok_or(Error::OutOfMemory)
    }
}

impl Drop for History {
    fn drop(&mut self) {
        // SAFETY: the library made it, and nothing uses it any more.
        unsafe { sys::gix_history_free(self.at()) }
    }
}

/// What a list has.
#[derive(Clone, Copy, Debug)]
enum What {
    Span(Span),
    Missing,
}

/// A list of the library.
#[derive(Debug)]
struct List(NonNull<sys::gix_ids>);

// SAFETY: it owns what it points to, and nothing there belongs to the thread that made it.
unsafe impl Send for List {}

impl List {
    fn len(&mut self) -> usize {
        // SAFETY: the list is alive.
        unsafe { sys::gix_ids_len(self.0.as_ptr()) }
    }

    /// Returns the ids from the place `from` on, at most `most`.
    fn read(&mut self, from: usize, most: usize) -> Result<Vec<Id>, Error> {
        let mut out = room(most.min(self.len().saturating_sub(from)))?;
        let (at, len) = (out.as_mut_ptr().cast(), out.len());
        // SAFETY: the list is alive, and `at` has room for `len` ids.
        let count = unsafe { sys::gix_ids_read(self.0.as_ptr(), from, at, len) };
        out.truncate(count);
        Ok(out)
    }

    /// Returns the place of the first id that is greater than `bound`.
    fn past(&mut self, bound: Id) -> Result<usize, Error> {
        let (mut least, mut end) = (0, self.len());
        while least < end {
            let middle = least + (end - least) / 2;
            if self.read(middle, 1)?.iter().any(|id| *id > bound) {
                end = middle;
            } else {
                least = middle + 1;
            }
        }
        Ok(least)
    }
}

impl Drop for List {
    fn drop(&mut self) {
        // SAFETY: the library made it, and nothing uses it any more.
        unsafe { sys::gix_ids_free(self.0.as_ptr()) }
    }
}

/// Iterator over the ids of a list, which is made when the first one is asked for. It ends after an
/// error.
#[derive(Debug)]
pub struct Ids<'a> {
    history: &'a mut History,
    what: What,
    /// How many ids are fetched at a time.
    page: usize,
    /// The list, once it is made.
    list: Option<List>,
    /// The place of the first id that was not fetched.
    next: usize,
    fetched: std::vec::IntoIter<Id>,
    is_last: bool,
}

impl<'a> Ids<'a> {
    fn of(history: &'a mut History, what: What, page: usize) -> Ids<'a> {
        Ids {
            history,
            what,
            page,
            list: None,
            next: 0,
            fetched: Vec::new().into_iter(),
            is_last: false,
        }
    }

    /// Fetches the next ids.
    fn fetch(&mut self) -> Result<(), Error> {
        let mut list = match self.list.take() {
            Some(list) => list,
            None => self.history.all(self.what)?,
        };
        let ids = list.read(self.next, self.page)?;
        self.next += ids.len();
        self.is_last = self.next >= list.len();
        self.fetched = ids.into_iter();
        self.list = Some(list);
        Ok(())
    }
}

impl Iterator for Ids<'_> {
    type Item = Result<Id, Error>;

    fn next(&mut self) -> Option<Result<Id, Error>> {
        if self.fetched.len() == 0 && !self.is_last {
            if let Err(error) = self.fetch() {
                self.is_last = true;
                return Some(Err(error));
            }
        }
        self.fetched.next().map(Ok)
    }
}

impl FusedIterator for Ids<'_> {}
