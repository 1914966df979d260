//! Reads the texts of tables, and builds the texts of answers.

use gix_base::hash::ObjectId;
use gix_ref::Why;
use std::alloc::Allocator;
use std::io::Write;

/// Tests whether a text begins with a mark, and returns what comes after the mark.
pub(crate) fn after<'t>(text: &'t str, mark: &str) -> (bool, &'t str) {
    match text.strip_prefix(mark) {
        Some(rest) => (true, rest),
        None => (false, text),
    }
}

/// A text that is added to. It notes whether an allocation failed, so that each caller need not.
#[derive(Drop)]
pub(crate) struct Text<A: Allocator> {
    bytes: Vec<u8, A>,
    is_cut: bool,
}

impl<A: Allocator> Text<A> {
    /// Makes an empty text.
    pub(crate) fn new(alloc: A) -> Self {
        Text {
            bytes: Vec::new(alloc),
            is_cut: false,
        }
    }

    /// Adds bytes.
    pub(crate) fn add(&mut self, bytes: &[u8]) {
        if self.bytes.extend_from_slice(bytes).is_err() {
            self.is_cut = true;
        }
    }

    /// Adds the digits of an id.
    pub(crate) fn add_id(&mut self, id: ObjectId) {
        if write!(self.bytes, "{id}").is_err() {
            self.is_cut = true;
        }
    }

    /// Adds a blank, and why a reference was passed over.
    pub(crate) fn add_why(&mut self, why: Why) {
        if write!(self.bytes, " {why:?}").is_err() {
            self.is_cut = true;
        }
    }

    /// Returns the text, or `None` if an allocation failed.
    pub(crate) fn whole(&self) -> Option<&[u8]> {
        if self.is_cut {
            None
        } else {
            Some(self.bytes.as_slice())
        }
    }
}
