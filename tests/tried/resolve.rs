//! Tests `gix_resolve`: resolved revisions, lists and counts, over worked histories, with look-ups
//! and allocations that fail.

mod listing;
mod near;
mod reaching;
mod resolving;
mod sides;
mod texts;
