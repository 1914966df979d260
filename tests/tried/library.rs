//! Tests of what `gix_revision` exports, except revisions, and of `gix_range`: worked rows, each
//! public call once, and hostile sources and memory.

mod commit_graphs;
mod dates;
mod deep;
mod descriptions;
mod errors;
mod graphs;
mod ids;
mod lists;
mod merge_bases;
mod octopus;
mod painting;
mod questions;
mod queue;
mod ranges;
mod sources;
