//! Tests of `gix_odb`, `gix_graph_rows` and `gix_ref` over files in memory: git's answers, and each
//! call and each allocation fails in turn.
//!
//! `gix_commitgraph` opens the same chain of commit-graph files.

mod failures;
mod fake;
mod files;
mod odb;
mod refs;
mod rows;
