//! Tests of `gix_graph_rows`, and of whole chains of commit-graph files.

mod reads;
mod tables;
mod whole;
