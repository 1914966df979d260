//! Tests of `gix_discover` over files in memory: each call on a file and each allocation fails.

mod fake;
mod finds;
mod refspecs;
mod tables;
mod texts;
