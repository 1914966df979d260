//! Tests of `gix_ref`.

mod answers;
mod files;
mod moving;
mod packed;
mod packed_rows;
mod questions;
mod rows;
mod texts;
