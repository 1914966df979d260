//! Tests of `gix_odb`.

mod moving;
mod reads;
mod tables;
