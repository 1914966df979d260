//! Tests of `gix_history` and `gix_questions` over a reader in memory.

mod answers;
mod asks;
mod fake;
