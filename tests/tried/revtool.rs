//! Tests of `revtool`, and of the calls that a revision makes, which its recorder writes down:
//! worked rows, and hostile delegates, streams and memory.

mod braces;
mod calls;
mod cut_short;
mod delegate;
mod failing;
mod lines;
mod memory;
mod rows;
mod streams;
mod texts;
