//! Shared by the tests: drivers that make look-ups and allocations fail in turn, small histories,
//! an allocator that refuses one request, and a comparison of what values print.

pub mod faults;
pub mod histories;
pub mod printed;
pub mod refusing;
