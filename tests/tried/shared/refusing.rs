//! Has an allocator that refuses one request.

use std::alloc::{AllocError, Allocator};
use std::cell::Cell;

/// Passes on every request except one.
pub struct Refusing<B: Allocator> {
    inner: B,
    before: Cell<u64>,
}

impl<B: Allocator> Refusing<B> {
    /// Refuses the request that comes after `before` others.
    pub fn new(inner: B, before: u64) -> Refusing<B> {
        Refusing {
            inner,
            before: Cell::new(before),
        }
    }

    /// Returns how many requests come before the one that is refused, if that is still to come.
    pub fn requests_left(&self) -> u64 {
        self.before.get()
    }

    /// Tests whether the request was refused, if at most `u64::MAX / 2` others come before it.
    pub fn has_refused(&self) -> bool {
        self.before.get() > u64::MAX / 2
    }
}

impl<B: Allocator> Drop for Refusing<B> {
    fn drop(self) {
        let Self {
            inner: _,
            before: _,
        } = self;
    }
}

// Tests whether this request is the one, and counts it.
fn is_turn(before: &Cell<u64>) -> bool {
    let left = before.get();
    before.set(left.wrapping_sub(1));
    left == 0
}

unsafe impl<B: Allocator> Allocator for Refusing<B> {
    ghost dealloc_token = { λ heap ty ptr. B.dealloc_token heap.inner ty ptr };

    fn allocate(&self, size: usize, align: usize) -> Result<*mut u8, AllocError> {
        if is_turn(&self.before) {
            return Err(AllocError);
        }
        self.inner.allocate(size, align)
    }

    unsafe fn deallocate(&self, ptr: *mut u8, size: usize, align: usize) {
        self.inner.deallocate(ptr, size, align);
    }
}
