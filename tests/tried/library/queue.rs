//! The queue: each call once, and failing allocations.

use crate::shared::refusing::Refusing;
use gix_revision::PriorityQueue;
use std::alloc::{AllocError, Allocator, Global};
use std::test::Fail;

/// The pairs that are added. Two have the same key.
const PAIRS: [(u8, char); 4] = [(2, 'b'), (9, 'i'), (2, 'c'), (5, 'e')];

/// Makes a queue of the pairs.
fn filled<A: Allocator>(alloc: A) -> Result<PriorityQueue<u8, char, A>, AllocError> {
    let mut queue = PriorityQueue::new(alloc);
    for (key, value) in PAIRS {
        if queue.insert(key, value).is_err() {
            return Err(AllocError);
        }
    }
    Ok(queue)
}

/// Returns how often a value occurs.
fn times<A: Allocator>(queue: &PriorityQueue<u8, char, A>, value: char) -> u8 {
    let mut times: u8 = 0;
    for one in queue.iter_unordered() {
        if *one == value {
            times = times.saturating_add(1);
        }
    }
    times
}

/// Tests whether a queue has each value of the pairs once, and nothing else.
fn has_each_once<A: Allocator>(queue: &PriorityQueue<u8, char, A>) -> bool {
    for (_, value) in PAIRS {
        if times(queue, value) != 1 {
            return false;
        }
    }
    queue.len() == 4 && !queue.is_empty()
}

/// Tests whether a queue pops the pairs by falling key.
fn falls(queue: &mut PriorityQueue<u8, char>) -> bool {
    let greatest = queue.pop();
    let next = queue.pop_value();
    let third = queue.pop();
    let last = queue.pop();
    greatest == Some((9, 'i'))
        && next == Some('e')
        && (third == Some((2, 'b')) && last == Some((2, 'c'))
            || third == Some((2, 'c')) && last == Some((2, 'b')))
        && queue.pop().is_none()
        && queue.is_empty()
}

/// Tests whether the queue has all pairs and pops them.
fn works(alloc: Global) -> Result<bool, AllocError> {
    let mut queue = filled(alloc)?;
    Ok(has_each_once(&queue) && falls(&mut queue))
}

/// Tests whether a pair comes back if there is no room for it, and the queue is then empty.
fn hands_back(alloc: Global) -> bool {
    let refusing = Refusing::new(alloc, 0);
    let mut queue = PriorityQueue::new(&refusing);
    queue.insert(5, 'e') == Err((5, 'e')) && queue.is_empty() && queue.insert(5, 'e').is_ok()
}

#[test]
fn a_greatest_key_comes_first(rt: HostRuntime) -> Result<(), Fail> {
    assert!(rt; works(rt.alloc())?);
    assert!(rt; hands_back(rt.alloc()));
    Ok(())
}
