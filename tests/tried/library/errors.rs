//! Refusals, and lists that are never empty.

use gix_revision::error::{Exn, NonEmpty};
use std::alloc::{AllocError, Global};
use std::test::Fail;

/// Tests whether a list of one has this one, and no list is made of nothing.
fn holds_one(alloc: Global) -> bool {
    let one = NonEmpty::new(alloc, 7u8);
    *one.first() == 7 && one.len() == 1 && NonEmpty::<u8>::from_vec(Vec::new(alloc)).is_none()
}

/// Tests whether these are 3, 1 and 2.
fn are_three(list: &NonEmpty<u8>) -> bool {
    *list.first() == 3 && list.len() == 3 && list.iter().eq([3u8, 1, 2].iter())
}

/// Tests whether a list of three has them in their order.
fn holds_three(alloc: Global) -> Result<bool, AllocError> {
    Ok(match &NonEmpty::from_vec(vec![in alloc; 3u8, 1, 2]?) {
        Some(list) => are_three(list),
        None => false,
    })
}

/// Tests whether a refusal has this message, tells whether memory ran out, and has nothing else.
fn says(refused: &Exn, message: &str, out_of_memory: bool) -> bool {
    refused.message.as_str() == message
        && refused.input.is_none()
        && refused.causes.is_empty()
        && refused.out_of_memory == out_of_memory
}

/// Tests whether both refusals say what they should.
fn both_say_so(alloc: Global) -> bool {
    says(&Exn::new(alloc, "no such ref"), "no such ref", false)
        && says(&Exn::out_of_memory(alloc), "out of memory", true)
}

/// Makes a refusal that another one led to, with a leaf before or after it.
fn one_more(alloc: Global, inner: Exn, is_leaf_first: bool) -> Result<Exn, AllocError> {
    let mut outer = Exn::new(alloc, "outer");
    outer.causes.push(inner)?;
    outer.causes.push(Exn::new(alloc, "leaf"))?;
    if is_leaf_first {
        outer.causes.reverse();
    }
    Ok(outer)
}

/// Drops a refusal that 200,000 others led to, each inside the next, on the stack of a test.
fn lets_go_of_deep_causes(alloc: Global) -> Result<bool, AllocError> {
    let mut deep = Exn::new(alloc, "innermost");
    for i in 0..200_000 {
        deep = one_more(alloc, deep, i % 2 == 0)?;
    }
    Ok(deep.causes.len() == 2)
}

#[test]
fn lists_and_refusals_keep_what_they_are_given(rt: HostRuntime) -> Result<(), Fail> {
    assert!(rt; holds_one(rt.alloc()));
    assert!(rt; holds_three(rt.alloc())?);
    assert!(rt; both_say_so(rt.alloc()));
    assert!(rt; lets_go_of_deep_causes(rt.alloc())?);
    Ok(())
}
