//! Finds a repository and reads its settings while each call, and each allocation, fails in turn.

use crate::discover::fake::Fake;
use crate::shared::refusing::Refusing;
use gix_discover::{DiscoverError, Environment, Places, Reason, Settings, Variable, discover};
use std::alloc::{Allocator, Global};
use std::cell::Cell;
use std::io::ErrorKind;
use std::test::Fail;

/// Returns the environment: a current folder below the repository, and a home folder.
fn environment<A: Allocator + Copy>(alloc: A) -> Result<Environment<A>, DiscoverError<A>> {
    let mut environment = Environment::new(alloc, b"/r/sub")?;
    environment.set(alloc, Variable::Home, b"/home")?;
    Ok(environment)
}

/// Tells whether the repository is found, and its setting has the last value.
fn finds<F: Places, A: Allocator + Copy>(alloc: A, files: &F) -> Result<bool, DiscoverError<A>> {
    let environment = environment(alloc)?;
    let layout = discover(alloc, files, &environment)?;
    let settings = Settings::read(alloc, files, &environment, &layout)?;
    let is_last = settings.value(b"t", None, b"k") == Some(Some(b"last"));
    Ok(layout.git_dir.as_slice() == b"../.git".as_slice() && is_last)
}

/// Tells whether the right answer or the refusal comes.
fn is_right<F: Places, A: Allocator + Copy>(alloc: A, files: &F) -> bool {
    match finds(alloc, files) {
        Ok(right) => right,
        Err(error) => matches!(
            error.reason,
            Reason::Failed(ErrorKind::Other) | Reason::OutOfMemory
        ),
    }
}

/// Returns how many calls there are, each of which fails in turn; 0 if a wrong answer comes.
fn failed_calls(alloc: Global) -> u64 {
    for fails in 0..10_000u64 {
        let calls = Cell::new(0u64);
        let files = Fake {
            calls: &calls,
            fails,
        };
        if !is_right(alloc, &files) {
            return 0;
        }
        if calls.get() <= fails {
            return fails;
        }
    }
    0
}

/// Returns how many allocations there are, each of which fails in turn, in the same way.
fn failed_allocations(alloc: Global) -> u64 {
    for before in 0..10_000u64 {
        let calls = Cell::new(0u64);
        let files = Fake {
            calls: &calls,
            fails: u64::MAX,
        };
        let memory = Refusing::new(alloc, before);
        if !is_right(&memory, &files) {
            return 0;
        }
        if !memory.has_refused() {
            return before;
        }
    }
    0
}

#[test]
fn survives_each_failed_call(rt: HostRuntime) -> Result<(), Fail> {
    assert!(rt; failed_calls(rt.alloc()) > 30);
    Ok(())
}

#[test]
fn survives_each_failed_allocation(rt: HostRuntime) -> Result<(), Fail> {
    assert!(rt; failed_allocations(rt.alloc()) > 30);
    Ok(())
}
