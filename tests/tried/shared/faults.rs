//! Makes calls over a graph, and compares what comes of them while each look-up and each allocation
//! fails in turn.

use crate::shared::histories::{Row, agrees, source_of};
use crate::shared::refusing::Refusing;
use fixtures::sources::{Counting, Failing, Turn};
use gix_revision::graph::{Commit, Find, FindFault, Graph, MemorySource};
use gix_revision::merge_base::Flags;
use std::alloc::{AllocError, Allocator, Global};

/// How a call was answered.
#[derive(Clone, Copy, PartialEq)]
pub enum Answered {
    AsWanted,
    SourceFailed,
    OutOfMemory,
    Otherwise,
}

impl Answered {
    /// Joins the answer of the next call to those of the calls before it. At most one call of a
    /// list may be refused.
    pub fn joined(self, next: Answered) -> Answered {
        match (self, next) {
            (Answered::AsWanted, one) | (one, Answered::AsWanted) => one,
            _ => Answered::Otherwise,
        }
    }
}

/// A call over a graph whose answer is known.
pub trait Asks {
    /// The commits of the source.
    fn history(&self) -> &'static [Row<'static>];

    /// Makes the call and tells how it was answered. Its arguments are allocated in `alloc`, which
    /// may fail.
    fn ask<S: Find, A: Allocator + Copy>(
        &self,
        to: Global,
        alloc: A,
        graph: &mut Graph<S, Commit<Flags, A>, A>,
    ) -> Result<Answered, AllocError>;
}

/// The result of a call: the answer, the fault count after it, and whether what the graph holds is
/// the source's.
#[derive(Clone, Copy, PartialEq)]
pub struct Came {
    pub answered: Answered,
    pub faults: u64,
    pub agrees: bool,
}

impl Came {
    /// Makes the result of a call with this answer and this fault count, after which the graph
    /// holds what the source has.
    fn of(answered: Answered, faults: u64) -> Came {
        Came {
            answered,
            faults,
            agrees: true,
        }
    }
}

/// Two calls on one graph of any kind, whose answers are known.
pub trait Repeats {
    /// The commits of the source.
    fn commits(&self) -> &'static [Row<'static>];

    /// Tests whether every allocation is needed.
    fn needs_all(&self) -> bool;

    /// Makes both calls on a new graph and returns their results. Their arguments are allocated in
    /// `alloc`, which may fail.
    fn repeat<S: Find, A: Allocator + Copy>(
        &self,
        to: Global,
        alloc: A,
        source: S,
    ) -> Result<(Came, Came), AllocError>;
}

/// Makes one call twice, on a graph of commits with marks.
impl<C: Asks> Repeats for C {
    fn commits(&self) -> &'static [Row<'static>] {
        self.history()
    }

    // A graph need not remember the parents of a commit.
    fn needs_all(&self) -> bool {
        false
    }

    fn repeat<S: Find, A: Allocator + Copy>(
        &self,
        to: Global,
        alloc: A,
        source: S,
    ) -> Result<(Came, Came), AllocError> {
        let mut graph = Graph::new(alloc, source);
        asked_twice(to, alloc, self, &mut graph)
    }
}

// Makes a call and returns its result.
fn asked<C: Asks, S: Find, A: Allocator + Copy>(
    to: Global,
    alloc: A,
    call: &C,
    graph: &mut Graph<S, Commit<Flags, A>, A>,
) -> Result<Came, AllocError> {
    let answered = call.ask(to, alloc, graph)?;
    Ok(Came {
        answered,
        faults: graph.source().faults(),
        agrees: agrees(graph, call.history()),
    })
}

// Makes a call twice on one graph and returns both results.
fn asked_twice<C: Asks, S: Find, A: Allocator + Copy>(
    to: Global,
    alloc: A,
    call: &C,
    graph: &mut Graph<S, Commit<Flags, A>, A>,
) -> Result<(Came, Came), AllocError> {
    let first = asked(to, alloc, call, graph)?;
    let again = asked(to, alloc, call, graph)?;
    Ok((first, again))
}

/// The result of a call with the expected answer, over a source that has not failed.
const WELL: Came = Came {
    answered: Answered::AsWanted,
    faults: 0,
    agrees: true,
};

// Returns how many look-ups were made once a call has the expected answer twice on a graph. Returns
// `None` if it does not.
fn look_ups_on<C: Asks, S: Find>(
    alloc: Global,
    call: &C,
    graph: &mut Graph<Counting<S>, Commit<Flags>>,
) -> Result<Option<u64>, AllocError> {
    let both = asked_twice(alloc, alloc, call, graph)?;
    Ok((both == (WELL, WELL)).then_some(graph.source().questions()))
}

// Returns how many look-ups a call takes that is made twice on a new graph over a source. Returns
// `None` if it does not have the expected answer twice.
fn look_ups<C: Asks, S: Find>(
    alloc: Global,
    call: &C,
    source: S,
) -> Result<Option<u64>, AllocError> {
    let mut graph = Graph::new(alloc, Counting::new(source));
    look_ups_on(alloc, call, &mut graph)
}

// Tests whether a call has the expected answer twice on a new graph, with at most `most` look-ups.
fn is_answered<C: Asks>(alloc: Global, call: &C, most: u64) -> Result<bool, AllocError> {
    let made = look_ups(alloc, call, source_of(alloc, call.history())?)?;
    Ok(made.is_some() && made <= Some(most))
}

/// Returns the index of the first call of a table that does not have the expected answer twice on a
/// new graph, with at most `most` look-ups.
pub fn first_wrong<C: Asks>(
    alloc: Global,
    calls: &[C],
    most: u64,
) -> Result<Option<usize>, AllocError> {
    for (i, call) in calls.iter().enumerate() {
        if !is_answered(alloc, call, most)? {
            return Ok(Some(i));
        }
    }
    Ok(None)
}

/// A call, and how many look-ups it takes on a new graph. Making it again takes none.
#[derive(Clone, Copy)]
pub struct LookUps<C>(pub C, pub u64);

impl<C: Asks> Asks for LookUps<C> {
    fn history(&self) -> &'static [Row<'static>] {
        self.0.history()
    }

    fn ask<S: Find, A: Allocator + Copy>(
        &self,
        to: Global,
        alloc: A,
        graph: &mut Graph<S, Commit<Flags, A>, A>,
    ) -> Result<Answered, AllocError> {
        self.0.ask(to, alloc, graph)
    }
}

/// Tests whether a call has the expected answer twice on a new graph over a source. Both together
/// must make exactly its look-ups.
pub fn is_counted<C: Asks, S: Find>(
    alloc: Global,
    call: &LookUps<C>,
    source: S,
) -> Result<bool, AllocError> {
    Ok(look_ups(alloc, call, source)? == Some(call.1))
}

/// Returns the index of the first call of a table that does not have the expected answer, or that
/// makes more look-ups than its own, or fewer.
pub fn first_miscounted<C: Asks>(
    alloc: Global,
    calls: &[LookUps<C>],
) -> Result<Option<usize>, AllocError> {
    for (i, call) in calls.iter().enumerate() {
        if !is_counted(alloc, call, source_of(alloc, call.history())?)? {
            return Ok(Some(i));
        }
    }
    Ok(None)
}

/// How a look-up fails, the fault count before it, and the answer of the call and the fault count
/// after it.
static FAULTS: [(FindFault, u64, Answered, u64); 3] = [
    (FindFault::Failed, 0, Answered::SourceFailed, 1),
    (
        FindFault::Failed,
        u64::MAX,
        Answered::SourceFailed,
        u64::MAX,
    ),
    (FindFault::OutOfMemory, 5, Answered::OutOfMemory, 5),
];

// Makes two calls over a source whose look-up after some others fails, and whose fault count begins
// at `faults`.
fn with_failure<C: Repeats>(
    alloc: Global,
    calls: &C,
    turn: u64,
    (fault, faults): (FindFault, u64),
) -> Result<(Came, Came), AllocError> {
    let inner = source_of(alloc, calls.commits())?;
    let source = Failing::new(inner, Turn::After(turn), fault, faults);
    calls.repeat(alloc, alloc, source)
}

// Counts the look-ups of a call, each of which fails in turn. Returns `None` unless the call then
// fails, its failure is counted, the graph holds only what the source has, and the second call is
// answered.
fn refused_look_ups<C: Repeats>(
    alloc: Global,
    calls: &C,
    (fault, before, answered, after): (FindFault, u64, Answered, u64),
) -> Result<Option<u64>, AllocError> {
    for turn in 0..50u64 {
        let (first, again) = with_failure(alloc, calls, turn, (fault, before))?;
        if first == Came::of(Answered::AsWanted, before) {
            return Ok(Some(turn));
        }
        if first != Came::of(answered, after) || again != Came::of(Answered::AsWanted, after) {
            return Ok(None);
        }
    }
    Ok(None)
}

// Makes two calls with one allocation refused, and tells whether there was such an allocation.
// Returns `None` if it was made for the arguments of the calls.
fn with_refusal<C: Repeats>(
    alloc: Global,
    calls: &C,
    before: u64,
) -> Result<(Option<(Came, Came)>, bool), AllocError> {
    let source = source_of(alloc, calls.commits())?;
    let refusing = Refusing::new(alloc, before);
    let both = calls.repeat(alloc, &refusing, source).ok();
    Ok((both, refusing.has_refused()))
}

// Tests whether one of two calls ran out of memory and the other was answered; or both were
// answered, if that may be.
fn is_one_refused(both: (Came, Came), needs_all: bool) -> bool {
    let lacking = Came::of(Answered::OutOfMemory, 0);
    both == (lacking, WELL) || both == (WELL, lacking) || !needs_all && both == (WELL, WELL)
}

// Counts the allocations of a call that make it fail, while each allocation of this and the second
// call fails in turn. Returns `None` unless the call then runs out of memory, or is answered if
// that may be; the graph holds only what the source has; and the other call is answered.
fn refused_requests<C: Repeats>(alloc: Global, calls: &C) -> Result<Option<u64>, AllocError> {
    let mut refusals: u64 = 0;
    for before in 0..1000u64 {
        let (both, has_refused) = with_refusal(alloc, calls, before)?;
        let Some(both) = both else {
            continue;
        };
        if !has_refused {
            return Ok((both == (WELL, WELL)).then_some(refusals));
        }
        if !is_one_refused(both, calls.needs_all()) {
            return Ok(None);
        }
        if both.0 != WELL {
            refusals = refusals.saturating_add(1);
        }
    }
    Ok(None)
}

// Counts the look-ups of a call over all ways to fail.
fn refused_by_source<C: Repeats>(alloc: Global, calls: &C) -> Result<Option<u64>, AllocError> {
    let mut all: u64 = 0;
    for fault in &FAULTS {
        match refused_look_ups(alloc, calls, *fault)? {
            Some(some) => all = all.saturating_add(some),
            None => return Ok(None),
        }
    }
    Ok(Some(all))
}

/// Tests whether a call survives each failed look-up and each failed allocation. Exactly `look_ups`
/// look-ups fail it, and more than `requests` allocations.
pub fn survives<C: Repeats>(
    alloc: Global,
    calls: &C,
    look_ups: u64,
    requests: u64,
) -> Result<bool, AllocError> {
    let all = Some(look_ups.saturating_mul(FAULTS.len() as u64));
    Ok(refused_by_source(alloc, calls)? == all && refused_requests(alloc, calls)? > Some(requests))
}

/// Returns how often the first of two calls fails, while each look-up of it and each allocation of
/// both fails in turn. Returns `None` if the calls do not survive one.
pub fn refusals<C: Repeats>(alloc: Global, calls: &C) -> Result<Option<u64>, AllocError> {
    let requests = refused_requests(alloc, calls)?;
    let look_ups = refused_by_source(alloc, calls)?;
    Ok(match (requests, look_ups) {
        (Some(requests), Some(look_ups)) => Some(requests.saturating_add(look_ups)),
        _ => None,
    })
}

/// Returns the index of the first row that does not survive each failed look-up and each failed
/// allocation. Returns the number of rows if too few calls failed.
pub fn first_lost<C: Repeats>(alloc: Global, rows: &[C]) -> Result<Option<usize>, AllocError> {
    let mut all: u64 = 0;
    for (i, row) in rows.iter().enumerate() {
        match refusals(alloc, row)? {
            Some(some) => all = all.saturating_add(some),
            None => return Ok(Some(i)),
        }
    }
    let wanted = (rows.len() as u64).saturating_mul(9);
    Ok(if all < wanted { Some(rows.len()) } else { None })
}
