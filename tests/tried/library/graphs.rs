//! Graphs: each call once, failing look-ups, and failing allocations.

use crate::shared::faults::{Answered, Came, Repeats, survives};
use crate::shared::histories::{CRISS_CROSS, Row, agrees, id, source_of};
use crate::shared::refusing::Refusing;
use fixtures::sources::{Counting, Failing, Turn};
use gix_revision::graph::{Commit, Error, Find, FindFault, Graph, MemorySource};
use gix_revision::hash::ObjectId;
use gix_revision::merge_base::{Flags, merge_base};
use std::alloc::{AllocError, Allocator, Global};
use std::mem::replace;
use std::test::Fail;

/// A commit whose parent the source does not have.
pub const FIRST: Row<'static> = Row(1, -10, None, &[9]);

/// A line: [3] on [2], [2] on [1], and [1] on a commit that the source does not have.
pub const LINE: &[Row<'static>] = &[FIRST, Row(2, 20, Some(7), &[1]), Row(3, 30, None, &[2, 9])];

/// A call on a graph of commits with numbers as data.
#[derive(Clone, Copy)]
enum Step {
    /// Loads a commit with this data, and reads its data.
    Take(u8, u8),
    /// Writes this data to a held commit, and reads it.
    Write(u8, u8),
    /// Reads the data of a held commit.
    Read(u8),
    /// Gives this data to all held commits.
    Fill(u8),
    Clear,
}

type CountedCommits = Graph<Counting<MemorySource>, Commit<u8>>;

/// Loads a commit with this data and returns its data.
fn taken(
    alloc: Global,
    graph: &mut CountedCommits,
    digit: u8,
    data: u8,
) -> Result<Option<u8>, Error> {
    let place = graph.get_or_insert_full_commit(alloc, id(digit), data)?;
    Ok(place.data().copied())
}

/// Writes this data to a held commit and returns its data.
fn written(graph: &mut CountedCommits, digit: u8, data: u8) -> Option<u8> {
    let place = graph.data_mut(&id(digit))?;
    *place = data;
    Some(*place)
}

/// Returns the data of a held commit.
fn held(graph: &CountedCommits, digit: u8) -> Option<u8> {
    let commit = graph.get(&id(digit))?;
    Some(*commit.data())
}

/// Makes a step and returns what it reads.
fn read_by(alloc: Global, graph: &mut CountedCommits, step: Step) -> Result<Option<u8>, Error> {
    match step {
        Step::Take(digit, data) => return taken(alloc, graph, digit, data),
        Step::Write(digit, data) => return Ok(written(graph, digit, data)),
        Step::Read(digit) => return Ok(held(graph, digit)),
        Step::Fill(data) => graph.clear_commit_data(data),
        Step::Clear => graph.clear(),
    }
    Ok(None)
}

/// A step, what it reads, how many commits are held then, and how many were looked up.
static STEPS: [(Step, Option<u8>, usize, u64); 14] = [
    (Step::Read(2), None, 0, 0),
    (Step::Take(2, 5), Some(5), 1, 1),
    (Step::Write(2, 6), Some(6), 1, 1),
    // The data of a held commit stays.
    (Step::Take(2, 7), Some(6), 1, 1),
    (Step::Take(9, 5), None, 1, 2),
    (Step::Read(9), None, 1, 2),
    (Step::Write(3, 4), None, 1, 2),
    (Step::Take(3, 4), Some(4), 2, 3),
    (Step::Read(2), Some(6), 2, 3),
    (Step::Fill(1), None, 2, 3),
    (Step::Read(2), Some(1), 2, 3),
    (Step::Read(3), Some(1), 2, 3),
    (Step::Clear, None, 0, 3),
    (Step::Take(2, 8), Some(8), 1, 4),
];

/// Tests whether this many commits are held and were looked up, all held ones agree with the
/// source, and [1] is not among them.
fn is_at(graph: &CountedCommits, held: usize, look_ups: u64) -> bool {
    graph.len() == held
        && graph.source().questions() == look_ups
        && agrees(graph, LINE)
        && !graph.contains(&id(1))
}

/// Tests whether the steps do what they say. What is held must agree with the source all the time.
fn do_as_said(alloc: Global, graph: &mut CountedCommits) -> bool {
    for (call, read, held, look_ups) in &STEPS {
        if read_by(alloc, graph, *call) != Ok(*read) || !is_at(graph, *held, *look_ups) {
            return false;
        }
    }
    graph.contains(&id(2))
}

/// Tests the steps on a new graph, which gives its source back.
fn steps_are_done(alloc: Global) -> Result<bool, AllocError> {
    let mut graph = Graph::new(alloc, Counting::new(source_of(alloc, LINE)?));
    let done = do_as_said(alloc, &mut graph);
    Ok(graph.into_source().questions() == 4 && done)
}

/// Writes a number for an id, and returns the old one.
fn replaced(graph: &mut Graph<MemorySource, u32>, id: ObjectId, number: u32) -> Option<u32> {
    Some(replace(graph.get_mut(&id)?, number))
}

/// Tests whether a graph holds numbers whatever the source has.
fn hold_numbers(graph: &mut Graph<MemorySource, u32>) -> Result<bool, Error> {
    let first = graph.insert(id(9), 1)?;
    let second = graph.insert(id(9), 2)?;
    let third = replaced(graph, id(9), 4);
    Ok(
        first == None
            && second == Some(1)
            && third == Some(2)
            && graph.get(&id(9)).copied() == Some(4)
            && replaced(graph, id(1), 4) == None
            && graph.len() == 1,
    )
}

fn numbers_are_held(alloc: Global) -> Result<bool, AllocError> {
    let mut graph = Graph::new(alloc, source_of(alloc, LINE)?);
    Ok(hold_numbers(&mut graph) == Ok(true))
}

#[test]
fn commits_and_numbers_are_held(rt: HostRuntime) -> Result<(), Fail> {
    assert!(rt; steps_are_done(rt.alloc())?);
    assert!(rt; numbers_are_held(rt.alloc())?);
    Ok(())
}

/// Loads [3], [2] and [1] with the data 1.
fn take_all<S: Find, A: Allocator + Copy>(
    alloc: A,
    graph: &mut Graph<S, Commit<u8, A>, A>,
) -> Result<(), Error> {
    for digit in [3, 2, 1] {
        graph.get_or_insert_full_commit(alloc, id(digit), 1)?;
    }
    Ok(())
}

/// Loads all and returns the result: the answer, the fault count, and whether the held commits are
/// the source's. All three are held after an answer, fewer otherwise.
fn came<S: Find, A: Allocator + Copy>(alloc: A, graph: &mut Graph<S, Commit<u8, A>, A>) -> Came {
    let answered = match take_all(alloc, graph) {
        Ok(()) => Answered::AsWanted,
        Err(Error::Source) => Answered::SourceFailed,
        Err(Error::OutOfMemory) => Answered::OutOfMemory,
    };
    let are_all = graph.len() == LINE.len();
    Came {
        answered,
        faults: graph.source().faults(),
        agrees: agrees(graph, LINE) && are_all == (answered == Answered::AsWanted),
    }
}

/// The call that loads all commits.
struct Takes;

impl Repeats for Takes {
    fn commits(&self) -> &'static [Row<'static>] {
        LINE
    }

    fn needs_all(&self) -> bool {
        true
    }

    fn repeat<S: Find, A: Allocator + Copy>(
        &self,
        _to: Global,
        alloc: A,
        source: S,
    ) -> Result<(Came, Came), AllocError> {
        let mut graph = Graph::new(alloc, source);
        let first = came(alloc, &mut graph);
        Ok((first, came(alloc, &mut graph)))
    }
}

/// The commit for which the source fails, and how many are held then.
static FAILS_FOR: [(u8, usize); 3] = [(3, 0), (2, 1), (1, 2)];

/// Tests whether loading all fails with this many commits held and this fault count.
fn fails(
    alloc: Global,
    graph: &mut Graph<Failing<MemorySource>, Commit<u8>>,
    held: usize,
    faults: u64,
) -> bool {
    take_all(alloc, graph) == Err(Error::Source)
        && graph.len() == held
        && graph.source().faults() == faults
        && agrees(graph, LINE)
}

/// Tests whether a commit whose look-up fails again is counted again.
fn counts_again(alloc: Global, (digit, held): (u8, usize)) -> Result<bool, AllocError> {
    let line = source_of(alloc, LINE)?;
    let source = Failing::new(line, Turn::For(id(digit)), FindFault::Failed, 0);
    let mut graph = Graph::new(alloc, source);
    Ok(fails(alloc, &mut graph, held, 1) && fails(alloc, &mut graph, held, 2))
}

/// Returns the first commit that is counted otherwise.
fn first_uncounted(alloc: Global) -> Result<Option<u8>, AllocError> {
    for row in &FAILS_FOR {
        if !counts_again(alloc, *row)? {
            return Ok(Some(row.0));
        }
    }
    Ok(None)
}

#[test]
fn refused_look_ups_and_memory_leave_the_graph(rt: HostRuntime) -> Result<(), Fail> {
    assert_eq!(rt; first_uncounted(rt.alloc())?, None);
    assert!(rt; survives(rt.alloc(), &Takes, 3, 3)?);
    Ok(())
}

type CountedMemory<'r> = &'r Refusing<Global>;

type MarkedGraph<'r> = Graph<MemorySource, Commit<Flags, CountedMemory<'r>>, CountedMemory<'r>>;

/// Walks over a graph and clears it. Returns how many requests for memory that takes, or `None` if
/// it fails.
fn requests_of<'r>(alloc: CountedMemory<'r>, graph: &mut MarkedGraph<'r>) -> Option<u64> {
    let before = alloc.requests_left();
    merge_base(alloc, id(4), &[id(5)], graph).ok()?;
    graph.clear();
    before.checked_sub(alloc.requests_left())
}

/// Tests whether a graph that is walked and cleared by turns makes as many requests in each later
/// turn as in the second one. A list that kept what a walk added would make more, now and then.
fn stays_small<'r>(alloc: CountedMemory<'r>, graph: &mut MarkedGraph<'r>) -> bool {
    let first = requests_of(alloc, graph);
    let second = requests_of(alloc, graph);
    for _ in 0..40u64 {
        if requests_of(alloc, graph) != second {
            return false;
        }
    }
    first > second && second.is_some()
}

fn stays_small_when_cleared(alloc: Global) -> Result<bool, AllocError> {
    let memory = Refusing::new(alloc, 1_000_000);
    let mut graph = Graph::new(&memory, source_of(alloc, &CRISS_CROSS)?);
    Ok(stays_small(&memory, &mut graph))
}

#[test]
fn a_cleared_graph_gives_its_room_to_the_next_walk(rt: HostRuntime) -> Result<(), Fail> {
    assert!(rt; stays_small_when_cleared(rt.alloc())?);
    Ok(())
}
