//! Lists of calls on one graph: reused, over a failing source, and with failing allocations.

use crate::library::questions::Call::{Bases, Octopus};
use crate::library::questions::{Question, are_bases, is_one};
use crate::shared::faults::{Answered, Asks, survives};
use crate::shared::histories::{CRISS_CROSS, Row, id, ids, source_of};
use fixtures::sources::{Failing, Turn};
use gix_revision::graph::{Commit, Find, FindFault, Graph, MemorySource};
use gix_revision::merge_base::{Answer, Error, Flags, Query, run};
use std::alloc::{AllocError, Allocator, Global};
use std::test::Fail;

/// The same question before and after another.
const SAME: [Question; 3] = [
    Question(Bases, &CRISS_CROSS, 4, &[5], &[2, 3]),
    Question(Octopus, &CRISS_CROSS, 4, &[5], &[2]),
    Question(Bases, &CRISS_CROSS, 4, &[5], &[2, 3]),
];

/// Questions with four different answers.
const UNLIKE: [Question; 4] = [
    Question(Bases, &CRISS_CROSS, 2, &[3], &[1]),
    Question(Bases, &CRISS_CROSS, 4, &[5], &[2, 3]),
    Question(Octopus, &CRISS_CROSS, 4, &[2], &[2]),
    Question(Octopus, &CRISS_CROSS, 4, &[9], &[]),
];

/// Makes the query of a question.
fn query_of<A: Allocator + Copy>(alloc: A, question: &Question) -> Result<Query<A>, AllocError> {
    let others = ids(alloc, question.3)?;
    let first = id(question.2);
    Ok(if question.0 == Octopus {
        Query::Octopus { first, others }
    } else {
        Query::MergeBase { first, others }
    })
}

/// Makes the queries of a list.
fn queries<A: Allocator + Copy>(
    alloc: A,
    questions: &[Question],
) -> Result<Vec<Query<A>, A>, AllocError> {
    let mut queries = Vec::with_capacity(alloc, questions.len())?;
    for question in questions {
        queries.push(query_of(alloc, question)?)?;
    }
    Ok(queries)
}

fn answered<A: Allocator>(answer: &Answer<A>, question: &Question) -> Answered {
    match answer {
        Answer::Refused(Error::Source(_)) => Answered::SourceFailed,
        Answer::Refused(Error::OutOfMemory) => Answered::OutOfMemory,
        Answer::MergeBase(found) if question.0 == Bases && are_bases(found, question.4) => {
            Answered::AsWanted
        }
        Answer::Octopus(found) if question.0 == Octopus && is_one(*found, question.4) => {
            Answered::AsWanted
        }
        _ => Answered::Otherwise,
    }
}

/// The result of a list: how its failed call was answered, and the index of this call. The index is
/// the number of calls if none failed, or if the list failed as a whole.
type Outcome = (Answered, usize);

fn outcome<A: Allocator>(answers: &[Answer<A>], questions: &[Question]) -> Outcome {
    let mut all = (Answered::AsWanted, questions.len());
    for (i, (answer, question)) in answers.iter().zip(questions).enumerate() {
        let one = answered(answer, question);
        if one != Answered::AsWanted {
            all = (all.0.joined(one), i);
        }
    }
    if answers.len() == questions.len() {
        all
    } else {
        (Answered::Otherwise, 0)
    }
}

/// Makes queries on a graph and returns the result. If there is no room for the answers, nothing is
/// looked up.
fn ran<S: Find, A: Allocator + Copy>(
    alloc: A,
    graph: &mut Graph<S, Commit<Flags, A>, A>,
    queries: &[Query<A>],
    questions: &[Question],
) -> Outcome {
    let held = graph.len();
    match run(alloc, graph, queries) {
        Ok(answers) => outcome(&answers, questions),
        Err(_) if graph.len() == held => (Answered::OutOfMemory, questions.len()),
        Err(_) => (Answered::Otherwise, 0),
    }
}

/// Makes a list on a graph and returns the result.
fn listed<S: Find, A: Allocator + Copy>(
    alloc: A,
    graph: &mut Graph<S, Commit<Flags, A>, A>,
    questions: &[Question],
) -> Result<Outcome, AllocError> {
    let queries = queries(alloc, questions)?;
    Ok(ran(alloc, graph, &queries, questions))
}

/// A list, the look-up that fails, and the query that then fails.
static FAILURES: [(&[Question], u64, Option<usize>); 11] = [
    (&[], 0, None),
    (&SAME, 0, Some(0)),
    (&SAME, 1, Some(0)),
    (&SAME, 2, Some(0)),
    (&SAME, 3, Some(0)),
    (&SAME, 4, Some(0)),
    (&SAME, 5, None),
    (&UNLIKE, 2, Some(0)),
    (&UNLIKE, 3, Some(1)),
    (&UNLIKE, 4, Some(1)),
    (&UNLIKE, 5, Some(3)),
];

/// Tests whether a list ends with this failed query, all others answered, and the fault counted.
fn ends_with(
    alloc: Global,
    graph: &mut Graph<Failing<MemorySource>, Commit<Flags>>,
    questions: &[Question],
    failed: Option<usize>,
) -> Result<bool, AllocError> {
    let came = listed(alloc, graph, questions)?;
    let faults = graph.source().faults();
    Ok(match failed {
        Some(i) => came == (Answered::SourceFailed, i) && faults == 1,
        None => came == (Answered::AsWanted, questions.len()) && faults == 0,
    })
}

/// Tests whether a list ends so over a source that fails at one look-up.
fn ends_as_said(
    alloc: Global,
    (questions, turn, failed): (&[Question], u64, Option<usize>),
) -> Result<bool, AllocError> {
    let inner = source_of(alloc, &CRISS_CROSS)?;
    let source = Failing::new(inner, Turn::After(turn), FindFault::Failed, 0);
    let mut graph = Graph::new(alloc, source);
    ends_with(alloc, &mut graph, questions, failed)
}

/// Returns the index of the first row that ends otherwise.
fn first_wrong(alloc: Global) -> Result<Option<usize>, AllocError> {
    for (i, row) in FAILURES.iter().enumerate() {
        if !ends_as_said(alloc, *row)? {
            return Ok(Some(i));
        }
    }
    Ok(None)
}

#[test]
fn a_refused_query_does_not_end_the_list(rt: HostRuntime) -> Result<(), Fail> {
    assert_eq!(rt; first_wrong(rt.alloc())?, None);
    Ok(())
}

/// A list as one call, which fails if one of its queries or the whole list does.
struct List<'q>(&'q [Question]);

/// The criss-cross, to be borrowed.
static HISTORY: [Row<'static>; 5] = CRISS_CROSS;

impl Asks for List<'_> {
    fn history(&self) -> &'static [Row<'static>] {
        &HISTORY
    }

    fn ask<S: Find, A: Allocator + Copy>(
        &self,
        _to: Global,
        alloc: A,
        graph: &mut Graph<S, Commit<Flags, A>, A>,
    ) -> Result<Answered, AllocError> {
        Ok(listed(alloc, graph, self.0)?.0)
    }
}

#[test]
fn each_request_of_a_list_is_refused(rt: HostRuntime) -> Result<(), Fail> {
    assert!(rt; survives(rt.alloc(), &List(&UNLIKE), 6, 3)?);
    Ok(())
}
