//! Lists of descriptions on one graph, over a failing source, and with failing allocations. One
//! query of the list fails, and the others are answered.

use super::cases::{LINE, PLAIN, Want, came_of, options_of, says};
use crate::shared::faults::{Answered, Came, Repeats, survives};
use crate::shared::histories::{Row, id};
use gix_base::error::Message;
use gix_revision::describe::{Answer, Query, run};
use gix_revision::graph::{Find, Graph};
use std::alloc::{AllocError, Allocator, Global};
use std::test::Fail;

/// The queries of a list: commits of the line, each after [1].
static LISTED: [(u8, Want); 3] = [
    (3, Want::Named("v1", 2, 3, 3, &[1, 2, 3])),
    (1, Want::Named("v1", 0, 0, 0, &[])),
    (2, Want::Named("v1", 1, 2, 2, &[1, 2])),
];

fn queries_of<A: Allocator + Copy>(alloc: A) -> Result<Vec<Query<'static, A>, A>, AllocError> {
    let mut queries = Vec::new(alloc);
    for (digit, _) in &LISTED {
        let query = Query {
            commit: id(*digit),
            options: options_of(alloc, &[(1, "v1")], PLAIN)?,
        };
        queries.push(query)?;
    }
    Ok(queries)
}

/// Returns how a query was answered.
fn answered<A: Allocator>(answer: &Answer<'static, A>, digit: u8, want: Want) -> Answered {
    match answer {
        Answer::Described(Some(outcome)) if says(outcome, digit, want) => Answered::AsWanted,
        Answer::Refused(Message::ParentsOf(_)) => Answered::SourceFailed,
        Answer::Refused(Message::OutOfMemory) => Answered::OutOfMemory,
        _ => Answered::Otherwise,
    }
}

/// Returns how a list was answered. At most one query may fail.
fn all_answered<A: Allocator>(answers: &[Answer<'static, A>]) -> Answered {
    let mut all = Answered::AsWanted;
    for (answer, (digit, want)) in answers.iter().zip(&LISTED) {
        all = all.joined(answered(answer, *digit, *want));
    }
    if answers.len() == LISTED.len() {
        all
    } else {
        Answered::Otherwise
    }
}

/// Makes a list and returns its result. The list may also fail as a whole.
fn came<S: Find, A: Allocator + Copy>(
    alloc: A,
    graph: &mut Graph<S, u32, A>,
    queries: &[Query<'static, A>],
) -> Came {
    let answered = match run(alloc, graph, queries) {
        Ok(answers) => all_answered(&answers),
        Err(_) => Answered::OutOfMemory,
    };
    came_of(answered, graph)
}

/// The list of queries.
struct Listed;

impl Repeats for Listed {
    fn commits(&self) -> &'static [Row<'static>] {
        LINE
    }

    fn needs_all(&self) -> bool {
        true
    }

    fn repeat<S: Find, A: Allocator + Copy>(
        &self,
        _to: Global,
        alloc: A,
        source: S,
    ) -> Result<(Came, Came), AllocError> {
        let queries = queries_of(alloc)?;
        let mut graph = Graph::new(alloc, source);
        let first = came(alloc, &mut graph, &queries);
        Ok((first, came(alloc, &mut graph, &queries)))
    }
}

#[test]
fn a_refused_description_does_not_end_the_list(rt: HostRuntime) -> Result<(), Fail> {
    // Each of the three commits is looked up once for the queries of both lists.
    assert!(rt; survives(rt.alloc(), &Listed, 3, 3)?);
    Ok(())
}
