//! A delegate with given answers, which writes down all calls.

use gix_base::error::Exn;
use gix_base::hash::Prefix;
use gix_spec::spec;
use gix_spec::spec::parse::Delegate;
use gix_spec::spec::parse::delegate::{
    Kind, Listener, Navigate, PeelTo, PrefixHint, ReflogLookup, Revision, SiblingBranch, Traversal,
};
use revtool::recorder::Recorder;
use std::alloc::Global;

/// Which calls are not accepted, by their numbers from 1 on.
#[derive(Clone, Copy)]
pub struct Answers {
    /// The calls that are refused; 0 means none.
    refused: [usize; 3],
    /// The call that runs out of memory, or 0.
    pub wanting: usize,
}

impl Answers {
    /// All calls are accepted.
    pub const ACCEPTED: Answers = Answers {
        refused: [0; 3],
        wanting: 0,
    };

    /// Refuses the call of this number, too. At most the last three are refused.
    pub fn refuse(&mut self, number: usize) {
        let [first, second, _] = self.refused;
        self.refused = [number, first, second];
    }
}

/// The messages of refusals, by the number of the call.
const MESSAGES: [&str; 9] = [
    "call 1", "call 2", "call 3", "call 4", "call 5", "call 6", "call 7", "call 8", "call 9",
];

/// Writes down each call, as `revtool` prints it, and gives the chosen answer.
#[derive(Drop)]
pub struct Told {
    recorder: Recorder<Global>,
    alloc: Global,
    answers: Answers,
    count: usize,
}

impl Told {
    /// Makes a delegate without calls.
    pub fn new(alloc: Global, answers: Answers) -> Told {
        Told {
            recorder: Recorder::new(alloc, alloc),
            alloc,
            answers,
            count: 0,
        }
    }

    /// Returns the calls, separated by a semicolon and a space.
    pub fn calls(&self) -> &[u8] {
        self.recorder.calls()
    }

    /// Returns how many calls were made.
    pub fn count(&self) -> usize {
        self.count
    }

    // Answers the next call, which the recorder has heard.
    fn answer(&mut self, heard: Result<(), Exn>) -> Result<(), Exn> {
        heard?;
        self.count = self.count.saturating_add(1);
        if self.answers.refused.contains(&self.count) {
            return Err(Exn::new(self.alloc, message_of(self.count)));
        }
        if self.answers.wanting == self.count {
            return Err(Exn::out_of_memory(self.alloc));
        }
        Ok(())
    }
}

// Returns the message of the refusal of a call.
fn message_of(number: usize) -> &'static str {
    match MESSAGES.get(number.saturating_sub(1)) {
        Some(message) => *message,
        None => "a later call",
    }
}

impl Listener for Told {
    ghost step = { λ before call answer after. Unit {0} };
}

impl Revision for Told {
    fn find_ref(&mut self, name: &[u8]) -> Result<(), Exn> {
        let heard = self.recorder.find_ref(name);
        self.answer(heard)
    }

    fn disambiguate_prefix(
        &mut self,
        prefix: Prefix,
        hint: Option<PrefixHint<'_>>,
    ) -> Result<(), Exn> {
        let heard = self.recorder.disambiguate_prefix(prefix, hint);
        self.answer(heard)
    }

    fn reflog(&mut self, query: ReflogLookup) -> Result<(), Exn> {
        let heard = self.recorder.reflog(query);
        self.answer(heard)
    }

    fn nth_checked_out_branch(&mut self, branch_no: usize) -> Result<(), Exn> {
        let heard = self.recorder.nth_checked_out_branch(branch_no);
        self.answer(heard)
    }

    fn sibling_branch(&mut self, kind: SiblingBranch) -> Result<(), Exn> {
        let heard = self.recorder.sibling_branch(kind);
        self.answer(heard)
    }
}

impl Kind for Told {
    fn kind(&mut self, kind: spec::Kind) -> Result<(), Exn> {
        let heard = self.recorder.kind(kind);
        self.answer(heard)
    }
}

impl Navigate for Told {
    fn traverse(&mut self, kind: Traversal) -> Result<(), Exn> {
        let heard = self.recorder.traverse(kind);
        self.answer(heard)
    }

    fn peel_until(&mut self, kind: PeelTo<'_>) -> Result<(), Exn> {
        let heard = self.recorder.peel_until(kind);
        self.answer(heard)
    }

    fn find(&mut self, regex: &[u8], negated: bool) -> Result<(), Exn> {
        let heard = self.recorder.find(regex, negated);
        self.answer(heard)
    }

    fn index_lookup(&mut self, path: &[u8], stage: u8) -> Result<(), Exn> {
        let heard = self.recorder.index_lookup(path, stage);
        self.answer(heard)
    }
}

impl Delegate for Told {
    fn done(&mut self) -> Result<(), Exn> {
        let heard = self.recorder.done();
        self.answer(heard)
    }
}
