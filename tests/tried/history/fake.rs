//! Reads commits from a made-up history, of which one read fails.

ghost use Rattle.std.specs.Prelude.{IfOk};
ghost use Rattle.gix_history.specs.Origins.{IsReadOf};

use gix_base::hash::ObjectId;
use gix_history::{Origin, Read, ReadError, Reader};
use gix_revwalk::graph::SourceCommit;
use std::alloc::Allocator;

/// Has the commits with the numbers 1 to `size`.
///
/// Above `join` commit `n` has the parent `n - 2`, so that there are two lines. The commits up to
/// `join`, and the one after it, have the parent `n - 1`.
#[derive(Clone, Copy, Drop)]
pub(crate) struct Fake {
    pub(crate) size: u32,
    pub(crate) join: u32,
    /// A commit that is missing, or 0.
    pub(crate) missing: u32,
    /// The number of the read that fails.
    pub(crate) fails: u64,
    /// How many reads there were.
    pub(crate) reads: u64,
}

/// Returns the id with this number.
pub(crate) fn id_of(number: u32) -> ObjectId {
    let [a, b, c, d] = number.to_be_bytes();
    let mut bytes = [0u8; 20];
    bytes[0] = a;
    bytes[1] = b;
    bytes[2] = c;
    bytes[3] = d;
    ObjectId(bytes)
}

/// Returns the number of an id.
pub(crate) fn number_of(id: ObjectId) -> u32 {
    let bytes = id.0;
    u32::from_be_bytes([bytes[0], bytes[1], bytes[2], bytes[3]])
}

impl Fake {
    /// Returns the parents of a commit.
    fn parents<A: Allocator + Copy>(
        &self,
        alloc: A,
        n: u32,
    ) -> Result<Vec<ObjectId, A>, ReadError> {
        let mut parents = Vec::new(alloc);
        let step = if n <= self.join.wrapping_add(1) { 1 } else { 2 };
        if n > step {
            parents.push(id_of(n.wrapping_sub(step)))?;
        }
        Ok(parents)
    }
}

impl Reader for Fake {
    fn read<A: Allocator + Copy>(
        &mut self,
        alloc: A,
        id: ObjectId,
    ) -> Result<Option<Read<A>>, ReadError>
        ensures { IfOk result (IsReadOf id) }
    {
        let turn = self.reads;
        self.reads = turn.saturating_add(1);
        if turn == self.fails {
            return Err(ReadError::Failed(id));
        }
        let n = number_of(id);
        if n == 0 || n > self.size || n == self.missing {
            return Ok(None);
        }
        let commit = SourceCommit {
            parents: self.parents(alloc, n)?,
            time: n as i64,
            generation: None,
        };
        Ok(Some(Read {
            commit,
            origin: Origin::File,
        }))
    }
}
