//! Readers and writers that give or take little, or fail.

use std::io::{self, ErrorKind, Read, Write};

/// What a reader does once its bytes are read.
#[derive(Clone, Copy)]
pub enum Ending {
    End,
    Failure,
}

/// Reads a text a byte at a time; every other read is interrupted.
#[derive(Drop)]
pub struct Trickle<'t> {
    left: &'t [u8],
    ending: Ending,
    interrupts: bool,
}

impl<'t> Trickle<'t> {
    pub fn new(left: &'t [u8], ending: Ending) -> Trickle<'t> {
        Trickle {
            left,
            ending,
            interrupts: false,
        }
    }
}

impl Read for Trickle<'_> {
    fn read(&mut self, buf: &mut [u8]) -> io::Result<usize> {
        self.interrupts = !self.interrupts;
        if self.interrupts {
            return Err(io::Error::from(ErrorKind::Interrupted));
        }
        let Some((first, rest)) = self.left.split_first() else {
            return match self.ending {
                Ending::End => Ok(0),
                Ending::Failure => Err(io::Error::from(ErrorKind::BrokenPipe)),
            };
        };
        if buf.is_empty() {
            return Ok(0);
        }
        buf[0] = *first;
        self.left = rest;
        Ok(1)
    }
}

/// Takes at most 1000 bytes a call, and fails at one of its calls. It counts the calls after that.
#[derive(Drop)]
pub struct FailingWriter {
    before: u64,
    has_failed: bool,
    later: u64,
}

impl FailingWriter {
    /// Makes a writer that fails at the call after this many.
    pub fn new(before: u64) -> FailingWriter {
        FailingWriter {
            before,
            has_failed: false,
            later: 0,
        }
    }

    /// Tests whether it has failed.
    pub fn has_failed(&self) -> bool {
        self.has_failed
    }

    /// Returns how many calls came after the failed one.
    pub fn later(&self) -> u64 {
        self.later
    }

    // Counts a call, and fails if it is its turn.
    fn turn(&mut self) -> io::Result<()> {
        if self.has_failed {
            self.later = self.later.saturating_add(1);
            return Ok(());
        }
        if self.before == 0 {
            self.has_failed = true;
            return Err(io::Error::from(ErrorKind::BrokenPipe));
        }
        self.before -= 1;
        Ok(())
    }
}

impl Write for FailingWriter {
    fn write(&mut self, buf: &[u8]) -> io::Result<usize> {
        self.turn()?;
        Ok(buf.len().min(1000))
    }

    fn flush(&mut self) -> io::Result<()> {
        self.turn()
    }
}
