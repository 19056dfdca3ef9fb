// Made from crates/hound_durable by scripts/erase.py: change that, and not this.
// A medium that may be flushed before each step back: whether it is, the program chooses when it runs.

use crate::proved::durable::durable::Durable;
use crate::proved::medium::{Medium, Placed};
use std::io;

/// What a file is written to: a medium as it is, or one that is flushed before each step back.
pub enum Target<M: Medium> {
    /// As it is.
    Plain(M),
    /// Flushed before each step back.
    Synced(Durable<M>),
}

impl<M: Medium> Placed for Target<M> {
    fn go(&mut self, to: u64) -> io::Result<()> {
        match self {
            Target::Plain(medium) => medium.go(to),
            Target::Synced(medium) => medium.go(to),
        }
    }

    fn shift(&mut self, by: i64) -> io::Result<()> {
        match self {
            Target::Plain(medium) => medium.shift(by),
            Target::Synced(medium) => medium.shift(by),
        }
    }
}

impl<M: Medium> Medium for Target<M> {
    fn put(&mut self, bytes: &[u8]) -> io::Result<usize> {
        match self {
            Target::Plain(medium) => medium.put(bytes),
            Target::Synced(medium) => medium.put(bytes),
        }
    }

    fn flush(&mut self) -> io::Result<()> {
        match self {
            Target::Plain(medium) => Medium::flush(medium),
            Target::Synced(medium) => Medium::flush(medium),
        }
    }
}
