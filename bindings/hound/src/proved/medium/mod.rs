// Made from crates/hound_medium by scripts/erase.py: change that, and not this.
//! What a reader reads from and a writer writes into: bytes at places.
//!
//! A reader is generic over a [`Source`], a writer over a [`Medium`]. [`Tape`] is both, over bytes in memory, and so is
//! [`Journal`], which records every byte written. A buffered file is one of them, whose bytes contracts don't know.
mod medium;
pub use medium::{Medium, Placed, Source, count_fault, put_all};
