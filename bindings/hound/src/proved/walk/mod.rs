// Made from crates/hound_walk by scripts/erase.py: change that, and not this.
//! The walk over what is before the data of a WAV file.
//!
//! A file is RIFF, a size, WAVE and chunks. The walk takes chunk after chunk up to the header of the data
//! ([`read_until_data`], [`find_data`]), or asks its caller for the bytes ([`take_part`]). Readers, writers that append
//! and repairs begin with it.

mod cause;
mod chunks;
mod fmt;
mod parts;

pub use cause::{Cause, HeadError, Reason, error_of};
pub use chunks::{FileHead, SourceReader, find_data, read_until_data, read_until_samples, read_wave_header};
pub use parts::{HeadWalk, Part, Step, bytes_at, count_samples, find_samples, take_part};
