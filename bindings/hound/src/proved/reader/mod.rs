// Made from crates/hound_reader by scripts/erase.py: change that, and not this.
//! Reading the samples of WAV files.
//!
//! A [`WavReader`] takes exactly what is before the data, by the walk of `hound_walk`, and then gives the samples, one
//! container for each.

mod blocks;
mod item;
mod reader;
mod samples;
pub use reader::WavReader;
pub use samples::{WavIntoSamples, WavSamples};
