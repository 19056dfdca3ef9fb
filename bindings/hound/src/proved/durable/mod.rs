// Made from crates/hound_durable by scripts/erase.py: change that, and not this.
//! A medium whose flushed bytes survive a loss of power.
//!
//! A loss of power may keep any of the writes since the last flush and lose any other, sector by sector. [`Durable`]
//! wraps a medium and flushes it before each step back, so that between two flushes the bytes are written at ascending
//! places.

mod durable;
mod target;

pub use durable::Durable;
pub use target::Target;
