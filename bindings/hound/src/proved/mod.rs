//! The proved code, without its contracts: scripts/erase.py makes it.
pub mod number;
pub mod spec;
pub mod sample;
pub mod medium;
pub mod durable;
pub mod walk;
pub mod reader;
pub mod writer;
pub mod repair;
pub mod follow;
pub mod slices;
