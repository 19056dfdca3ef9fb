#![cfg_attr(feature = "std", doc = include_str!("../README.md"))]
#![cfg_attr(not(feature = "std"), no_std, doc = "The machines and conversions of the proved code, without `std`.")]
#![deny(unsafe_code)]
#![warn(missing_docs)]

#[cfg(all(target_arch = "x86", not(target_feature = "sse2")))]
compile_error!("the x87 rounds floats otherwise than the proofs say: build hound with -C target-feature=+sse2");

// What the proved code names of `std` is here, where there is none.
#[cfg(not(feature = "std"))]
extern crate self as std;
#[cfg(not(feature = "std"))]
use core::{fmt, marker, mem, result};
#[cfg(not(feature = "std"))]
mod io;

pub mod machines;
#[allow(missing_docs, unused, clippy::all, rustdoc::private_intra_doc_links, rustdoc::broken_intra_doc_links)]
#[forbid(unsafe_code)]
#[rustfmt::skip]
mod proved;
mod rattle;
pub mod slices;

pub use machines::RepairState;
pub use proved::spec::{SampleFormat, WavSpec, WavSpecEx};

macro_rules! with_std {
    ($($item:item)*) => {
        $(#[cfg(feature = "std")] $item)*
    };
}
with_std! {
    pub mod blocks;
    mod error;
    mod follow;
    mod lock;
    mod medium;
    pub mod parts;
    mod reader;
    mod repair;
    mod sample;
    mod writer;

    pub use follow::Follower;
    pub use proved::spec::{Error, Result};
    pub use lock::lock;
    pub use reader::{read_wave_header, WavIntoSamples, WavReader, WavSamples};
    pub use repair::{repair_file, repair_file_to_end, Repair};
    pub use sample::Sample;
    pub use writer::{SampleWriter16, WavWriter};
}
