// Made from crates/hound_spec by scripts/erase.py: change that, and not this.
// Why a call on a reader or a writer failed.

use std::{io, result};

/// Why a call on a `WavReader`, a `WavWriter` or a `Sample`, or a repair, failed.
///
/// The page of each call says in which order it looks for its errors, and what each leaves.
#[derive(Debug)]
pub enum Error {
    /// The reader, the writer or the medium failed, with this fault; or the input ended early, and the kind is `Other`.
    IoError(io::Error),
    /// The bytes are no WAVE file, for this reason. Only `read_wave_header`, the constructors of readers, those that
    /// append, and repairs return it.
    FormatError(&'static str),
    /// The sample has more bits than the type that reads it, or than the file that is written has room for.
    TooWide,
    /// The samples are no whole number of frames: some channel lacks its last sample. All of them are published by
    /// then.
    UnfinishedSample,
    /// The format can't be read or written: a spec, a file's format tag, or bits and bytes that a type of sample
    /// doesn't have.
    Unsupported,
    /// The file's samples are integers and floats were requested, or the other way round. Writing doesn't compare the
    /// formats.
    InvalidSampleFormat,
}

/// For `?` on a call that reads or writes: an `IoError` with its fault.
impl From<io::Error> for Error {
    fn from(error: io::Error) -> Error {
        Error::IoError(error)
    }
}

/// The result of a call that may fail with an [`Error`].
pub type Result<T> = result::Result<T, Error>;
