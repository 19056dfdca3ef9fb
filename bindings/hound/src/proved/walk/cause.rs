// Made from crates/hound_walk by scripts/erase.py: change that, and not this.
// Why the bytes before the data can't be read.

use crate::proved::number::ReadError;
use crate::proved::spec::Error;
use std::io;

/// What is wrong with a file. [`error_of`] has the words for it, which a `FormatError` holds; `fmt_of` and `Rejected`
/// of the specs have the order in which a walk looks for these.
#[derive(Clone, Copy, Debug, PartialEq, Eq)]
pub enum Reason {
    /// The file doesn't begin with "RIFF".
    NoRiffTag,
    /// The RIFF chunk is no "WAVE".
    NoWaveTag,
    /// The data chunk doesn't begin within the bytes that 32 bits count.
    NoDataChunk,
    /// The data chunk comes before any fmt chunk.
    NoFmtChunk,
    /// The fmt chunk is shorter than every fmt chunk.
    FmtSize,
    /// The fmt chunk has no length that its format tag allows.
    UnexpectedFmtSize,
    /// There is no channel.
    ZeroChannels,
    /// A sample has more bits than its container, or the container more than 65535.
    BitsExceedWidth,
    /// The bytes a second are not the rate times the block align.
    Inconsistent,
    /// The bits are no whole bytes.
    BitsNotWholeBytes,
    /// There are no bits.
    ZeroBits,
    /// The bits are not 8, 16 or 24 in a chunk of integers that is longer than sixteen bytes.
    BitsNot8Or16,
    /// A WAVEFORMATEX of floats has a size of more that follows.
    ExSize,
    /// A float has not 32 bits.
    BitsNot32,
    /// A WAVEFORMATEXTENSIBLE has another size than 22.
    ExtensibleSize,
    /// The data are no whole samples.
    DataLength,
    /// The data are no whole frames.
    FrameLength,
}

/// Why bytes have no head, or their data no whole frames, by the bytes alone.
#[derive(Clone, Copy, Debug, PartialEq, Eq)]
pub enum Cause {
    /// The bytes end inside something that has to be taken.
    Ended,
    /// The bytes are no WAVE file.
    Format(Reason),
    /// The format is not read: another format tag, or another subformat.
    Unsupported,
}

/// Why a walk to the data ended before it.
#[derive(Debug)]
pub enum HeadError {
    /// A read failed.
    Failed(io::Error),
    /// The bytes decide it.
    Rejected(Cause),
}

impl From<Cause> for HeadError {
    fn from(cause: Cause) -> HeadError {
        HeadError::Rejected(cause)
    }
}

// The words of a `FormatError`.
fn text_of(reason: Reason) -> &'static str {
    match reason {
        Reason::NoRiffTag => "no RIFF tag found",
        Reason::NoWaveTag => "no WAVE tag found",
        Reason::NoDataChunk => "missing data chunk",
        Reason::NoFmtChunk => "missing fmt chunk",
        Reason::FmtSize => "invalid fmt chunk size",
        Reason::UnexpectedFmtSize => "unexpected fmt chunk size",
        Reason::ZeroChannels => "file contains zero channels",
        Reason::BitsExceedWidth => "sample bits exceeds size of sample",
        Reason::Inconsistent => "inconsistent fmt chunk",
        Reason::BitsNotWholeBytes => "bits per sample is not a multiple of 8",
        Reason::ZeroBits => "bits per sample is 0",
        Reason::BitsNot8Or16 => "bits per sample is not 8 or 16",
        Reason::ExSize => "unexpected WAVEFORMATEX size",
        Reason::BitsNot32 => "bits per sample is not 32",
        Reason::ExtensibleSize => "unexpected WAVEFORMATEXTENSIBLE size",
        Reason::DataLength => "data chunk length is not a multiple of sample size",
        Reason::FrameLength => "invalid data chunk length",
    }
}

/// The error that callers get: `FormatError` with its words, `Unsupported`, or `IoError`, for an early end of kind
/// `Other`.
pub fn error_of(head_error: HeadError) -> Error {
    match head_error {
        HeadError::Failed(e) => Error::IoError(e),
        HeadError::Rejected(Cause::Ended) => Error::IoError(ReadError::Ended.into()),
        HeadError::Rejected(Cause::Format(reason)) => Error::FormatError(text_of(reason)),
        HeadError::Rejected(Cause::Unsupported) => Error::Unsupported,
    }
}
