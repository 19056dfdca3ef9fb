// Made from crates/hound_sample by scripts/erase.py: change that, and not this.
// Why a sample isn't read or written, and what items are read from.

use crate::proved::spec::Error;
use std::io;

/// Why a sample isn't read or written: an [`Error`] in one byte, whose fault is saved elsewhere. An `Error` holds its
/// fault, and so it is large, and would be copied on the path of each sample.
#[derive(Clone, Copy)]
pub enum SampleError {
    /// A call failed or the input ended, by a fault that was saved.
    Failed,
    /// Samples of this format aren't read as the type.
    OtherFormat,
    /// The samples have more bytes than the type, or the sample doesn't fit in the file's bits.
    TooWide,
    /// Samples of these bits and bytes aren't read or written as the type.
    Unsupported,
    /// The file has no room for it.
    TooLong,
}

/// The reason that an error of `Sample::read` or `Sample::encode` gives; they have no others than these.
#[inline(always)]
pub fn reason_of(error: Error) -> SampleError {
    match error {
        Error::IoError(_) => SampleError::Failed,
        Error::InvalidSampleFormat => SampleError::OtherFormat,
        Error::TooWide => SampleError::TooWide,
        _ => SampleError::Unsupported,
    }
}

/// The error for a reason, with this saved fault.
///
/// It begins as the fault and is changed in its place: so the one copy that is made of the fault goes to where the
/// caller needs the error.
#[inline(always)]
pub fn error_of_sample(no_sample: SampleError, fault: &mut io::Error) -> Error {
    let mut error = Error::IoError(std::mem::replace(fault, io::ErrorKind::Other.into()));
    if let SampleError::OtherFormat = no_sample {
        error = Error::InvalidSampleFormat;
    }
    if let SampleError::TooWide = no_sample {
        error = Error::TooWide;
    }
    if let SampleError::Unsupported = no_sample {
        error = Error::Unsupported;
    }
    if let SampleError::TooLong = no_sample {
        error = crate::rattle::too_long();
    }
    error
}

/// A reader that takes whole containers, and saves the fault that cut one.
pub trait ContainerReader: io::Read {
    /// The next container, in the first `width` bytes, at most four.
    ///
    /// There is none if a read failed or the input ended before it was whole: then the fault is saved, and fewer bytes
    /// were taken.
    fn next_container(&mut self, width: u16) -> Option<[u8; 4]>;
}
