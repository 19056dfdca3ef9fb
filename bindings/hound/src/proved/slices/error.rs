// Made from crates/hound_slices by scripts/erase.py: change that, and not this.
// Why a call doesn't do its work, and the number that C gets for it.

use crate::proved::repair::{FailedAction, RepairError, Unrepairable};
use crate::proved::spec::Error;
use crate::proved::walk::{Cause, HeadError};
use crate::proved::writer::RecorderError;
use std::io;
use std::io::ErrorKind;

/// Why a call doesn't do its work.
#[derive(Clone, Copy, Debug, PartialEq, Eq)]
pub enum CallError {
    /// The bytes have no data to be read.
    Head(Cause),
    /// The samples are floats and integers were requested, or the other way round.
    OtherFormat,
    /// The samples, or a value, are wider than what is to hold them.
    TooWide,
    /// The spec isn't written, or the type not read from it.
    NotWritable,
    /// The next sample isn't among the bytes, though the header counts it.
    Truncated,
    /// The sizes of the file would pass 32 bits.
    TooLong,
    /// The samples are no whole frames.
    UnfinishedFrame,
    /// The file doesn't fit into the caller's memory.
    NoRoom,
    /// A read or a write was reported as failed.
    NotPerformed,
    /// A recorder returns this error.
    Recorder(RecorderError),
}

impl From<Cause> for CallError {
    fn from(cause: Cause) -> CallError {
        CallError::Head(cause)
    }
}

impl From<Unrepairable> for CallError {
    fn from(why: Unrepairable) -> CallError {
        match why {
            Unrepairable::Head(cause) => CallError::Head(cause),
            Unrepairable::Unsupported => CallError::NotWritable,
            Unrepairable::TooLong => CallError::TooLong,
        }
    }
}

/// What a call returns for an error of a repair.
pub fn error_of(error: RepairError) -> CallError {
    match error {
        RepairError::Rejected(why) => why.into(),
        RepairError::Failed(FailedAction::Sync) => CallError::Recorder(RecorderError::SyncFailed),
        RepairError::Failed(FailedAction::Call) => CallError::NotPerformed,
    }
}

// A fault of this kind, with a text of its own.
fn fault(kind: ErrorKind, text: &'static str) -> Error {
    Error::IoError(io::Error::new(kind, text))
}

// The error of a writer that says what a recorder's does.
fn error_of_recorder(error: RecorderError) -> Error {
    match error {
        RecorderError::NotWritable => Error::Unsupported,
        RecorderError::TooLong => crate::rattle::too_long(),
        RecorderError::UnfinishedFrame => Error::UnfinishedSample,
        RecorderError::Truncated => fault(ErrorKind::UnexpectedEof, "the file lacks samples that its header counts"),
        RecorderError::NeedsMend => fault(ErrorKind::InvalidData, "the recording was cut off: repair it first"),
        RecorderError::NeedsOverwrite => fault(ErrorKind::InvalidData, "chunks after the data would be overwritten"),
        RecorderError::NeedsCheckpoint => fault(ErrorKind::Other, "a write failed: a checkpoint has to come first"),
        RecorderError::SyncFailed => fault(ErrorKind::Other, "a sync failed: nobody knows what is stored"),
    }
}

/// The error of a reader or a writer that says the same.
impl From<CallError> for Error {
    fn from(error: CallError) -> Error {
        match error {
            CallError::Head(cause) => crate::proved::walk::error_of(HeadError::Rejected(cause)),
            CallError::OtherFormat => Error::InvalidSampleFormat,
            CallError::TooWide => Error::TooWide,
            CallError::NotWritable => Error::Unsupported,
            CallError::Truncated => error_of_recorder(RecorderError::Truncated),
            CallError::TooLong => crate::rattle::too_long(),
            CallError::UnfinishedFrame => Error::UnfinishedSample,
            CallError::NoRoom => fault(ErrorKind::WriteZero, "more bytes are needed than there are"),
            CallError::NotPerformed => fault(ErrorKind::Other, "the file could not be read or written"),
            CallError::Recorder(error) => error_of_recorder(error),
        }
    }
}

/// The number that C gets for an error.
pub fn code_of_error(error: CallError) -> i32 {
    match error {
        CallError::Head(Cause::Ended) => -1,
        CallError::Head(Cause::Unsupported) => -2,
        // From -10 down, in the order of the reasons.
        CallError::Head(Cause::Format(reason)) => -10 - reason as i32,
        CallError::OtherFormat => -3,
        CallError::TooWide => -4,
        CallError::NotWritable => -5,
        CallError::Truncated => -6,
        CallError::TooLong => -7,
        CallError::UnfinishedFrame => -8,
        CallError::NoRoom => -9,
        CallError::NotPerformed => -31,
        CallError::Recorder(RecorderError::NotWritable) => -5,
        CallError::Recorder(RecorderError::TooLong) => -7,
        CallError::Recorder(RecorderError::UnfinishedFrame) => -8,
        CallError::Recorder(RecorderError::Truncated) => -6,
        CallError::Recorder(RecorderError::NeedsCheckpoint) => -27,
        CallError::Recorder(RecorderError::SyncFailed) => -28,
        CallError::Recorder(RecorderError::NeedsMend) => -29,
        CallError::Recorder(RecorderError::NeedsOverwrite) => -30,
    }
}

/// What C gets for a result: a count, or the number of an error.
pub fn code_of(outcome: Result<usize, CallError>) -> i64 {
    match outcome {
        Ok(count) => count as i64,
        Err(error) => code_of_error(error) as i64,
    }
}
