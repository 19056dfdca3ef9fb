use crate::machines::{Cause, RecorderError, RepairError};
use crate::proved::slices::error_of;
use crate::proved::spec::Error;
use crate::slices::CallError;
use std::{error, fmt};

impl fmt::Display for Error {
    #[allow(deprecated)]
    fn fmt(&self, formatter: &mut fmt::Formatter<'_>) -> fmt::Result {
        match self {
            Error::IoError(error) => error.fmt(formatter),
            Error::FormatError(reason) => write!(formatter, "Ill-formed WAVE file: {reason}"),
            _ => write!(formatter, "T{}.", &error::Error::description(self)[1..]), // A sentence.
        }
    }
}

// As hound's, whose `source` is none.
impl error::Error for Error {
    #[allow(deprecated)]
    fn description(&self) -> &str {
        match self {
            Self::IoError(error) => error.description(),
            Self::FormatError(reason) => reason,
            Self::TooWide => "the sample has more bits than the destination type",
            Self::UnfinishedSample => "the number of samples written is not a multiple of the number of channels",
            Self::Unsupported => "the wave format of the file is not supported",
            Self::InvalidSampleFormat => "the sample format differs from the destination format",
        }
    }

    fn cause(&self) -> Option<&dyn error::Error> {
        match self {
            Error::IoError(error) => Some(error),
            _ => None,
        }
    }
}

impl From<RecorderError> for Error {
    fn from(error: RecorderError) -> Error {
        CallError::Recorder(error).into()
    }
}

impl From<RepairError> for Error {
    fn from(error: RepairError) -> Error {
        error_of(error).into()
    }
}

impl From<Cause> for Error {
    fn from(cause: Cause) -> Error {
        CallError::Head(cause).into()
    }
}
