// Made from crates/hound_writer by scripts/erase.py: change that, and not this.
// Appending to existing files.

use crate::proved::writer::WavWriter;
use crate::proved::writer::output::Output;
use crate::proved::medium::{Medium, Source};
use crate::proved::spec::{Error, Result, is_pair, riff_size_fits};
use crate::proved::walk::{Cause, FileHead, HeadError, Reason, error_of, find_data};
use std::result;

// Checks whether a file with this head can be appended to.
fn check_head(head: FileHead) -> Result<()> {
    let spec = head.spec_ex.spec;
    let width = head.spec_ex.bytes_per_sample;
    if head.data_length % width as u32 != 0 {
        return Err(error_of(HeadError::Rejected(Cause::Format(Reason::DataLength))));
    }
    if !is_pair(spec.sample_format, spec.bits_per_sample, width) {
        return Err(Error::Unsupported);
    }
    if head.data_length / width as u32 % spec.channels as u32 != 0 {
        return Err(error_of(HeadError::Rejected(Cause::Format(Reason::FrameLength))));
    }
    if !riff_size_fits(head.data_start, head.data_length as u64) {
        return Err(crate::rattle::too_long());
    }
    Ok(())
}

/// A writer that appends to a file with this head.
pub(crate) fn append_at<W: Medium>(writer: W, head: FileHead) -> result::Result<WavWriter<W>, (W, Error)> {
    if let Err(error) = check_head(head) {
        return Err((writer, error));
    }
    let mut writer = writer;
    if let Err(error) = writer.go(head.data_start + head.data_length as u64) {
        return Err((writer, Error::IoError(error)));
    }
    Ok(WavWriter::over(Output::at_end(writer, head.spec_ex, head.data_start, head.data_length)))
}

impl<W: Source + Medium> WavWriter<W> {
    /// Appends to the file in a medium, as [`WavWriter::try_append`] does, which returns the medium at an error:
    /// conditions and errors are the same. Here it is dropped, unless it was lent.
    ///
    /// ```text
    /// let mut writer = WavWriter::new_append(&mut tape)?;
    /// writer.write_samples(&[11i16, -13])?;
    /// writer.finalize()?;
    /// ```
    pub fn new_append(writer: W) -> Result<WavWriter<W>> {
        WavWriter::try_append(writer).map_err(|(_, error)| error)
    }

    /// Appends to the file in a medium that is at its beginning, and returns the medium at an error. The next sample
    /// goes after the data chunk, over what may be there.
    ///
    /// The medium must be at 0, as each new one is; `go(0)` leads there. This call writes nothing, and later ones
    /// change before the data only the two sizes: so a fact chunk keeps its old count.
    ///
    /// The errors, in their order: those of a reader's walk to the data, by the bytes; a `FormatError`, for data that
    /// are no whole samples; `Unsupported`, for samples that are not written with these bits, bytes and format; a
    /// `FormatError`, for data that are no whole frames; `TooLong`, if the RIFF size would pass 4294967295; `IoError`,
    /// if the medium failed. An early end is an `IoError` of kind `Other`.
    pub fn try_append(writer: W) -> result::Result<WavWriter<W>, (W, Error)> {
        let (writer, head) = find_data(writer);
        match head {
            Ok(head) => append_at(writer, head),
            Err(error) => Err((writer, error_of(error))),
        }
    }
}
