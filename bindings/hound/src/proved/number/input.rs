// Made from crates/hound_number by scripts/erase.py: change that, and not this.
// What bytes are read from, and the loop over `read`.

use std::io;
use std::io::ErrorKind;

/// What bytes are read from: any reader, or one whose failed reads contracts count.
///
/// Implemented for every `io::Read`, whose failed reads contracts don't count, and for `SourceReader` of `hound_walk`,
/// a source whose failed reads they count.
pub trait Input {
    /// Reads bytes into the front of the buffer and returns their number. It is 0 only at the end of the input or if
    /// the buffer is empty. At an `Err` no byte was taken.
    fn read_some(&mut self, buf: &mut [u8]) -> io::Result<usize>;
}

// Contracts see only the bytes left of a plain reader.
impl<R: io::Read> Input for R {
    #[inline(always)]
    fn read_some(&mut self, buf: &mut [u8]) -> io::Result<usize> {
        self.read(buf)
    }
}

/// Why a buffer could not be filled. As an `io::Error` it is the read's own, or [`early_end`].
#[derive(Debug)]
pub enum ReadError {
    /// A read failed.
    Failed(io::Error),
    /// The input ended before the buffer was full.
    Ended,
}

/// The error of an input that ended early, of kind `Other`: that of every early end of a file.
#[cold]
#[inline(never)]
pub fn early_end() -> io::Error {
    io::Error::new(ErrorKind::Other, "Failed to read enough bytes.")
}

impl From<ReadError> for io::Error {
    #[inline(always)]
    fn from(error: ReadError) -> io::Error {
        match error {
            ReadError::Failed(e) => e,
            ReadError::Ended => early_end(),
        }
    }
}

/// Fills the whole buffer, however the reads are cut; an empty buffer needs no read.
///
/// `Interrupted` is passed on like any other fault. At an `Err`, fewer bytes than the buffer holds were taken.
#[inline(always)]
pub fn read_into<R: Input>(reader: &mut R, buf: &mut [u8]) -> Result<(), ReadError> {
    let mut at = 0;
    while at < buf.len() {
        match reader.read_some(&mut buf[at..]) {
            Ok(0) => return Err(ReadError::Ended),
            Ok(n) => at += n,
            Err(e) => return Err(ReadError::Failed(e)),
        }
    }
    Ok(())
}
