// Made from crates/hound_sample by scripts/erase.py: change that, and not this.
// The types of samples.

use crate::proved::sample::decode::{decode_next, read_container, read_containers};
use crate::proved::sample::integer::{Integer, encode_integer, lowest_16_bits};
use crate::proved::sample::item::{ContainerReader, SampleError, reason_of};
use crate::proved::number::write_bytes;
use crate::proved::spec::{Result, SampleFormat};
use std::{io, result};

/// A type whose samples are read and written.
///
/// Implemented for `i8`, `i16`, `i32` and [`FloatBits`](super::FloatBits). Integers are written with each pair of
/// `WavSpecEx::is_writable` for integers, if the value fits its bits; `i8` reads 8 bits, `i16` 8 and 16, `i32` all of
/// those pairs, and so every integer that a writer here writes.
///
/// A sample of `bits` used bits takes `byte_width` bytes in the file, its container. A type's tables say which pairs of
/// the two it takes, and which values: `container` for writing, `rejection` and `meaning` for reading. A type of your
/// own has tables of its own, with `read`, `as_i16` and `encode`; the reader and the writer treat it as any other.
///
/// Writing checks the pair before the value: another pair is `Unsupported`, a value out of range `TooWide`. Reading
/// checks the format first: another one is `InvalidSampleFormat`. Then more bytes than the type has are `TooWide`, and
/// every other pair that it doesn't read is `Unsupported`.
pub trait Sample: Sized {
    /// Writes the container of `bits / 8` bytes, rounded down, as [`Sample::write_padded`] does.
    fn write<W: io::Write>(self, writer: &mut W, bits: u16) -> Result<()> {
        self.write_padded(writer, bits, bits / 8)
    }

    /// Writes the container of `byte_width` bytes, `bits` of them used.
    ///
    /// An error of the type comes first and leaves the writer as it was. A fault of the writer is passed on as
    /// `IoError`, `Interrupted` too, and a write that takes no byte is one of kind `WriteZero`; a beginning of the
    /// container may be written by then.
    fn write_padded<W: io::Write>(self, writer: &mut W, bits: u16, byte_width: u16) -> Result<()> {
        let container = self.encode(bits, byte_width)?;
        write_bytes(writer, &container[..byte_width as usize])?;
        Ok(())
    }

    /// Reads a sample with these bytes and used bits: takes exactly its container.
    ///
    /// A fault of the reader is passed on as `IoError`, `Interrupted` too; an early end is an `IoError` of kind
    /// `Other`. No `IoError` comes from elsewhere, so a `WavReader` returns the fault that it met itself. An error for
    /// the format, the bytes or the bits comes before any read and leaves the reader untouched.
    fn read<R: io::Read>(reader: &mut R, fmt: SampleFormat, bytes: u16, bits: u16) -> Result<Self>;

    /// Reads a sample as [`Sample::read`] does, from a reader that saves its faults (own).
    ///
    /// A `WavReader` reads each item by it. The error of `read` has the fault in it, and so it is large; here the
    /// reader has the fault. A type of your own needn't implement it.
    #[inline(always)]
    fn read_item<R: ContainerReader>(
        reader: &mut R,
        fmt: SampleFormat,
        width: u16,
        bits: u16,
    ) -> result::Result<Self, SampleError> {
        Self::read(reader, fmt, width, bits).map_err(reason_of)
    }

    /// Reads samples one after the other, until the slice is full or `read` returns an error (own).
    ///
    /// Returns how many samples were read, which are the front of the slice, and the error that ended it, if one did.
    /// The rest of the slice stays as it was. A type of your own needn't implement it; the types of this crate read
    /// many containers at once here.
    fn read_many<R: io::Read>(
        reader: &mut R,
        samples: &mut [Self],
        fmt: SampleFormat,
        width: u16,
        bits: u16,
    ) -> (usize, Result<()>) {
        for i in 0..samples.len() {
            match Self::read(reader, fmt, width, bits) {
                Ok(sample) => samples[i] = sample,
                Err(error) => return (i, Err(error)),
            }
        }
        (samples.len(), Ok(()))
    }

    /// The value cast to sixteen bits: for an integer the lowest sixteen, as a signed number. Code that is generic over
    /// the type needs `can_cast`; for an integer type it always holds.
    fn as_i16(self) -> i16;

    /// The container in the first `width` bytes, and zeros after it, or the error of the type: `Unsupported` or
    /// `TooWide`, and no other. A writer makes each sample's bytes by it.
    fn encode(self, bits: u16, width: u16) -> Result<[u8; 4]>;
}

impl<T: Integer> Sample for T {
    #[inline(always)]
    fn read<R: io::Read>(reader: &mut R, fmt: SampleFormat, bytes: u16, bits: u16) -> Result<Self> {
        read_container(reader, fmt, bytes, bits)
    }

    #[inline(always)]
    fn read_item<R: ContainerReader>(
        reader: &mut R,
        fmt: SampleFormat,
        width: u16,
        bits: u16,
    ) -> result::Result<Self, SampleError> {
        decode_next(reader, fmt, width, bits)
    }

    #[inline(always)]
    fn read_many<R: io::Read>(
        reader: &mut R,
        samples: &mut [Self],
        fmt: SampleFormat,
        width: u16,
        bits: u16,
    ) -> (usize, Result<()>) {
        read_containers(reader, samples, fmt, width, bits)
    }

    #[inline(always)]
    fn as_i16(self) -> i16 {
        lowest_16_bits(self.to_i32())
    }

    #[inline(always)]
    fn encode(self, bits: u16, width: u16) -> Result<[u8; 4]> {
        encode_integer(self.to_i32(), bits, width)
    }
}
