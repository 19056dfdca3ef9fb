// Made from crates/hound_sample by scripts/erase.py: change that, and not this.
// Containers that are read and decoded: one, or many in few reads, which fill pieces of whole containers.

use crate::proved::sample::item::{ContainerReader, SampleError, reason_of};
use crate::proved::number::{early_end, read_into};
use crate::proved::spec::{Error, Result, SampleFormat, is_pair};
use std::{io, result};

// The bytes of a piece: enough that a read costs little for each sample.
const PIECE: usize = 1024;

// The bytes of a piece for few samples, which are cleared at each call.
const SMALL_PIECE: usize = 64;

/// A type that has a value for every container of the pairs that it reads.
///
/// It is no part of [`Sample`](super::Sample), whose `read_many` is made of it: the checker allows no cycle between the
/// methods of an `impl`.
pub trait Decode: Sized {
    /// Whether containers of a format, with these bytes and used bits, are decoded, or why not: the errors of
    /// [`Sample::read`](super::Sample::read).
    fn check(fmt: SampleFormat, width: u16, bits: u16) -> Result<()>;

    /// The value of a container of this many bytes.
    fn decode(container: &[u8], fmt: SampleFormat, width: u16, bits: u16) -> Self;
}

/// Whether a type of a format and of at most this many bytes reads samples, or why not.
#[inline(always)]
pub(crate) fn check_type(format: SampleFormat, most: u16, fmt: SampleFormat, width: u16, bits: u16) -> Result<()> {
    if fmt == format && width <= most && is_pair(fmt, bits, width) {
        return Ok(());
    }
    if fmt != format {
        return Err(Error::InvalidSampleFormat);
    }
    if width > most {
        return Err(Error::TooWide);
    }
    Err(Error::Unsupported)
}

/// Reads a container and decodes it, as [`Sample::read`](super::Sample::read) does.
#[inline(always)]
pub(crate) fn read_container<S: Decode, R: io::Read>(
    reader: &mut R,
    fmt: SampleFormat,
    width: u16,
    bits: u16,
) -> Result<S> {
    S::check(fmt, width, bits)?;
    let mut container = [0; 4];
    let container = &mut container[..width as usize];
    match read_into(reader, container) {
        Ok(()) => Ok(S::decode(container, fmt, width, bits)),
        Err(error) => Err(Error::IoError(error.into())),
    }
}

// Takes the next container and decodes it.
#[inline(always)]
fn decode_container<S: Decode, R: ContainerReader>(
    reader: &mut R,
    fmt: SampleFormat,
    bits: u16,
    width: u16,
) -> result::Result<S, SampleError> {
    match reader.next_container(width) {
        Some(container) => Ok(S::decode(&container[..width as usize], fmt, width, bits)),
        None => Err(SampleError::Failed),
    }
}

/// Takes the next container and decodes it, as [`Sample::read_item`](super::Sample::read_item) does, with constant
/// widths for each pair.
#[inline(always)]
pub(crate) fn decode_next<S: Decode, R: ContainerReader>(
    reader: &mut R,
    fmt: SampleFormat,
    width: u16,
    bits: u16,
) -> result::Result<S, SampleError> {
    if let Err(error) = S::check(fmt, width, bits) {
        return Err(reason_of(error));
    }
    by_pair!(bits, width, decode_container(reader, fmt))
}

// Fills the front of a buffer, all of it unless a read fails or the input ends. Returns the count.
#[inline(always)]
fn read_piece<R: io::Read>(reader: &mut R, piece: &mut [u8]) -> (usize, io::Result<()>) {
    let mut at = 0;
    while at < piece.len() {
        match reader.read(&mut piece[at..]) {
            Ok(0) => return (at, Err(early_end())),
            Ok(n) => at += n,
            Err(error) => return (at, Err(error)),
        }
    }
    (at, Ok(()))
}

/// Decodes containers, one after the other.
#[inline(always)]
pub(crate) fn decode_each<S: Decode>(from: &[u8], samples: &mut [S], fmt: SampleFormat, bits: u16, width: u16) {
    let size = width as usize;
    for (sample, container) in samples.iter_mut().zip(from.chunks_exact(size.max(1))) {
        *sample = S::decode(container, fmt, width, bits);
    }
}

// Reads samples by pieces that a buffer has room for.
#[inline(always)]
fn read_through<S: Decode, R: io::Read>(
    reader: &mut R,
    samples: &mut [S],
    piece: &mut [u8],
    fmt: SampleFormat,
    bits: u16,
    width: u16,
) -> (usize, Result<()>) {
    let size = width as usize;
    let mut done = 0;
    while done < samples.len() {
        let wanted = (samples.len() - done).min(piece.len() / size);
        let (taken, answer) = read_piece(reader, &mut piece[..wanted * size]);
        let count = taken / size;
        let decoded = &mut samples[done..done + count];
        decode_each(&piece[..count * size], decoded, fmt, bits, width);
        done += count;
        if let Err(error) = answer {
            return (done, Err(Error::IoError(error)));
        }
    }
    (done, Ok(()))
}

// Reads samples by pieces of a size that depends on their number.
#[inline(always)]
fn read_pieces<S: Decode, R: io::Read>(
    reader: &mut R,
    samples: &mut [S],
    fmt: SampleFormat,
    bits: u16,
    width: u16,
) -> (usize, Result<()>) {
    if samples.len() <= SMALL_PIECE / 4 {
        return read_through(reader, samples, &mut [0; SMALL_PIECE], fmt, bits, width);
    }
    read_through(reader, samples, &mut [0; PIECE], fmt, bits, width)
}

/// Reads samples as [`Sample::read_many`](super::Sample::read_many) does, with constant widths for each pair.
#[inline(always)]
pub(crate) fn read_containers<S: Decode, R: io::Read>(
    reader: &mut R,
    samples: &mut [S],
    fmt: SampleFormat,
    width: u16,
    bits: u16,
) -> (usize, Result<()>) {
    if samples.is_empty() {
        return (0, Ok(()));
    }
    if let Err(error) = S::check(fmt, width, bits) {
        return (0, Err(error));
    }
    by_pair!(bits, width, read_pieces(reader, samples, fmt))
}
