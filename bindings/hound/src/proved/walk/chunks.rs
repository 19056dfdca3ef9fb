// Made from crates/hound_walk by scripts/erase.py: change that, and not this.
// The walk over chunks to the data, what it takes its bytes from, and what a caller takes first of a file.

use crate::proved::walk::cause::{Cause, HeadError, Reason, error_of};
use crate::proved::walk::fmt::read_fmt_chunk;
use crate::proved::walk::parts::count_samples;
use crate::proved::medium::Source;
use crate::proved::number::{Input, ReadError, read_into, u32_at};
use crate::proved::spec::{WAVEFORMATEXTENSIBLE_LENGTH, WavSpecEx};
use std::io;

// What one chunk was (RIFF, "Chunks").
pub(crate) enum ChunkRead {
    // The tag and length of the data chunk: the spec that came before it, and its length.
    Data(WavSpecEx, u32),
    // A whole chunk before it: the spec so far, and the bytes taken since the WAVE tag.
    Other(Option<WavSpecEx>, u32),
}

/// What is before the data.
#[derive(Clone, Copy)]
pub struct FileHead {
    /// The spec of the last fmt chunk.
    pub spec_ex: WavSpecEx,
    /// The length of the data in bytes, as in their chunk.
    pub data_length: u32,
    /// How many bytes are before the data.
    pub data_start: u64,
}

// Takes bytes and drops them.
#[inline(never)]
fn skip_bytes<R: Input>(reader: &mut R, count: u32) -> Result<(), HeadError> {
    let mut left = count;
    while left > 0 {
        let mut buf = [0; 512];
        let now = left.min(512);
        fill(reader, &mut buf[..now as usize])?;
        left -= now;
    }
    Ok(())
}

/// Takes RIFF, a size and WAVE, and returns the size, which isn't checked.
pub(crate) fn read_riff_header<R: Input>(reader: &mut R) -> Result<u32, HeadError> {
    let mut tag = [0; 4];
    fill(reader, &mut tag)?;
    if tag.as_slice() != b"RIFF".as_slice() {
        return Err(HeadError::Rejected(Cause::Format(Reason::NoRiffTag)));
    }
    let mut rest = [0; 8];
    fill(reader, &mut rest)?;
    if &rest[4..8] != b"WAVE".as_slice() {
        return Err(HeadError::Rejected(Cause::Format(Reason::NoWaveTag)));
    }
    Ok(u32_at(&rest, 0))
}

/// What a chunk's header says of its content.
#[derive(Clone, Copy)]
pub(crate) enum Content {
    /// The data, of this spec.
    Data(WavSpecEx),
    /// A fmt chunk.
    Fmt,
    /// Another chunk.
    Other,
}

// What a chunk's header says, before its content is read.
#[inline(always)]
pub(crate) fn content_of(tag: &[u8], chunk_len: u32, found: Option<WavSpecEx>, taken: u32) -> Result<Content, Cause> {
    if tag == b"data".as_slice() {
        return match found {
            None => Err(Cause::Format(Reason::NoFmtChunk)),
            Some(spec_ex) => Ok(Content::Data(spec_ex)),
        };
    }
    // With the pad byte after an odd length.
    let content = chunk_len as u64 + chunk_len as u64 % 2;
    if taken as u64 + 8 + content > u32::MAX as u64 {
        return Err(Cause::Format(Reason::NoDataChunk));
    }
    if tag == b"fmt ".as_slice() {
        return Ok(Content::Fmt);
    }
    Ok(Content::Other)
}

// Takes the content of a chunk, after the eight bytes of its header.
fn read_content<R: Input>(
    reader: &mut R,
    tag: &[u8],
    chunk_len: u32,
    found: Option<WavSpecEx>,
    taken: u32,
) -> Result<ChunkRead, HeadError> {
    match content_of(tag, chunk_len, found, taken)? {
        Content::Data(spec_ex) => Ok(ChunkRead::Data(spec_ex, chunk_len)),
        Content::Fmt => {
            let content = chunk_len + chunk_len % 2;
            let spec_ex = read_fmt_chunk(reader, chunk_len)?;
            let rest = content - chunk_len.min(WAVEFORMATEXTENSIBLE_LENGTH);
            skip_bytes(reader, rest)?;
            Ok(ChunkRead::Other(Some(spec_ex), taken + 8 + content))
        }
        Content::Other => {
            let content = chunk_len + chunk_len % 2;
            skip_bytes(reader, content)?;
            Ok(ChunkRead::Other(found, taken + 8 + content))
        }
    }
}

// Takes one chunk, or the tag and length of the data chunk.
fn read_next_chunk<R: Input>(reader: &mut R, found: Option<WavSpecEx>, taken: u32) -> Result<ChunkRead, HeadError> {
    if taken > u32::MAX - 8 {
        return Err(HeadError::Rejected(Cause::Format(Reason::NoDataChunk)));
    }
    let mut head = [0; 8];
    fill(reader, &mut head)?;
    let chunk_len = u32_at(&head, 4);
    read_content(reader, &head[..4], chunk_len, found, taken)
}

/// Takes exactly what is before the data, however the reads are cut: the walk that reading and appending share.
///
/// The length of the data isn't checked. An error that the bytes don't decide is that of a read, and the only one that
/// counts as failed.
pub fn read_until_data<R: Input>(reader: &mut R) -> Result<FileHead, HeadError> {
    let _size = read_riff_header(reader)?;
    let mut found = None;
    let mut taken = 0;
    'chunks: loop {
        match read_next_chunk(reader, found, taken)? {
            ChunkRead::Data(spec_ex, data_length) => {
                return Ok(FileHead { spec_ex, data_length, data_start: 12 + taken as u64 + 8 });
            }
            ChunkRead::Other(next, now) => {
                found = next;
                taken = now;
            }
        }
    }
}

/// The same over a source, which is returned, so that its failed reads are counted.
///
/// Only its place and its count of faults change.
pub fn find_data<S: Source>(source: S) -> (S, Result<FileHead, HeadError>) {
    let mut input = SourceReader { source };
    let answer = read_until_data(&mut input);
    (input.source, answer)
}

/// A source that is read by `get`, so that its failed reads are counted: an [`Input`] for the walk.
pub struct SourceReader<S> {
    /// The source.
    pub source: S,
}

impl<S: Source> Input for SourceReader<S> {
    fn read_some(&mut self, buf: &mut [u8]) -> io::Result<usize> {
        self.source.get(buf)
    }
}

/// Fills the whole buffer, however the reads are cut.
pub(crate) fn fill<R: Input>(reader: &mut R, buf: &mut [u8]) -> Result<(), HeadError> {
    match read_into(reader, buf) {
        Ok(()) => Ok(()),
        Err(ReadError::Failed(e)) => Err(HeadError::Failed(e)),
        Err(ReadError::Ended) => Err(HeadError::Rejected(Cause::Ended)),
    }
}

/// Takes exactly what is before the data, which must be whole frames, and returns the head and how many samples follow.
pub fn read_until_samples<R: Input>(reader: &mut R) -> Result<(FileHead, u32), HeadError> {
    let head = read_until_data(reader)?;
    let num_samples = count_samples(head)?;
    Ok((head, num_samples))
}

/// Takes the first twelve bytes of a file, and returns the size of the whole file in bytes by them: the RIFF size,
/// which doesn't count itself and the tag before it, and eight bytes more (RIFF, "RIFF Forms"), at most 4294967303. So
/// a caller learns whether this can be a WAVE file.
///
/// The size isn't checked. The errors, in the order of the bytes: `FormatError`, for a wrong RIFF tag and then for a
/// wrong WAVE tag, after which no byte is taken; `IoError`, if a read fails or the input ends, which has the kind
/// `Other`.
pub fn read_wave_header<R: io::Read>(reader: &mut R) -> crate::proved::spec::Result<u64> {
    match read_riff_header(reader) {
        Ok(size) => Ok(size as u64 + 8),
        Err(e) => Err(error_of(e)),
    }
}
