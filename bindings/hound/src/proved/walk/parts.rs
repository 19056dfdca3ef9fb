// Made from crates/hound_walk by scripts/erase.py: change that, and not this.
// The walk to the data over bytes that a caller hands in, part after part. So nothing that is skipped has to be read,
// and a caller in C can do the reading.

use crate::proved::walk::cause::{Cause, HeadError, Reason};
use crate::proved::walk::chunks::{Content, FileHead, content_of, read_riff_header};
use crate::proved::walk::fmt::read_fmt_chunk;
use crate::proved::number::{Input, u32_at};
use crate::proved::spec::{WAVEFORMATEXTENSIBLE_LENGTH, WavSpecEx};
use std::io;

// Bytes that are read from the front; no read of them fails.
struct Window<'a> {
    rest: &'a [u8],
}

impl Input for Window<'_> {
    #[inline(always)]
    fn read_some(&mut self, buf: &mut [u8]) -> io::Result<usize> {
        let n = buf.len().min(self.rest.len());
        buf[..n].copy_from_slice(&self.rest[..n]);
        self.rest = &self.rest[n..];
        Ok(n)
    }
}

/// Which bytes a walk asks for next.
#[derive(Clone, Copy)]
pub enum Part {
    /// The first twelve: RIFF, a size, WAVE.
    Front,
    /// The header of a chunk, eight bytes.
    Header,
    /// The last byte of a chunk that was skipped, which shows that it was whole, and the next header.
    Last,
    /// The fields of a fmt chunk of this length, at most 40 bytes.
    Fmt(u32),
}

/// A walk over the chunks of a file, between two parts.
#[derive(Clone, Copy)]
pub struct HeadWalk {
    /// The spec so far.
    pub found: Option<WavSpecEx>,
    /// How many bytes the chunks so far take, after the WAVE tag.
    pub taken: u32,
    /// The part that it asks for.
    pub part: Part,
}

/// Where one part leads.
#[derive(Clone, Copy)]
pub enum Step {
    /// To another part.
    Next(HeadWalk),
    /// To the data.
    Data(FileHead),
}

// The cause of an error of bytes in memory, where no read fails.
#[inline(always)]
fn cause_of(error: HeadError) -> Cause {
    match error {
        HeadError::Rejected(cause) => cause,
        HeadError::Failed(_) => Cause::Ended,
    }
}

#[inline(always)]
fn take_front(bytes: &[u8]) -> Result<Step, Cause> {
    let mut window = Window { rest: bytes };
    match read_riff_header(&mut window) {
        Ok(_) => Ok(Step::Next(HeadWalk { found: None, taken: 0, part: Part::Header })),
        Err(error) => Err(cause_of(error)),
    }
}

// The walk after a content of which so many bytes were read.
#[inline(always)]
fn skip(found: Option<WavSpecEx>, taken: u32, chunk_len: u32, read: u32) -> HeadWalk {
    let content = chunk_len + chunk_len % 2;
    let part = if read == content { Part::Header } else { Part::Last };
    HeadWalk { found, taken: taken + 8 + content, part }
}

#[inline(always)]
fn take_header(found: Option<WavSpecEx>, taken: u32, bytes: &[u8]) -> Result<Step, Cause> {
    if taken > u32::MAX - 8 {
        return Err(Cause::Format(Reason::NoDataChunk));
    }
    if bytes.len() < 8 {
        return Err(Cause::Ended);
    }
    let chunk_len = u32_at(bytes, 4);
    match content_of(&bytes[..4], chunk_len, found, taken)? {
        Content::Data(spec_ex) => {
            Ok(Step::Data(FileHead { spec_ex, data_length: chunk_len, data_start: 12 + taken as u64 + 8 }))
        }
        Content::Fmt => Ok(Step::Next(HeadWalk { found, taken, part: Part::Fmt(chunk_len) })),
        Content::Other => Ok(Step::Next(skip(found, taken, chunk_len, 0))),
    }
}

#[inline(always)]
fn take_fmt(taken: u32, chunk_len: u32, bytes: &[u8]) -> Result<Step, Cause> {
    if taken as u64 + 8 + chunk_len as u64 + chunk_len as u64 % 2 > u32::MAX as u64 {
        return Err(Cause::Format(Reason::NoDataChunk));
    }
    let mut window = Window { rest: bytes };
    match read_fmt_chunk(&mut window, chunk_len) {
        Ok(spec_ex) => {
            Ok(Step::Next(skip(Some(spec_ex), taken, chunk_len, chunk_len.min(WAVEFORMATEXTENSIBLE_LENGTH))))
        }
        Err(error) => Err(cause_of(error)),
    }
}

/// Takes the bytes that a walk asks for, fewer only at the end of the file, and returns where they lead. At an error
/// the walk has ended. After each part fewer are left (`nearer`), and in a file of n bytes some n / 4 (`within`).
#[inline(always)]
pub fn take_part(walk: HeadWalk, bytes: &[u8]) -> Result<Step, Cause> {
    match walk.part {
        Part::Front => take_front(bytes),
        Part::Header => take_header(walk.found, walk.taken, bytes),
        Part::Last => {
            if bytes.len() == 0 {
                return Err(Cause::Ended);
            }
            take_header(walk.found, walk.taken, &bytes[1..])
        }
        Part::Fmt(chunk_len) => take_fmt(walk.taken, chunk_len, bytes),
    }
}

/// How many samples a head counts, if they are whole frames.
pub fn count_samples(head: FileHead) -> Result<u32, Cause> {
    let width = head.spec_ex.bytes_per_sample as u32;
    if head.data_length % width != 0 {
        return Err(Cause::Format(Reason::DataLength));
    }
    let num_samples = head.data_length / width;
    if num_samples % head.spec_ex.spec.channels as u32 != 0 {
        return Err(Cause::Format(Reason::FrameLength));
    }
    Ok(num_samples)
}

/// The bytes of a file from a place on, at most so many.
#[inline(always)]
pub fn bytes_at(file: &[u8], place: u64, count: usize) -> &[u8] {
    if place >= file.len() as u64 {
        return &file[file.len()..];
    }
    let rest = &file[place as usize..];
    &rest[..rest.len().min(count)]
}

impl HeadWalk {
    /// The place of the part that it asks for.
    #[inline(always)]
    pub fn start(self) -> u64 {
        match self.part {
            Part::Front => 0,
            Part::Header => 12 + self.taken as u64,
            Part::Last => 11 + self.taken as u64,
            Part::Fmt(_) => 20 + self.taken as u64,
        }
    }

    /// How many bytes it has.
    #[inline(always)]
    pub fn length(self) -> usize {
        match self.part {
            Part::Front => 12,
            Part::Header => 8,
            Part::Last => 9,
            Part::Fmt(len) => len.min(WAVEFORMATEXTENSIBLE_LENGTH) as usize,
        }
    }
}

// Walks to the data of a file in memory. Of a chunk that is skipped it looks at the last byte alone.
fn find_by_parts(file: &[u8]) -> Result<FileHead, Cause> {
    let mut walk = HeadWalk { found: None, taken: 0, part: Part::Front };
    'parts: loop {
        match take_part(walk, bytes_at(file, walk.start(), walk.length()))? {
            Step::Next(next) => walk = next,
            Step::Data(head) => return Ok(head),
        }
    }
}

/// Walks over a file in memory up to its data, which must be whole frames, and also returns how many samples they are.
pub fn find_samples(file: &[u8]) -> Result<(FileHead, u32), Cause> {
    let head = find_by_parts(file)?;
    let samples = count_samples(head)?;
    Ok((head, samples))
}
