// Made from crates/hound_repair by scripts/erase.py: change that, and not this.
// What a file holds, looked at without writing, and the sizes that it should have.

use crate::proved::repair::mend::look_by_parts;
use crate::proved::repair::stages::Task;
use crate::proved::medium::Source;
use crate::proved::number::u32_at;
use crate::proved::spec::{Error, WavSpecEx, riff_size, riff_size_fits};
use crate::proved::writer::{FoundFile, RepairState};
use std::result;

// The tags that show that a chunk begins, whatever follows them: those of RIFF and of its update, of broadcasts, of
// metadata, and of programs.
const KNOWN_TAGS: [[u8; 4]; 24] = [
    *b"LIST", *b"INFO", *b"fact", *b"cue ", *b"plst", *b"JUNK", *b"PAD ", *b"DISP", *b"inst", *b"smpl", *b"bext",
    *b"levl", *b"cart", *b"axml", *b"chna", *b"iXML", *b"_PMX", *b"id3 ", *b"ID3 ", *b"acid", *b"strc", *b"afsp",
    *b"PEAK", *b"FLLR",
];

// How many bytes an ID3v1 tag has, which is at the end of a file.
pub(crate) const ID3_LENGTH: u64 = 128;

// What an ID3v1 tag begins with.
pub(crate) const ID3_TAG: [u8; 3] = *b"TAG";

/// The head of a file, with what is known of the byte after its data.
#[derive(Clone, Copy)]
pub struct SeenHead {
    /// The spec of the last fmt chunk.
    pub spec_ex: WavSpecEx,
    /// The length of the data in bytes, as in their chunk.
    pub data_length: u32,
    /// How many bytes are before the data.
    pub data_start: u64,
    /// A single byte follows the data, and isn't 0: it is a sample.
    pub has_more: bool,
}

/// A file as it was found, and the sizes that it should have.
#[derive(Clone, Copy)]
pub struct Damage {
    /// Its head.
    pub head: SeenHead,
    pub(crate) held: u64,
    pub(crate) sizes: Sizes,
    pub(crate) state: RepairState,
}

// Whether ASCII prints a byte.
fn is_printable(byte: u8) -> bool {
    byte >= 32 && byte <= 126
}

// Whether these bytes begin with a tag of four printable ones.
fn has_tag(header: &[u8]) -> bool {
    is_printable(header[0]) && is_printable(header[1]) && is_printable(header[2]) && is_printable(header[3])
}

// Whether these bytes begin with a known tag.
pub(crate) fn has_known_tag(bytes: &[u8]) -> bool {
    if bytes.len() < 4 {
        return false;
    }
    let mut tag = [0; 4];
    tag.copy_from_slice(&bytes[..4]);
    KNOWN_TAGS.contains(&tag)
}

// How many bytes the content of the chunk takes that begins with these of so many bytes, if its tag is printable and
// there is room for it.
pub(crate) fn chunk_content(header: &[u8], left: u64) -> Option<u64> {
    if left < 8 {
        return None;
    }
    let length = u32_at(header, 4) as u64;
    if has_tag(header) && 8 + length <= left {
        return Some(length + length % 2);
    }
    None
}

impl SeenHead {
    /// The data length that the file shows.
    pub(crate) fn shown(&self) -> u64 {
        self.data_length as u64 + self.has_more as u64
    }
}

impl Damage {
    /// What is reported of it.
    pub fn repair(&self) -> Repair {
        let spec_ex = self.head.spec_ex;
        let frame = spec_ex.spec.channels as u32 * spec_ex.bytes_per_sample as u32;
        let (frames, left_over) = match self.state {
            RepairState::HasChunksAfterData => (self.head.data_length / frame, self.head.data_length % frame),
            _ => (self.sizes.frames, self.sizes.left_over),
        };
        Repair { spec_ex, frames, left_over, state: self.state }
    }

    /// The file of so many bytes in which this was found, as `Recorder::resume` takes it.
    pub fn in_file(&self, length: u64) -> FoundFile {
        let found = self.repair();
        FoundFile {
            spec_ex: found.spec_ex,
            data_start: self.head.data_start,
            data_length: self.head.data_length,
            length,
            frames: found.frames,
            state: found.state,
        }
    }

    /// Whether a pad byte is missing after its data.
    pub(crate) fn lacks_pad(&self) -> bool {
        let length = self.sizes.data_length;
        self.held == length as u64 && length % 2 == 1
    }
}

/// Looks at a file in a medium that is at its beginning, writes nothing, and reports what [`repair`](super::repair)
/// would find: the frames that the file holds, and how it was found.
///
/// The errors, in their order: those of a reader's walk to the data, by the bytes; `Unsupported`, for samples that are
/// not written with these bits, bytes and format; `TooLong`, where the RIFF size of the frames would pass 4294967295;
/// `IoError`, where the medium failed.
pub fn find_damage<S: Source>(medium: S) -> result::Result<(S, Repair), (S, Error)> {
    let mut medium = medium;
    match look_by_parts(&mut medium, Task::FindDamage) {
        Ok(damage) => Ok((medium, damage.repair())),
        Err(error) => Err((medium, error)),
    }
}

/// What a file holds, and how it was found.
#[derive(Clone, Copy, Debug, PartialEq, Eq)]
pub struct Repair {
    /// The spec of the last fmt chunk.
    pub spec_ex: WavSpecEx,
    /// The number of whole frames: samples for each channel.
    pub frames: u32,
    /// How many bytes of a torn frame follow them.
    pub left_over: u32,
    /// How the file was found.
    pub state: RepairState,
}

/// The sizes that a file should have, in bytes, and what they count.
#[derive(Clone, Copy)]
pub(crate) struct Sizes {
    pub(crate) riff_size: u32,
    pub(crate) data_length: u32,
    pub(crate) frames: u32,
    pub(crate) left_over: u32,
}

/// The right sizes of a file with this head that shows this data length, and holds so many bytes from the data on, if
/// the RIFF size fits.
pub(crate) fn right_sizes(head: SeenHead, shown: u64, held: u64) -> Option<Sizes> {
    let frame = head.spec_ex.spec.channels as u64 * head.spec_ex.bytes_per_sample as u64;
    // All that is held is data, except a pad byte that the data length shows.
    let data = if held == shown + 1 && shown % 2 == 1 && shown % frame == 0 { shown } else { held };
    let frames = data / frame;
    let right = frames * frame;
    if !riff_size_fits(head.data_start, right) {
        return None;
    }
    Some(Sizes {
        riff_size: riff_size(head.data_start, right) as u32,
        data_length: right as u32,
        frames: frames as u32,
        left_over: (data % frame) as u32,
    })
}
