// Made from crates/hound_slices by scripts/erase.py: change that, and not this.
// How much of a stream is whole frames, where the data may begin if the header is damaged, and what a file is.

use crate::proved::slices::error::CallError;
use crate::proved::number::u16_at;
use crate::proved::spec::WavSpecEx;
use crate::proved::walk::{Cause, Reason};

/// How many of so many bytes are whole frames of a spec.
pub fn whole_frames(spec_ex: WavSpecEx, length: u64) -> Result<usize, CallError> {
    if spec_ex.spec.channels == 0 || spec_ex.bytes_per_sample == 0 {
        return Err(CallError::NotWritable);
    }
    if length > i64::MAX as u64 {
        return Err(CallError::TooLong);
    }
    let frame = spec_ex.spec.channels as u64 * spec_ex.bytes_per_sample as u64;
    match usize::try_from(length - length % frame) {
        Ok(whole) => Ok(whole),
        Err(_) => Err(CallError::TooLong),
    }
}

// The place of the first chunk's header with this tag after the WAVE tag that so many bytes follow, its own among them,
// whatever the chunks before it are.
fn find_tag(file: &[u8], tag: [u8; 4], least: usize) -> Option<usize> {
    for place in 12..file.len().saturating_sub(least - 1) {
        let mut at = [0; 4];
        at.copy_from_slice(&file[place..place + 4]);
        if at == tag {
            return Some(place);
        }
    }
    None
}

/// The place after the first header of data in a file whose other chunks can't be relied on.
pub fn guess_data(file: &[u8]) -> Result<usize, CallError> {
    match find_tag(file, *b"data", 8) {
        Some(place) => Ok(place + 8),
        None => Err(CallError::Head(Cause::Format(Reason::NoDataChunk))),
    }
}

// Whether MPEG audio begins with these bytes.
fn is_mpeg(tag: &[u8]) -> bool {
    &tag[..3] == b"ID3".as_slice() || tag[0] == 255 && tag[1] >= 224
}

// The number of the kind of file that begins with this tag.
fn kind_of_tag(tag: [u8; 4]) -> u32 {
    if tag == *b"RIFX" {
        65537
    } else if tag == *b"RF64" {
        65538
    } else if tag == *b"BW64" {
        65539
    } else if tag == *b"riff" {
        65540
    } else if tag == *b"FORM" {
        65541
    } else if tag == *b"fLaC" {
        65542
    } else if tag == *b"OggS" {
        65543
    } else if is_mpeg(&tag) {
        65544
    } else {
        65536
    }
}

// The number of the kind of samples that have a fmt chunk with this content.
fn kind_of_fmt(fmt: &[u8]) -> u32 {
    let tag = u16_at(fmt, 0);
    let format = if tag == 65534 && fmt.len() >= 26 { u16_at(fmt, 24) } else { tag };
    if format == 3 && u16_at(fmt, 14) == 64 {
        return 65545;
    }
    format as u32
}

/// What a file is, by its first bytes: the number of the format of its samples, from 0 to 65535, or of another kind of
/// file.
pub fn file_kind(file: &[u8]) -> u32 {
    if file.len() < 4 {
        return 65536;
    }
    let mut tag = [0; 4];
    tag.copy_from_slice(&file[..4]);
    let kind = kind_of_tag(tag);
    if kind != 65536 {
        return kind;
    }
    match find_tag(file, *b"fmt ", 24) {
        Some(place) => kind_of_fmt(&file[place + 8..]),
        None => kind,
    }
}
