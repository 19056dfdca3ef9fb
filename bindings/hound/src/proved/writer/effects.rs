// Made from crates/hound_writer by scripts/erase.py: change that, and not this.
// What the caller of a machine does to its file, one effect after the other.

use crate::proved::writer::recorder::RecorderError;
use crate::proved::spec::{WavSpecEx, riff_size};

/// What the caller does to its file.
#[derive(Clone, Copy)]
pub enum Effect {
    /// To sync it: all that was written is stored.
    Sync,
    /// To write a zero byte at this place.
    Pad(u64),
    /// To write this size at this place, in four bytes, little-endian.
    Size(u64, u32),
}

/// What a machine asks its caller to do to the file.
#[derive(Clone, Copy)]
pub enum Action {
    /// To read so many bytes at this place, fewer only where the file ends.
    Read(u64, u32),
    /// To sync it, or to write a few bytes.
    Perform(Effect),
    /// To write the caller's block, of so many bytes, at this place.
    WriteBlock(u64, u32),
    /// To cut the file off at this place, unless it is no longer than that.
    Shorten(u64),
}

/// What the caller does to begin a new file.
#[derive(Clone, Copy, Debug, PartialEq, Eq)]
pub enum BeginningEffect {
    /// To sync the folder that holds its name.
    SyncFolder,
    /// To cut it off at its first byte, if it has one.
    Empty,
    /// To sync it.
    Sync,
    /// To write the header from this byte of it on, at the same place in the file: 40 bytes, or fewer at its end.
    Header(u32),
}

/// How what the caller was asked to do has ended.
#[derive(Clone, Copy, Debug, PartialEq, Eq)]
pub enum Report {
    /// It hasn't ended, or nobody knows.
    Pending,
    /// All of it is done.
    Done,
    /// It has failed, or a part of it isn't done.
    Failed,
}

// The effect with this number, from 0, of a checkpoint of a file whose data begin at this place and have this length;
// none after the last.
pub(crate) fn checkpoint_effect(data_start: u64, data_length: u32, number: u32) -> Option<Effect> {
    let riff_size = riff_size(data_start, data_length as u64) as u32;
    match (number, data_length % 2 == 1) {
        (0, true) => Some(Effect::Pad(data_start + data_length as u64)),
        (0, false) | (1, true) => Some(Effect::Sync),
        (1, false) | (2, true) => Some(Effect::Size(4, riff_size)),
        (2, false) | (3, true) => Some(Effect::Size(data_start - 4, data_length)),
        (3, false) | (4, true) => Some(Effect::Sync),
        _ => None,
    }
}

/// Those of the bytes of a header that are written from one of them on.
pub fn part_from(header: &[u8], first: u32) -> &[u8] {
    let rest = &header[header.len().min(first as usize)..];
    &rest[..rest.len().min(40)]
}

/// The effect with this number, from 0, with which a file of this spec begins; none after the last. A file that is
/// there stays as it is where its name can't be stored. It is emptied and synced before it gets its header, so that a
/// loss of power brings nothing of it back. After the last effect a recorder begins
/// ([`Recorder::begin`](super::Recorder::begin)).
pub fn beginning_effect(spec_ex: WavSpecEx, number: u32) -> Result<Option<BeginningEffect>, RecorderError> {
    if !spec_ex.is_writable() {
        return Err(RecorderError::NotWritable);
    }
    Ok(match number {
        0 => Some(BeginningEffect::SyncFolder),
        1 => Some(BeginningEffect::Empty),
        2 => Some(BeginningEffect::Sync),
        3 => Some(BeginningEffect::Header(0)),
        4 => Some(BeginningEffect::Header(40)),
        _ => None,
    })
}
