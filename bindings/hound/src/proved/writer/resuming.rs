// Made from crates/hound_writer by scripts/erase.py: change that, and not this.
// A file that was found, and is recorded further.

use crate::proved::writer::recorder::{Health, Recorder, RecorderError};
use crate::proved::spec::WavSpecEx;
use std::fmt;

/// What a file was found as.
#[derive(Clone, Copy, Debug, PartialEq, Eq)]
pub enum RepairState {
    /// Both sizes are right: those of the whole frames that the file holds. No pad byte is missing, and nothing that
    /// looks like chunks or a tag follows; bytes of a torn frame may.
    Whole,
    /// The data length is wrong, as where a recording was cut off.
    CutOff,
    /// Something follows the data, by the data length, so the file wasn't cut off in them: a chunk with a tag of RIFF
    /// or its common extensions, as `LIST`, `bext` or `id3 `, which may itself be cut off; chunks with printable tags
    /// to the end of the file; or an ID3v1 tag at the end. The pad byte after the data may lack.
    HasChunksAfterData,
    /// The data length counts all whole frames that the file holds, so no sample is concerned. Only the RIFF size is
    /// another one than in the canonical form, or the pad byte is missing, such as where a program writes none.
    AllCounted,
}

/// A sentence without its full stop, for a user.
impl fmt::Display for RepairState {
    fn fmt(&self, f: &mut fmt::Formatter<'_>) -> fmt::Result {
        f.write_str(match self {
            RepairState::Whole => "the file is whole",
            RepairState::CutOff => "the recording was cut off",
            RepairState::HasChunksAfterData => "something follows the data, so they weren't cut off",
            RepairState::AllCounted => "all samples are counted, and only the RIFF size or the pad byte differs",
        })
    }
}

/// A file that was found, as a repair reports it.
#[derive(Clone, Copy)]
pub struct FoundFile {
    /// The spec of its samples.
    pub spec_ex: WavSpecEx,
    /// The place of the first data byte.
    pub data_start: u64,
    /// How many bytes of data its header counts.
    pub data_length: u32,
    /// How many bytes the file has.
    pub length: u64,
    /// How many whole frames it holds.
    pub frames: u32,
    /// How it was found.
    pub state: RepairState,
}

impl FoundFile {
    // How many bytes a frame has.
    fn frame_length(&self) -> u32 {
        self.spec_ex.spec.channels as u32 * self.spec_ex.bytes_per_sample as u32
    }

    // Whether the file ends with the whole frames that its header counts, or with a pad byte after them, and not with
    // another sample in its place.
    fn ends_whole(&self) -> bool {
        let frame = self.frame_length();
        if frame == 0 || self.data_length % frame != 0 {
            return false;
        }
        if self.frames as u64 * frame as u64 > self.data_length as u64 {
            return false;
        }
        let padded = self.data_length as u64 + (self.data_length % 2) as u64;
        self.length <= self.data_start || self.length - self.data_start <= padded
    }

    // How many bytes of data are kept.
    fn kept_length(&self, mends: bool, overwrites: bool) -> Result<u64, RecorderError> {
        let counted = self.data_length as u64;
        if self.length < self.data_start || self.length - self.data_start < counted {
            return Err(RecorderError::Truncated);
        }
        if self.ends_whole() {
            return Ok(counted);
        }
        let held = self.frames as u64 * self.frame_length() as u64;
        match self.state {
            RepairState::Whole | RepairState::AllCounted => Ok(counted),
            RepairState::CutOff if mends && held >= counted => Ok(held),
            RepairState::CutOff if mends => Err(RecorderError::UnfinishedFrame),
            RepairState::CutOff => Err(RecorderError::NeedsMend),
            RepairState::HasChunksAfterData if overwrites => Ok(counted),
            RepairState::HasChunksAfterData => Err(RecorderError::NeedsOverwrite),
        }
    }
}

impl Recorder {
    // A recorder that appends to a file after so many bytes of data. What follows them is cut off, and then, or if the
    // header counts others, a checkpoint comes first.
    fn continue_after(found: FoundFile, data_length: u64) -> Result<Recorder, RecorderError> {
        let mut recorder = Recorder::append(found.spec_ex, found.data_start, data_length)?;
        let end = found.data_start + data_length;
        if found.length < end {
            return Err(RecorderError::Truncated);
        }
        if found.length > end + data_length % 2 {
            recorder.has_rest = true;
            recorder.health = Health::Suspect;
        }
        if data_length != found.data_length as u64 {
            recorder.health = Health::Suspect;
        }
        Ok(recorder)
    }

    /// A recorder that appends to a file that was found. What follows the samples that the header counts is cut off,
    /// and never without leave: samples of a recording that was cut off are kept instead where `mends` is true, and
    /// chunks are given up where `overwrites` is. Bytes of a torn frame, which no reader reads, are cut off without
    /// leave. It is an error if samples are missing.
    ///
    /// So the recorder keeps all that the header counts. A header that counts more than the whole frames has to be
    /// repaired first, since what is more would be cut off while it is still counted.
    pub fn resume(found: FoundFile, mends: bool, overwrites: bool) -> Result<Recorder, RecorderError> {
        let kept = found.kept_length(mends, overwrites)?;
        Recorder::continue_after(found, kept)
    }
}
