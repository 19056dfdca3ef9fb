// Made from crates/hound_writer by scripts/erase.py: change that, and not this.
// A recorder, whose caller writes the file: what it keeps, and the parts of its calls.

use crate::proved::writer::effects::{Effect, checkpoint_effect};
use crate::proved::spec::{WavSpecEx, header_length, is_pair, riff_size_fits};

/// Why a recorder doesn't do what a call is for.
#[derive(Clone, Copy, Debug, PartialEq, Eq)]
pub enum RecorderError {
    /// No such samples are written, or none there.
    NotWritable,
    /// The samples of the file are no whole frames.
    UnfinishedFrame,
    /// The sizes of the file would pass 32 bits.
    TooLong,
    /// The file lacks samples that its header counts.
    Truncated,
    /// The recording was cut off, and isn't to be mended.
    NeedsMend,
    /// Chunks or a tag follow the data, and aren't to be overwritten.
    NeedsOverwrite,
    /// A write failed, or a checkpoint isn't done: one has to be, before samples are written.
    NeedsCheckpoint,
    /// A sync failed, after which it is unknown what is stored.
    SyncFailed,
}

/// Whether a recorder's file is as the recorder counts it.
#[derive(Clone, Copy, Debug, PartialEq, Eq)]
pub enum Health {
    /// Nothing has failed since the last checkpoint.
    Sound,
    /// A write has failed, or the header counts other samples than the recorder. A checkpoint has to be done before a
    /// block is written.
    Suspect,
    /// A sync has failed, so nobody knows what is stored. Each call is an error from then on.
    Dead,
}

impl Health {
    // The error of a call that a failure has ended.
    pub(crate) fn error(self) -> RecorderError {
        match self {
            Health::Dead => RecorderError::SyncFailed,
            Health::Sound | Health::Suspect => RecorderError::NeedsCheckpoint,
        }
    }
}

/// What is under way.
#[derive(Clone, Copy, Debug, PartialEq, Eq)]
pub enum Phase {
    /// Nothing is.
    Idle,
    /// A checkpoint is.
    Saving,
    /// A block was requested, and a checkpoint may come first. Once it is written, the data have so many bytes.
    Requested(u32),
    /// A block is being written, after which the data have so many bytes.
    Writing(u32),
    /// The write of a block has failed, and what it left is being cut off.
    Cleaning,
}

/// What a recorder keeps of a file that its caller writes. The caller asks for blocks and checkpoints
/// ([`write`](Recorder::write), [`checkpoint`](Recorder::checkpoint)), and performs one action after the other that
/// [`next`](Recorder::next) returns, each time with a report of the last one.
#[derive(Clone, Copy)]
pub struct Recorder {
    /// The place of the first data byte.
    pub data_start: u64,
    /// How many bytes of data are written.
    pub data_length: u32,
    /// How many effects of a checkpoint are done; 0 if none is under way.
    pub number: u32,
    /// How many bytes a sample has.
    pub bytes_per_sample: u16,
    /// How many samples a frame has.
    pub channels: u16,
    /// Whether the file is as this counts it.
    pub health: Health,
    /// What is under way.
    pub phase: Phase,
    /// Whether bytes may follow the data that are to be cut off.
    pub has_rest: bool,
}

impl Recorder {
    // A recorder of a file without data.
    fn empty(spec_ex: WavSpecEx, data_start: u64) -> Recorder {
        Recorder {
            data_start,
            data_length: 0,
            number: 0,
            bytes_per_sample: spec_ex.bytes_per_sample,
            channels: spec_ex.spec.channels,
            health: Health::Sound,
            phase: Phase::Idle,
            has_rest: false,
        }
    }

    /// A recorder of a new file, which the caller has begun ([`beginning_effect`](super::beginning_effect)). What comes
    /// next is a checkpoint of no samples, after which a loss of power leaves the header; a block or a checkpoint that
    /// is requested before it takes its place.
    pub fn begin(spec_ex: WavSpecEx) -> Result<Recorder, RecorderError> {
        if !spec_ex.is_writable() {
            return Err(RecorderError::NotWritable);
        }
        let data_start = header_length(spec_ex);
        let mut recorder = Recorder::empty(spec_ex, data_start as u64);
        recorder.phase = Phase::Saving;
        Ok(recorder)
    }

    // A recorder that appends to a file whose data begin at this place and have so many bytes.
    pub(crate) fn append(spec_ex: WavSpecEx, data_start: u64, data_length: u64) -> Result<Recorder, RecorderError> {
        let spec = spec_ex.spec;
        let width = spec_ex.bytes_per_sample;
        if !is_pair(spec.sample_format, spec.bits_per_sample, width) || spec.channels == 0 {
            return Err(RecorderError::NotWritable);
        }
        if data_length % (spec.channels as u64 * width as u64) != 0 {
            return Err(RecorderError::UnfinishedFrame);
        }
        let mut recorder = Recorder::empty(spec_ex, data_start);
        recorder.data_length = recorder.check_length(data_length)?;
        Ok(recorder)
    }

    // The data length, where a file can have it.
    fn check_length(&self, length: u64) -> Result<u32, RecorderError> {
        if self.data_start < 20 || self.bytes_per_sample == 0 {
            return Err(RecorderError::NotWritable);
        }
        if !riff_size_fits(self.data_start, length) {
            return Err(RecorderError::TooLong);
        }
        Ok(length as u32)
    }

    /// How many frames have room after those that are written, for a program that continues in another file. It is 0
    /// where no more has room, or none can be there.
    pub fn frames_left(&self) -> u32 {
        let frame = self.channels as u64 * self.bytes_per_sample as u64;
        if self.data_start < 20 || self.data_start > u32::MAX as u64 + 8 || frame == 0 {
            return 0;
        }
        let counted = u32::MAX as u64 + 8 - self.data_start;
        // A pad byte follows data of an odd length.
        let most = counted - counted % 2;
        (most.saturating_sub(self.data_length as u64) / frame) as u32
    }

    // The data length with so many samples more.
    pub(crate) fn length_with(&self, samples: u64) -> Result<u32, RecorderError> {
        // More are too many in any width.
        let few = samples.min(1 << 32);
        self.check_length(self.data_length as u64 + few * self.bytes_per_sample as u64)
    }

    // The effect with this number of a checkpoint.
    fn effect(&self, number: u32) -> Option<Effect> {
        if self.health == Health::Sound {
            return checkpoint_effect(self.data_start, self.data_length, number);
        }
        if number == 0 {
            return Some(Effect::Sync);
        }
        checkpoint_effect(self.data_start, self.data_length, number - 1)
    }

    // The next effect of a checkpoint of all that is written, or none if all are done.
    pub(crate) fn next_effect(&self) -> Result<Option<Effect>, RecorderError> {
        if self.health == Health::Dead {
            return Err(RecorderError::SyncFailed);
        }
        self.check_length(self.data_length as u64)?;
        Ok(self.effect(self.number))
    }

    // The checkpoint that is under way has ended in an error.
    pub(crate) fn stop(&mut self) {
        self.number = 0;
        self.phase = Phase::Idle;
    }
}
