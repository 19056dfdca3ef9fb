//! Recordings that are read while another program makes them (own).
use crate::machines::{FollowError, FollowStep, Follower as Machine, Report};
use crate::slices::CallError;
use crate::{Error, Result, Sample, WavSpecEx};
use std::io::{ErrorKind, Read, Seek, SeekFrom};

// How many of the last bytes that were given are compared with the file.
const TAIL: usize = 256;

/// Reads a recording while another program makes it, over a file without a buffer: the samples that its header counts
/// by now. Each of them is one that the recorder accepted, and stays so.
///
/// A recording has ended where nothing new is counted, then [`lock`](crate::lock) of another handle of the file is Ok,
/// and then a last read finds nothing new, either. A file that was emptied or cut off meanwhile is an `IoError`, unless
/// it begins with the same samples again.
pub struct Follower<R> {
    file: R,
    machine: Machine,
    given: u64,
    tail: Vec<u8>,
}

impl<R: Read + Seek> Follower<R> {
    /// A follower of this file, of which nothing needs to be there yet.
    pub fn new(file: R) -> Follower<R> {
        Follower { file, machine: Machine::new(), given: 0, tail: Vec::new() }
    }

    /// The spec of the samples, once all of the header was there.
    pub fn spec_ex(&self) -> Option<WavSpecEx> {
        self.machine.recording().map(|recording| recording.spec_ex)
    }

    /// Reads the next samples into the front of a slice, in which a frame fits, and returns how many: whole frames
    /// that are counted, and none where nothing new is. It doesn't wait.
    pub fn read_samples<S: Sample>(&mut self, samples: &mut [S]) -> Result<usize> {
        let left = self.look()?;
        let (spec_ex, start) = match self.machine.recording() {
            None => return Ok(0),
            Some(recording) => (recording.spec_ex, recording.data_start),
        };
        let (spec, width) = (spec_ex.spec, usize::from(spec_ex.bytes_per_sample));
        let most = samples.len() - samples.len() % usize::from(spec.channels);
        if most == 0 && left > 0 {
            return Err(CallError::NoRoom.into());
        }
        let mut bytes = vec![0; (most * width).min(left as usize)];
        self.read_all(start + self.given, &mut bytes)?;
        if !self.is_same()? {
            return self.replaced();
        }
        let mut rest = &bytes[..];
        for sample in &mut samples[..bytes.len() / width] {
            *sample = S::read(&mut rest, spec.sample_format, spec_ex.bytes_per_sample, spec.bits_per_sample)?;
        }
        self.given += bytes.len() as u64;
        self.tail.extend_from_slice(&bytes);
        self.tail.drain(..self.tail.len().saturating_sub(TAIL));
        Ok(bytes.len() / width)
    }

    // How many bytes are counted that weren't given. The look that finds the header counts none.
    fn look(&mut self) -> Result<u64> {
        let mut machine = self.machine;
        while u64::from(machine.counted()) == self.given && self.look_by(&mut machine)? {}
        self.machine = machine;
        Ok(u64::from(machine.counted()) - self.given)
    }

    // Whether a look finds something new.
    fn look_by(&mut self, machine: &mut Machine) -> Result<bool> {
        let (mut part, mut count, mut report) = ([0; 40], 0, Report::Pending);
        loop {
            match machine.next(&part[..count], report)? {
                FollowStep::Reads(place, length) => count = self.read_at(place, &mut part[..length as usize])?,
                FollowStep::Grew => return Ok(true),
                FollowStep::NothingNew => return Ok(false),
            }
            report = Report::Done;
        }
    }

    // Whether the last bytes that were given are where they were. Where none were the header is the same.
    fn is_same(&mut self) -> Result<bool> {
        let start = self.machine.recording().map_or(0, |recording| recording.data_start);
        if self.given == 0 {
            let mut again = Machine::new();
            self.look_by(&mut again)?;
            let head = |machine: &Machine| machine.recording().map(|found| (found.spec_ex, found.data_start));
            return Ok(head(&again) == head(&self.machine));
        }
        let mut now = vec![0; self.tail.len()];
        let count = self.read_at(start + self.given - self.tail.len() as u64, &mut now)?;
        Ok(count == now.len() && now == self.tail)
    }

    // Another recording was found in the file: an error, unless nothing was given of the one before.
    fn replaced(&mut self) -> Result<usize> {
        if self.given > 0 {
            return Err(CallError::Truncated.into());
        }
        self.machine = Machine::new();
        Ok(0)
    }

    fn read_all(&mut self, place: u64, bytes: &mut [u8]) -> Result<()> {
        match self.read_at(place, bytes)? {
            count if count == bytes.len() => Ok(()),
            _ => Err(CallError::Truncated.into()),
        }
    }

    // Reads bytes at a place; fewer where the file ends.
    fn read_at(&mut self, place: u64, bytes: &mut [u8]) -> Result<usize> {
        self.file.seek(SeekFrom::Start(place))?;
        let mut count = 0;
        while count < bytes.len() {
            match self.file.read(&mut bytes[count..]) {
                Ok(0) => break,
                Ok(some) => count += some.min(bytes.len() - count),
                Err(error) if error.kind() == ErrorKind::Interrupted => {}
                Err(error) => return Err(error.into()),
            }
        }
        Ok(count)
    }
}

impl From<FollowError> for Error {
    fn from(error: FollowError) -> Error {
        match error {
            FollowError::Rejected(cause) => CallError::Head(cause),
            FollowError::Truncated => CallError::Truncated,
            FollowError::TooLong => CallError::TooLong,
            FollowError::NotPerformed => CallError::NotPerformed,
        }
        .into()
    }
}
