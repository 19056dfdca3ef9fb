// Made from crates/hound_writer by scripts/erase.py: change that, and not this.
// The file that a writer writes.

use crate::proved::writer::block::{BLOCK_LENGTH, Block};
use crate::proved::writer::end::{patch, put_at_end, put_samples_at_end};
use crate::proved::medium::Medium;
use crate::proved::sample::{Sample, SampleError, check_containers, have_containers, reason_of};
use crate::proved::spec::{Error, Result, WavSpecEx, riff_size, riff_size_fits};
use std::{io, result};

/// A file that is being written: what a writer has, except for the saved fault.
pub(crate) struct Output<W: Medium> {
    // The properties of the audio data, and the bytes of a container.
    spec_ex: WavSpecEx,
    // The medium that the file goes to.
    pub(crate) writer: W,
    // The place of the first data byte.
    data_start: u64,
    // How many bytes of the accepted samples are written.
    data_bytes_written: u32,
    // Whether the medium may be elsewhere than after these.
    may_have_moved: bool,
    // The buffered accepted samples, which are written after these.
    block: Block,
    // Below this many buffered bytes there is room for a sample, in the block and in the file.
    fast_path_limit: usize,
    // The memory that batches use, which later ones reuse.
    pub(crate) batch_memory: Option<()>,
}

// Below how many buffered bytes a block has room for a sample of any width, if this many bytes are written: 0 if a
// whole block more might not fit the RIFF size.
fn fast_path_limit_of(data_start: u64, data_bytes_written: u32) -> usize {
    if riff_size_fits(data_start, data_bytes_written as u64 + BLOCK_LENGTH as u64) {
        BLOCK_LENGTH - 3
    } else {
        0
    }
}

// The result of a call that has patched the header, or met a fault.
fn publish_result(patched: io::Result<()>, are_frames: bool) -> Result<()> {
    patched?;
    if !are_frames {
        return Err(Error::UnfinishedSample);
    }
    Ok(())
}

impl<W: Medium> Output<W> {
    /// A file whose data begin at this place and have this length, with its medium after them.
    pub(crate) fn at_end(writer: W, spec_ex: WavSpecEx, data_start: u64, data_length: u32) -> Output<W> {
        Output {
            spec_ex,
            writer,
            data_start,
            data_bytes_written: data_length,
            may_have_moved: false,
            block: Block::new(),
            fast_path_limit: fast_path_limit_of(data_start, data_length),
            batch_memory: None,
        }
    }

    /// Whether the RIFF size of a file with this many more bytes fits 32 bits.
    #[inline(always)]
    pub(crate) fn has_room(&self, more: u64) -> bool {
        riff_size_fits(self.data_start, self.data_length() as u64 + more)
    }

    // How many bytes the accepted samples have.
    #[inline(always)]
    fn data_length(&self) -> u32 {
        self.data_bytes_written + self.block.len() as u32
    }

    // Writes the buffered samples; at an error all of them stay buffered.
    #[inline(never)]
    fn put_block(&mut self) -> io::Result<()> {
        if self.block.len() == 0 {
            return Ok(());
        }
        let end = self.data_start + self.data_bytes_written as u64;
        let bytes = self.block.as_slice();
        put_at_end(&mut self.writer, &mut self.may_have_moved, end, bytes)?;
        self.data_bytes_written += self.block.len() as u32;
        self.block.clear();
        self.fast_path_limit = fast_path_limit_of(self.data_start, self.data_bytes_written);
        Ok(())
    }

    // Writes the pad byte after data of an odd length, once nothing is buffered. The medium is then elsewhere than
    // where the next sample goes.
    fn put_pad(&mut self) -> io::Result<()> {
        if self.data_bytes_written % 2 == 0 {
            return Ok(());
        }
        let end = self.data_start + self.data_bytes_written as u64;
        let result = put_at_end(&mut self.writer, &mut self.may_have_moved, end, &[0]);
        self.may_have_moved = true;
        result
    }

    // Accepts whole containers that the block has room for.
    fn accept_in_block(&mut self, bytes: &[u8]) {
        self.block.extend(bytes);
    }

    // Accepts a container if the block, or the file, may have no room for it: the block is written first if it has
    // none. A fault is saved, and the container isn't accepted.
    #[cold]
    #[inline(never)]
    fn accept_slowly(&mut self, container: [u8; 4], fault: &mut io::Error) -> result::Result<(), SampleError> {
        let width = self.spec_ex.bytes_per_sample as usize;
        if !self.has_room(width as u64) {
            return Err(SampleError::TooLong);
        }
        if width <= BLOCK_LENGTH - self.block.len() {
            self.accept_in_block(&container[..width]);
            return Ok(());
        }
        match self.put_block() {
            Ok(()) => {
                self.accept_in_block(&container[..width]);
                Ok(())
            }
            Err(error) => {
                *fault = error;
                Err(SampleError::Failed)
            }
        }
    }

    /// Accepts a sample, or returns why it doesn't, and saves a fault.
    #[inline(always)]
    pub(crate) fn accept_sample<S: Sample>(
        &mut self,
        sample: S,
        fault: &mut io::Error,
    ) -> result::Result<(), SampleError> {
        let width = self.spec_ex.bytes_per_sample;
        match sample.encode(self.spec_ex.spec.bits_per_sample, width) {
            Ok(container) => {
                if self.block.len() < self.fast_path_limit {
                    self.block.push(container, width as usize);
                    return Ok(());
                }
                self.accept_slowly(container, fault)
            }
            Err(rejection) => Err(reason_of(rejection)),
        }
    }

    // Accepts samples, each of which has a container, that the block has room for.
    #[inline(always)]
    fn accept_samples_in_block<S: Sample + Copy>(&mut self, samples: &[S]) {
        let spec = self.spec_ex.spec;
        self.block.extend_by(samples, spec.bits_per_sample, self.spec_ex.bytes_per_sample);
    }

    // Writes samples, each of which has a container, with nothing buffered before them, and then accepts them.
    fn accept_samples_at_once<S: Sample + Copy>(&mut self, samples: &[S]) -> io::Result<()> {
        let end = self.data_start + self.data_bytes_written as u64;
        let result =
            put_samples_at_end(&mut self.writer, &mut self.may_have_moved, end, &mut self.block, samples, self.spec_ex);
        self.block.clear();
        result?;
        self.data_bytes_written += samples.len() as u32 * self.spec_ex.bytes_per_sample as u32;
        self.fast_path_limit = fast_path_limit_of(self.data_start, self.data_bytes_written);
        Ok(())
    }

    // Accepts samples, each of which has a container: in the block, which is written first if it has no room for them.
    // At an error none of them is accepted.
    fn accept_encoded<S: Sample + Copy>(&mut self, samples: &[S]) -> io::Result<()> {
        let num_bytes = samples.len() * self.spec_ex.bytes_per_sample as usize;
        if num_bytes <= BLOCK_LENGTH - self.block.len() {
            self.accept_samples_in_block(samples);
            return Ok(());
        }
        self.put_block()?;
        if num_bytes > BLOCK_LENGTH {
            return self.accept_samples_at_once(samples);
        }
        self.accept_samples_in_block(samples);
        Ok(())
    }

    /// Accepts all samples or none, or returns why it doesn't, and saves a fault.
    pub(crate) fn accept_samples<S: Sample + Copy>(
        &mut self,
        samples: &[S],
        fault: &mut io::Error,
    ) -> result::Result<(), SampleError> {
        let bits = self.spec_ex.spec.bits_per_sample;
        let width = self.spec_ex.bytes_per_sample;
        if !have_containers(samples, bits, width) {
            return check_containers(samples, bits, width);
        }
        // Few samples need no more than this, as one does.
        if samples.len() < BLOCK_LENGTH && self.block.len() + samples.len() * (width as usize) < self.fast_path_limit {
            self.accept_samples_in_block(samples);
            return Ok(());
        }
        self.accept_samples_slowly(samples, fault)
    }

    // The same of samples that have containers, where the block, or the file, may have no room for them.
    #[inline(never)]
    fn accept_samples_slowly<S: Sample + Copy>(
        &mut self,
        samples: &[S],
        fault: &mut io::Error,
    ) -> result::Result<(), SampleError> {
        let width = self.spec_ex.bytes_per_sample;
        if samples.len() > u32::MAX as usize {
            return Err(SampleError::TooLong);
        }
        if !self.has_room(samples.len() as u64 * width as u64) {
            return Err(SampleError::TooLong);
        }
        match self.accept_encoded(samples) {
            Ok(()) => Ok(()),
            Err(error) => {
                *fault = error;
                Err(SampleError::Failed)
            }
        }
    }

    // Whether the accepted samples are whole frames.
    fn are_frames(&self) -> bool {
        self.len() % self.spec_ex.spec.channels as u32 == 0
    }

    // Writes both sizes, which count what is written, and flushes the medium. It is then where the data begin, or, if
    // the writer continues, at the end of the accepted samples, of which none may be buffered then.
    fn publish(&mut self, continues: bool) -> io::Result<()> {
        self.may_have_moved = true;
        let length = self.data_bytes_written;
        let riff_size = riff_size(self.data_start, length as u64) as u32;
        patch(&mut self.writer, self.data_start - 4, riff_size, length)?;
        if !continues {
            return Ok(());
        }
        self.writer.go(self.data_start + length as u64)?;
        self.may_have_moved = false;
        Ok(())
    }

    /// Publishes all accepted samples. The medium is then at their end if the writer continues, or else where the data
    /// begin.
    pub(crate) fn publish_all(&mut self, continues: bool) -> Result<()> {
        self.put_block()?;
        self.put_pad()?;
        let published = self.publish(continues);
        publish_result(published, self.are_frames())
    }

    /// Publishes the samples that are written, where the medium has no room for the buffered ones: a reader finds them,
    /// if they are whole frames. Else nothing changes.
    pub(crate) fn publish_written(&mut self) -> io::Result<()> {
        let samples = self.data_bytes_written / self.spec_ex.bytes_per_sample as u32;
        if samples % self.spec_ex.spec.channels as u32 != 0 {
            return Ok(());
        }
        self.publish(false)
    }

    /// The medium, once the writer is done with it.
    pub(crate) fn into_medium(self) -> W {
        let Output { writer, .. } = self;
        writer
    }

    /// The spec that the file was begun with, with the bytes that a sample takes.
    pub(crate) fn spec_ex(&self) -> WavSpecEx {
        self.spec_ex
    }

    /// How many samples were accepted.
    pub(crate) fn len(&self) -> u32 {
        self.data_length() / self.spec_ex.bytes_per_sample as u32
    }
}
