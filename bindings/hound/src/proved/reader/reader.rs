// Made from crates/hound_reader by scripts/erase.py: change that, and not this.
// The reader of a file's samples.

use crate::proved::reader::item::{SavingReader, read_item_since, read_many_since, result_of, taken_without};
use crate::proved::reader::samples::{WavIntoSamples, WavSamples};
use crate::proved::medium::{Placed, Source};
use crate::proved::sample::{Sample, SampleError, error_of_sample};
use crate::proved::spec::{Error, Result, WavSpec, WavSpecEx};
use crate::proved::walk::{FileHead, HeadError, SourceReader, error_of, read_until_samples};
use std::io::ErrorKind;
use std::{io, marker, result};

/// A reader of a file's samples.
///
/// It takes no byte that it doesn't need: its input is at the data when the reader is made, and after the sample that
/// was read last. So it has no buffer, and a file needs one around it, as in [`WavReader::open`]. Any `io::Read` is
/// read: a slice of bytes, a `Tape`, a `Journal`, a `BufReader<File>`, or a `&mut` to one, which is then still there at
/// an error.
///
/// ```text
/// let mut reader = WavReader::new(bytes)?;
/// for sample in reader.samples::<i32>() {
///     sum = sum.wrapping_add(i64::from(sample?));
/// }
/// ```
pub struct WavReader<R> {
    pub(crate) reader: SavingReader<R>,
    pub(crate) spec_ex: WavSpecEx,
    pub(crate) num_samples: u32,
    pub(crate) samples_read: u64,
    pub(crate) bytes_read: u64,
}

impl<R: io::Read> WavReader<R> {
    /// Takes exactly what is before the data, from the reader's place on.
    ///
    /// Files are RIFF and WAVE with a fmt chunk before the data, of a PCMWAVEFORMAT, a WAVEFORMATEX or a
    /// WAVEFORMATEXTENSIBLE. Other chunks before the data are skipped, each with its whole length and the pad byte
    /// after an odd one (RIFF, "Chunks"), and of several fmt chunks the last counts. Whether the data are complete
    /// isn't checked.
    ///
    /// The errors come chunk by chunk, in a fmt chunk check by check: `FormatError`, or `Unsupported` for another
    /// format tag or subformat whose fields pass the checks that all share; then `FormatError` for data that are no
    /// whole samples, and for data that are no whole frames. `IoError` is a fault of the reader, or an early end, of
    /// kind `Other`. Chunks that would take more than 4294967295 bytes after the WAVE tag are a `FormatError`, so the
    /// call returns for an endless reader too.
    pub fn new(mut reader: R) -> Result<WavReader<R>> {
        match read_until_samples(&mut reader) {
            Ok((head, num_samples)) => Ok(WavReader::over(reader, head.spec_ex, num_samples)),
            Err(e) => Err(error_of(e)),
        }
    }

    /// A reader of this input, which is at the data. Nothing was read of them.
    pub(crate) fn over(reader: R, spec_ex: WavSpecEx, num_samples: u32) -> WavReader<R> {
        WavReader {
            reader: SavingReader {
                reader,
                // No item returns this one: an `IoError` comes after a read that failed or ended.
                fault: io::Error::from(ErrorKind::Other),
            },
            spec_ex,
            num_samples,
            samples_read: 0,
            bytes_read: 0,
        }
    }

    /// The properties of the audio data, with the bytes that a sample takes: a file that is begun with this spec has
    /// containers of the same width.
    pub fn spec_ex(&self) -> WavSpecEx {
        self.spec_ex
    }

    /// The properties of the audio data; its bits are the used ones. The bytes of a sample are those of
    /// [`WavReader::spec_ex`].
    pub fn spec(&self) -> WavSpec {
        self.spec_ex.spec
    }

    /// The number of frames in the file, whatever was read; a frame has a sample of each channel.
    pub fn duration(&self) -> u32 {
        self.len() / self.spec_ex.spec.channels as u32
    }

    /// The number of samples in the file, of all channels together, whatever was read: the data length divided by the
    /// bytes of a sample. [`WavReader::samples_left`] counts those left.
    pub fn len(&self) -> u32 {
        self.num_samples
    }

    /// The number of samples that are left to be read, of all channels together; 0 past the end (own). Each item and
    /// each sample of a block is one less, also one that is an error.
    pub fn samples_left(&self) -> u32 {
        (self.num_samples as u64).saturating_sub(self.samples_read) as u32
    }

    /// An iterator over the samples that are left, one item for each, the channels of a frame one after the other.
    ///
    /// If the type doesn't fit the file, each item is the error of the type, and takes no byte. A new iterator
    /// continues where the last stopped, also one of another type.
    pub fn samples<'wr, S: Sample>(&'wr mut self) -> WavSamples<'wr, R, S> {
        WavSamples { spec_ex: self.spec_ex, reader: self, phantom_sample: marker::PhantomData }
    }

    /// The same iterator, which owns the reader. To use the reader afterwards, call [`WavReader::samples`] in place of
    /// this.
    pub fn into_samples<S: Sample>(self) -> WavIntoSamples<R, S> {
        WavIntoSamples { spec_ex: self.spec_ex, reader: self, phantom_sample: marker::PhantomData }
    }

    /// Reads the next samples into the front of a slice, channels in turn. Returns how many came, and why no more if
    /// the slice isn't full (own).
    ///
    /// The samples are those that the iterator of [`WavReader::samples`] would give, and exactly their containers are
    /// taken; the rest of the slice stays as it was. With an Ok as many came as fit or are left, so 0 only at the end
    /// or for an empty slice. An `Err` is the item that the iterator would give next, and [`WavReader::samples_left`]
    /// counts it as one: an error of the type, which comes before any byte is taken, a fault, or an early end.
    ///
    /// ```text
    /// let (count, result) = reader.read_samples(&mut block);
    /// for sample in &block[..count] {
    ///     sum = sum.wrapping_add(i64::from(*sample));
    /// }
    /// result?; // Ok, or why no more samples came.
    /// ```
    pub fn read_samples<S: Sample>(&mut self, samples: &mut [S]) -> (usize, Result<()>) {
        let wanted = samples.len().min(self.samples_left() as usize);
        let mut answer = (0, Err(SampleError::Failed));
        let (_, given) = read_many_since::<R, S, crate::rattle::Brand>(
            &mut self.reader,
            self.spec_ex,
            &mut samples[..wanted],
            &mut answer,
        );
        let (count, answer) = answer;
        let result = result_of(answer, &mut self.reader.fault);
        self.count_block(count, given, answer);
        (count, result)
    }

    /// Counts a block: its samples, the one in whose place an error came, and what they took of the bytes that were
    /// given.
    #[inline(always)]
    pub(crate) fn count_block(&mut self, count: usize, given: u64, answer: result::Result<(), SampleError>) {
        let width = self.spec_ex.bytes_per_sample;
        let bytes = count as u64 * width as u64;
        self.samples_read += count as u64;
        self.bytes_read += bytes;
        if let Err(no_sample) = answer {
            self.samples_read += 1;
            self.bytes_read += taken_without(no_sample, given.saturating_sub(bytes), width);
        }
    }

    /// Moves the source to the first container of a frame; `time` counts frames from 0.
    ///
    /// A frame is a sample of each channel, and the source moves by the frame's place in bytes less the bytes that
    /// samples really took so far. So the place is right after samples that were rejected, which took none, and after
    /// one that was torn, which took a part.
    ///
    /// A `time` at or after [`WavReader::duration`] is allowed; then no samples are left. A time in seconds is that
    /// many times the sample rate. The one error is the source's own: then the reader counts as before, and a source
    /// whose bytes are known is where it was.
    ///
    /// ```text
    /// let mut reader = WavReader::new(Cursor::new(bytes))?;
    /// reader.seek(2)?;
    /// reader.into_samples::<i16>().next().transpose()
    /// ```
    pub fn seek(&mut self, time: u32) -> io::Result<()>
    where
        R: Source,
    {
        let samples = time as u64 * self.spec_ex.spec.channels as u64;
        let bytes = samples * self.spec_ex.bytes_per_sample as u64;
        let by = bytes as i64 - self.bytes_read as i64;
        Placed::shift(&mut self.reader.reader, by)?;
        self.samples_read = samples;
        self.bytes_read = bytes;
        Ok(())
    }

    /// What the samples were read from, as it was left: after the last byte that was taken, or where a seek led.
    pub fn into_inner(self) -> R {
        self.reader.reader
    }

    /// The next item, while a sample is left, by the iterator's copy of the spec. An `Error` is large, so the iterator
    /// makes that of an item without a sample, where it returns it.
    #[inline(always)]
    pub(crate) fn next_item<S: Sample>(&mut self, spec_ex: WavSpecEx) -> Option<result::Result<S, SampleError>> {
        if self.samples_read >= self.num_samples as u64 {
            return None;
        }
        let mut sample = Err(SampleError::Failed);
        let (_, given) = read_item_since::<R, S, crate::rattle::Brand>(&mut self.reader, spec_ex, &mut sample);
        let width = spec_ex.bytes_per_sample;
        self.samples_read += 1;
        match sample {
            Ok(sample) => {
                self.bytes_read += width as u64;
                Some(Ok(sample))
            }
            Err(no_sample) => {
                self.bytes_read += taken_without(no_sample, given, width);
                Some(Err(no_sample))
            }
        }
    }

    /// The error of an item without a sample: for a read that failed, the fault that was saved last.
    #[cold]
    #[inline(never)]
    pub(crate) fn error_for(&mut self, no_sample: SampleError) -> Error {
        error_of_sample(no_sample, &mut self.reader.fault)
    }
}

// Walks over a source up to its samples, and returns it, since it has counted the reads that failed.
fn find_samples<S: Source>(source: S) -> (S, result::Result<(FileHead, u32), HeadError>) {
    let mut input = SourceReader { source };
    let answer = read_until_samples(&mut input);
    (input.source, answer)
}

impl<R: Source> WavReader<R> {
    /// Takes exactly what is before the data, as [`WavReader::new`] does, and returns the source at an error (own).
    ///
    /// The errors are those of `new`, in the same order. Where contracts know the bytes of the source, an error is one
    /// of the causes that the bytes have, and takes as many of them as its cause does, or it is an `IoError` of a read
    /// that the source has counted as failed.
    pub fn try_new(source: R) -> result::Result<WavReader<R>, (R, Error)> {
        let (source, found) = find_samples(source);
        match found {
            Ok((head, num_samples)) => Ok(WavReader::over(source, head.spec_ex, num_samples)),
            Err(stop) => Err((source, error_of(stop))),
        }
    }
}
