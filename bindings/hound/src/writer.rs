use crate::lock::open_locked;
use crate::medium::{Input, Output, SyncBy};
use crate::proved::durable::{Durable, Target};
use crate::proved::spec::header_of;
use crate::proved::walk::{error_of, read_until_data, FileHead};
use crate::proved::writer::append::append_at;
use crate::proved::writer::{beginning_effect, BeginningEffect, FoundFile, Recorder, RecorderError};
use crate::repair::find;
use crate::sample::Writer;
use crate::{Error, Result, Sample, SampleFormat, WavSpec, WavSpecEx};
use std::io::{self, Read, Seek, SeekFrom, Write};
use std::{fs, panic, path, result};

impl WavSpec {
    /// The header of a stream of unknown length, with the largest sizes: for what has no place to go back
    /// to, as a pipe. [`Sample::write`](crate::Sample::write) writes the samples after it.
    ///
    /// # Panics
    ///
    /// If the spec can't be written.
    pub fn into_header_for_infinite_file(self) -> Vec<u8> {
        let spec_ex = WavSpecEx::from(self);
        assert!(spec_ex.is_writable(), "a spec that can be written");
        header_of(spec_ex, u32::MAX, u32::MAX).as_slice().to_vec()
    }
}

/// Writes samples to a file, after its header, and the sizes into the header.
///
/// The channels of a frame follow one another, and a file should hold whole frames: readers reject one that ends within
/// a frame. Samples are buffered, up to 4096 bytes: `flush` writes them and the sizes, `finalize` does so and ends the
/// file. A drop does it too, but its errors aren't seen, and neither are its panics.
pub struct WavWriter<W: Write + Seek> {
    pub(crate) proved: Writer<W>,
    batch: Vec<i16>,
    finalized: bool,
}

// A panic within a call leaves nothing that is wrong.
impl<W: Write + Seek + panic::UnwindSafe> panic::UnwindSafe for WavWriter<W> {}
impl<W: Write + Seek + panic::RefUnwindSafe> panic::RefUnwindSafe for WavWriter<W> {}

impl<W: Write + Seek> WavWriter<W> {
    /// Writes the header of a new file, with containers of as many bytes as the bits need. The writer has
    /// to be at its beginning. A file that was opened to append to is an error (`InvalidInput`) of the first `flush` or
    /// `finalize`, since all bytes come to its end there, also the sizes of the header.
    pub fn new(writer: W, spec: WavSpec) -> Result<WavWriter<W>> {
        WavWriter::new_with_spec_ex(writer, spec.into())
    }

    /// The same, with containers of another width.
    pub fn new_with_spec_ex(writer: W, spec_ex: WavSpecEx) -> Result<WavWriter<W>> {
        WavWriter::over(Writer::try_new(Target::Plain(Output::new(writer, None, None)), spec_ex))
    }

    fn over(begun: result::Result<Writer<W>, (Target<Output<W>>, Error)>) -> Result<WavWriter<W>> {
        let proved = begun.map_err(|(mut target, error)| {
            target.resume();
            error
        })?;
        Ok(WavWriter { proved, batch: Vec::new(), finalized: false })
    }

    // A file that lacks samples which its header counts isn't appended to, where its length is known.
    fn after(target: Target<Output<W>>, head: FileHead, length: Option<u64>) -> Result<WavWriter<W>> {
        let end = head.data_start + u64::from(head.data_length);
        match length {
            Some(length) if length < end => Err(RecorderError::Truncated.into()),
            _ => WavWriter::over(append_at(target, head)),
        }
    }

    /// Writes a sample, which is buffered; an error rejects it alone.
    ///
    /// One that has more bits than the file is `TooWide`, and a float for integers of fewer than 32 bits is
    /// `Unsupported`. Nothing is converted: an integer for floats is taken as their bits, as by hound, and so is a
    /// float for 32-bit integers.
    #[inline(always)]
    pub fn write_sample<S: Sample>(&mut self, sample: S) -> Result<()> {
        sample.__hound_write(&mut self.proved)
    }

    /// A writer of a batch of so many 16-bit integers, without a result for each.
    ///
    /// # Panics
    ///
    /// If the samples of the file aren't 16-bit integers.
    #[inline]
    pub fn get_i16_writer<'s>(&'s mut self, num_samples: u32) -> SampleWriter16<'s, W> {
        let (spec, count) = (self.spec(), num_samples as usize);
        let is_of_16_bits = spec.sample_format == SampleFormat::Int && spec.bits_per_sample == 16;
        assert!(is_of_16_bits, "a batch is of 16-bit integers");
        if self.batch.len() < count {
            self.batch.resize(count, 0);
        }
        SampleWriter16 { proved: &mut self.proved, batch: &mut self.batch[..count], index: 0 }
    }

    /// Writes the buffered samples and the sizes, and flushes the writer. If the program ends after that,
    /// a reader finds all samples up to here.
    ///
    /// If the last frame isn't finished, the result is `UnfinishedSample`, although all samples are written and
    /// counted. Readers reject the file until other samples finish the frame and are flushed.
    pub fn flush(&mut self) -> Result<()> {
        let result = self.publish(true);
        self.proved.output.writer.resume();
        result
    }

    /// Ends the file: a `flush` that is the last. If it fails it is tried once more, and the samples that are in the
    /// buffer after that are lost. To be able to repeat it, call `flush` until that is Ok, and then this.
    pub fn finalize(mut self) -> Result<()> {
        let result = self.publish(false);
        self.finalized = matches!(result, Ok(()) | Err(Error::UnfinishedSample)); // Else the drop tries once more.
        self.proved.output.writer.resume();
        result
    }

    // Where the buffered samples don't fit on the medium, those that are written are published without them.
    fn publish(&mut self, continues: bool) -> Result<()> {
        let output = &mut self.proved.output;
        let result = output.publish_all(continues);
        if let Err(Error::IoError(_)) = result {
            let _ = output.publish_written();
        }
        result
    }

    /// What the file says of its samples.
    pub fn spec(&self) -> WavSpec {
        self.proved.spec()
    }

    /// How many frames the file has up to now.
    pub fn duration(&self) -> u32 {
        self.proved.duration()
    }

    /// How many samples the file has up to now, of all channels together.
    pub fn len(&self) -> u32 {
        self.proved.len()
    }
}

impl<W: Write + Seek> Drop for WavWriter<W> {
    fn drop(&mut self) {
        if !self.finalized {
            // A panic of the writer isn't seen either: while another one unwinds, it would end the program.
            let _ = self.publish(false);
        }
    }
}

impl<W: Read + Write + Seek> WavWriter<W> {
    /// Appends to a file, of which the writer has to be at the beginning: the next sample follows those
    /// that its header counts. What follows these is overwritten, so
    /// [repair it first](crate#recordings-that-survive-a-power-failure), always. A fact chunk stays as it is. A file
    /// that lacks samples which its header counts is an `IoError`, if a `seek` to its end succeeds.
    pub fn new_append(mut writer: W) -> Result<WavWriter<W>> {
        let head = read_until_data(&mut Input(&mut writer)).map_err(error_of)?;
        let length = writer.seek(SeekFrom::End(0)).ok();
        WavWriter::after(Target::Plain(Output::new(writer, None, None)), head, length)
    }
}

impl WavWriter<io::BufWriter<fs::File>> {
    /// Creates a file, over one that there was, and writes its header: when this returns, the file is a WAV file
    /// without samples. A file that there was stays as it is where the spec can't be written.
    pub fn create<P: AsRef<path::Path>>(filename: P, spec: WavSpec) -> Result<Self> {
        Recorder::begin(spec.into())?; // It is an error where the spec can't be written.
        let output = Output::new(unbuffered(fs::File::create(filename)?), None, Some(true));
        WavWriter::over(Writer::try_new(Target::Plain(output), spec.into()))
    }

    /// Appends to a file as `new_append` does: call [`repair_file`](crate::repair_file) first, always.
    pub fn append<P: AsRef<path::Path>>(filename: P) -> Result<Self> {
        let file = fs::OpenOptions::new().read(true).write(true).open(filename)?;
        let head = read_until_data(&mut Input(io::BufReader::new(&file))).map_err(error_of)?;
        let length = (&file).seek(SeekFrom::End(0))?;
        WavWriter::after(Target::Plain(Output::new(unbuffered(file), None, Some(true))), head, Some(length))
    }

    /// Creates a file that [survives a power failure](crate#recordings-that-survive-a-power-failure) (own): when this
    /// returns, it and its name are on the disk, and after a `flush` all samples. The writer locks it.
    pub fn create_durable<P: AsRef<path::Path>>(filename: P, spec: WavSpec) -> Result<Self> {
        let (filename, spec_ex) = (filename.as_ref(), WavSpecEx::from(spec));
        Recorder::begin(spec_ex)?;
        let file = open_locked(fs::OpenOptions::new().write(true).create(true).truncate(false), filename)?;
        for number in 0.. {
            match beginning_effect(spec_ex, number)? {
                Some(BeginningEffect::SyncFolder) => sync_folder(filename)?,
                Some(BeginningEffect::Empty) => file.set_len(0)?,
                Some(BeginningEffect::Sync) => file.sync_all()?,
                Some(BeginningEffect::Header(_)) | None => break, // The writer writes the header.
            }
        }
        let mut writer = WavWriter::over(Writer::try_new(durable(file)?, spec_ex))?;
        writer.flush()?;
        Ok(writer)
    }

    /// The same of a file that is there, which is appended to (own). One that was cut off, has chunks after the data or
    /// lacks samples is an error: call [`repair_file`](crate::repair_file) first.
    pub fn append_durable<P: AsRef<path::Path>>(filename: P) -> Result<Self> {
        let file = open_locked(fs::OpenOptions::new().read(true).write(true), filename.as_ref())?;
        sync_folder(filename.as_ref())?;
        file.sync_all()?;
        let found = find(&file)?;
        Recorder::resume(found, false, false)?;
        let FoundFile { spec_ex, data_length, data_start, .. } = found;
        WavWriter::over(append_at(durable(file)?, FileHead { spec_ex, data_length, data_start }))
    }
}

// The buffer is the one of the proved writer: what that takes for written is with the system, so that what doesn't
// fit on a full disk isn't buffered here, and written later.
fn unbuffered(file: fs::File) -> io::BufWriter<fs::File> {
    io::BufWriter::with_capacity(0, file)
}

fn durable(file: fs::File) -> io::Result<Target<Output<io::BufWriter<fs::File>>>> {
    let disk = (file.try_clone()?, fs::File::sync_data as SyncBy);
    Ok(Target::Synced(Durable::new(Output::new(unbuffered(file), Some(disk), Some(true)))))
}

// Syncs the folder that has the name of a file, where folders can be opened.
fn sync_folder(filename: &path::Path) -> io::Result<()> {
    if cfg!(unix) {
        fs::File::open(fs::canonicalize(filename)?.parent().unwrap_or(path::Path::new("/")))?.sync_all()?;
    }
    Ok(())
}

/// A batch of samples of 16 bits, which `flush` writes.
pub struct SampleWriter16<'parent, W: Write + Seek + 'parent> {
    proved: &'parent mut Writer<W>,
    batch: &'parent mut [i16],
    index: usize,
}

impl<'parent, W: Write + Seek> SampleWriter16<'parent, W> {
    /// Puts a sample into the batch.
    ///
    /// # Panics
    ///
    /// If the batch is full.
    #[inline(always)]
    pub fn write_sample<S: Sample>(&mut self, sample: S) {
        *self.batch.get_mut(self.index).expect("the batch is full") = sample.as_i16();
        self.index += 1;
    }

    /// The same, and as safe as that: hound's leaves the check out.
    #[inline(always)]
    pub fn write_sample_unchecked<S: Sample>(&mut self, sample: S) {
        self.write_sample(sample)
    }

    /// Writes the batch, all of it or nothing, after the other samples: it is buffered as they are.
    ///
    /// # Panics
    ///
    /// If the batch isn't full.
    #[inline]
    pub fn flush(self) -> Result<()> {
        assert_eq!(self.index, self.batch.len(), "the batch isn't full");
        i16::__hound_write_all(self.batch, self.proved)
    }
}
