//! Recordings that go on in a next file (own), since a file has less than 4 GiB.
use crate::blocks::WriteSamples;
use crate::machines::Recorder;
use crate::{Error, Result, Sample, WavSpec, WavSpecEx, WavWriter};
use std::path::{Path, PathBuf};
use std::{env, fs, io, mem};

type Writer = WavWriter<io::BufWriter<fs::File>>;
type Begin = fn(&Path, WavSpec) -> Result<Writer>;

/// Writes a split recording, by blocks of whole frames. The [page of the crate](crate#split-recordings) says when
/// a next file is begun, and what an error leaves.
pub struct PartsWriter {
    writer: Writer,
    first: PathBuf,
    number: u32,
    split: u32,
    begin: Begin,
    samples_before: u64,
}

impl PartsWriter {
    /// Creates the first file as [`WavWriter::create`] does. A file has at most `split` frames.
    ///
    /// # Panics
    ///
    /// If `split` is 0.
    pub fn create<P: AsRef<Path>>(filename: P, spec: WavSpec, split: u32) -> Result<PartsWriter> {
        PartsWriter::over(filename.as_ref(), spec, split, |path, spec| WavWriter::create(path, spec))
    }

    /// The same of files that survive a power failure, as [`WavWriter::create_durable`] makes them.
    pub fn create_durable<P: AsRef<Path>>(filename: P, spec: WavSpec, split: u32) -> Result<PartsWriter> {
        PartsWriter::over(filename.as_ref(), spec, split, |path, spec| WavWriter::create_durable(path, spec))
    }

    fn over(filename: &Path, spec: WavSpec, split: u32, begin: Begin) -> Result<PartsWriter> {
        assert!(split > 0, "a file has at least one frame");
        let first = env::current_dir()?.join(filename); // The program may change to another folder.
        for number in [2, 9999] {
            match fs::symlink_metadata(part_name(&first, number)) {
                Err(error) if error.kind() == io::ErrorKind::NotFound => {}
                found => return Err(found.err().unwrap_or(io::ErrorKind::AlreadyExists.into()).into()),
            }
        }
        Ok(PartsWriter { writer: begin(&first, spec)?, first, number: 1, split, begin, samples_before: 0 })
    }

    /// Writes samples of whole frames, else the error is `UnfinishedSample`.
    pub fn write_samples<S: Sample + Copy>(&mut self, mut samples: &[S]) -> Result<()> {
        let channels = usize::from(self.writer.spec().channels);
        if samples.len() % channels != 0 {
            return Err(Error::UnfinishedSample);
        }
        while !samples.is_empty() {
            if samples.len() / channels > self.frames_left()? && self.writer.len() > 0 {
                self.go_on()?;
            }
            let (block, rest) = samples.split_at(samples.len().min(self.frames_left()? * channels));
            self.writer.write_samples(block)?;
            samples = rest;
        }
        Ok(())
    }

    // How many frames still fit in the file: the recorder, which is proved, knows what its sizes count.
    fn frames_left(&self) -> Result<usize> {
        let spec_ex = WavSpecEx::from(self.writer.spec());
        let data_length = self.writer.len() * u32::from(spec_ex.bytes_per_sample);
        let recorder = Recorder { data_length, ..Recorder::begin(spec_ex)? };
        Ok(recorder.frames_left().min(self.split - self.writer.duration()) as usize)
    }

    // Ends the file once the next one is begun, so that no sample is without a file.
    fn go_on(&mut self) -> Result<()> {
        let (path, spec) = (part_name(&self.first, self.number + 1), self.writer.spec());
        fs::OpenOptions::new().write(true).create_new(true).open(&path)?;
        let begun = (self.begin)(&path, spec).and_then(|next| self.writer.flush().map(|()| next));
        if begun.is_err() {
            let _ = fs::remove_file(&path);
        }
        let ended = mem::replace(&mut self.writer, begun?);
        self.samples_before += u64::from(ended.len());
        self.number += 1;
        ended.finalize()
    }

    /// How many samples were written, in all files together.
    pub fn len(&self) -> u64 {
        self.samples_before + u64::from(self.writer.len())
    }

    /// Makes the headers count all samples so far, as [`WavWriter::flush`] does.
    pub fn flush(&mut self) -> Result<()> {
        self.writer.flush()
    }

    /// Ends the last file, as [`WavWriter::finalize`] does.
    pub fn finalize(self) -> Result<()> {
        self.writer.finalize()
    }
}

// The name of a next file: the second one of take.wav is take-002.wav.
fn part_name(first: &Path, number: u32) -> PathBuf {
    let mut name = first.file_stem().unwrap_or_default().to_os_string();
    name.push(format!("-{number:03}"));
    if let Some(ending) = first.extension() {
        name.push(".");
        name.push(ending);
    }
    first.with_file_name(name)
}
