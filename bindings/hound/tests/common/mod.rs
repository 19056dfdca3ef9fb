//! What the tests share.
use hound::blocks::WriteSamples;
use hound::{Result, Sample, SampleFormat, WavSpec, WavWriter};
use std::io::{Cursor, Read, Seek, Write};
use std::path::PathBuf;
use std::{env, fs, process};

pub const MONO: WavSpec =
    WavSpec { channels: 1, sample_rate: 44100, bits_per_sample: 16, sample_format: SampleFormat::Int };

/// A path of this test's own, whose file is removed afterwards.
pub struct Path(pub PathBuf);

impl Path {
    pub fn new(name: &str) -> Path {
        Path(env::temp_dir().join(format!("hound-api-{}-{name}.wav", process::id())))
    }
}

impl AsRef<std::path::Path> for Path {
    fn as_ref(&self) -> &std::path::Path {
        &self.0
    }
}

impl Drop for Path {
    fn drop(&mut self) {
        let _ = fs::remove_file(&self.0);
    }
}

pub fn written<S: Sample + Copy>(spec: WavSpec, samples: &[S]) -> Vec<u8> {
    let mut file = Cursor::new(Vec::new());
    let mut writer = WavWriter::new(&mut file, spec).unwrap();
    for &sample in samples {
        writer.write_sample(sample).unwrap();
    }
    writer.finalize().unwrap();
    file.into_inner()
}

/// A type of a user's own: integers of 16 bits, upside down.
#[derive(Clone, Copy, Debug, PartialEq)]
pub struct Inverse(pub i16);

impl Sample for Inverse {
    fn write<W: Write>(self, writer: &mut W, bits: u16) -> Result<()> {
        (!self.0).write(writer, bits)
    }
    fn write_padded<W: Write>(self, writer: &mut W, bits: u16, byte_width: u16) -> Result<()> {
        (!self.0).write_padded(writer, bits, byte_width)
    }
    fn read<R: Read>(reader: &mut R, format: SampleFormat, bytes: u16, bits: u16) -> Result<Inverse> {
        i16::read(reader, format, bytes, bits).map(|sample| Inverse(!sample))
    }
    fn as_i16(self) -> i16 {
        !self.0
    }
}

/// Writes so many samples, from a number on: one by one, as a block, a batch, or those of a user's own type.
pub fn write_by<W: Write + Seek>(way: usize, writer: &mut WavWriter<W>, first: usize, count: usize) -> Result<()> {
    let samples: Vec<i16> = (first..first + count).map(|number| number as i16).collect();
    match way {
        0 => samples.iter().try_for_each(|&sample| writer.write_sample(sample)),
        1 => writer.write_samples(&samples),
        2 => writer.write_samples(&samples.iter().map(|sample| Inverse(!sample)).collect::<Vec<_>>()),
        3 => samples.iter().try_for_each(|&sample| writer.write_sample(Inverse(!sample))),
        _ => {
            let mut batch = writer.get_i16_writer(count as u32);
            samples.iter().for_each(|&sample| batch.write_sample(sample));
            batch.flush()
        }
    }
}
pub const WAYS: usize = 5;

/// Samples that count up.
pub fn numbers(count: usize) -> Vec<i16> {
    (0..count).map(|number| number as i16).collect()
}
