//! Blocks of samples (own). The traits have to be named to be used, as by `use hound::blocks::*`, so that a trait of
//! your own with such a method means the same as over hound.
use crate::proved::sample::int_to_float;
use crate::proved::sample::scale::{double_to_int, int_to_double};
use crate::{Error, Result, Sample, SampleFormat, WavReader, WavWriter};
use std::io::{Read, Seek, Write};

// How many samples are read at once before they become floats.
const BLOCK: usize = 1024;

/// Reads blocks.
pub trait ReadSamples: sealed::Sealed {
    /// Reads samples into the front of a slice. Returns how many came, and why no more if the slice isn't full: the
    /// item that an iterator would give next, which then counts as read, or Ok at the end of the file.
    fn read_samples<S: Sample>(&mut self, samples: &mut [S]) -> (usize, Result<()>);

    /// The same as floats, `f32` or `f64`, of any file: integers are divided by 2^(bits - 1), so that their full scale
    /// is 1, and floats are the same numbers, as `f32` with their bits.
    fn read_scaled<F: Scaled>(&mut self, samples: &mut [F]) -> (usize, Result<()>);
}

/// Writes blocks.
pub trait WriteSamples: sealed::Sealed {
    /// Writes samples, all of them or none. Up to 4096 bytes are buffered, as those of single samples are.
    ///
    /// Where a write fails within the block, a part of it may stay in the file after the samples before it. Readers
    /// don't count it, but [`repair_file`](crate::repair_file) would take it for samples.
    fn write_samples<S: Sample + Copy>(&mut self, samples: &[S]) -> Result<()>;

    /// The same of floats, `f32` or `f64`, to any file, and returns how many were clipped: for integers each is
    /// multiplied by 2^(bits - 1) and rounded to the nearest one, of two the even one, and a NaN is 0. As floats an
    /// `f32` keeps its bits, and an `f64` becomes the nearest one, but a finite one that would be infinite is an error.
    fn write_scaled<F: Scaled>(&mut self, samples: &[F]) -> Result<u64>;
}

impl<R: Read> ReadSamples for WavReader<R> {
    fn read_samples<S: Sample>(&mut self, samples: &mut [S]) -> (usize, Result<()>) {
        self.begin(0);
        S::__hound_read_all(self, samples)
    }

    fn read_scaled<F: Scaled>(&mut self, samples: &mut [F]) -> (usize, Result<()>) {
        let bits = self.spec().bits_per_sample;
        match self.spec().sample_format {
            SampleFormat::Int => read_as(self, samples, |sample| F::__hound_of(sample, bits)),
            SampleFormat::Float => read_as(self, samples, F::from),
        }
    }
}

fn read_as<R: Read, S: Sample + Copy + Default, F>(
    reader: &mut WavReader<R>,
    samples: &mut [F],
    convert: impl Fn(S) -> F,
) -> (usize, Result<()>) {
    let (mut block, mut done) = ([S::default(); BLOCK], 0);
    for samples in samples.chunks_mut(BLOCK) {
        let (count, result) = reader.read_samples(&mut block[..samples.len()]);
        samples.iter_mut().zip(&block[..count]).for_each(|(float, sample)| *float = convert(*sample));
        done += count;
        if count < samples.len() {
            return (done, result);
        }
    }
    (done, Ok(()))
}

impl<W: Write + Seek> WriteSamples for WavWriter<W> {
    fn write_samples<S: Sample + Copy>(&mut self, samples: &[S]) -> Result<()> {
        S::__hound_write_all(samples, &mut self.proved)
    }

    fn write_scaled<F: Scaled>(&mut self, samples: &[F]) -> Result<u64> {
        let (bits, mut clipped) = (self.spec().bits_per_sample, 0);
        if self.spec().sample_format == SampleFormat::Int {
            let integers = samples.iter().map(|sample| double_to_int((*sample).into(), bits, &mut clipped));
            self.write_samples(&integers.collect::<Vec<i32>>())?;
        } else {
            let floats: Option<Vec<f32>> = samples.iter().map(|sample| sample.__hound_to_float()).collect();
            self.write_samples(&floats.ok_or(Error::TooWide)?)?;
        }
        Ok(clipped)
    }
}

/// The types of floats that are scaled: `f32`, and `f64`, which holds 32-bit integers, too.
pub trait Scaled: Copy + Default + From<f32> + Into<f64> + sealed::Sealed {
    #[doc(hidden)]
    fn __hound_of(sample: i32, bits: u16) -> Self;

    // None where a finite number would be infinite.
    #[doc(hidden)]
    fn __hound_to_float(self) -> Option<f32>;
}

macro_rules! scaled {
    ($float:ident, $of:ident, $to_float:expr) => {
        impl Scaled for $float {
            fn __hound_of(sample: i32, bits: u16) -> $float {
                $of(sample, bits)
            }
            fn __hound_to_float(self) -> Option<f32> {
                $to_float(self)
            }
        }
    };
}
scaled!(f32, int_to_float, Some);
scaled!(f64, int_to_double, |number: f64| Some(number as f32).filter(|float| float.is_finite() || !number.is_finite()));

mod sealed {
    pub trait Sealed {}
    impl Sealed for f32 {}
    impl Sealed for f64 {}
    impl<R> Sealed for crate::WavReader<R> {}
    impl<W: std::io::Write + std::io::Seek> Sealed for crate::WavWriter<W> {}
}
