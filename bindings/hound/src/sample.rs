use crate::medium::{Input, Origin, Output};
use crate::proved::durable::Target;
use crate::proved::reader::{self, WavSamples};
use crate::proved::sample::{error_of_sample, Sample as Proved, SampleError};
use crate::proved::writer::WavWriter;
use crate::{Error, Result, SampleFormat, WavReader, WavSpecEx};
use std::io::{self, Read, Seek, Write};
use std::marker::PhantomData;

/// At most so many samples are read ahead.
const MOST_AHEAD: usize = 127;

/// The proved reader and writer, over those of the user's.
pub type Reader<R> = reader::WavReader<Input<Origin<R>>>;
pub type Writer<W> = WavWriter<Target<Output<W>>>;

/// A type of samples: `i8`, `i16`, `i32`, `f32`, or one of your own.
pub trait Sample: Sized {
    /// Writes the container of the sample with so many bits, and as many bytes as they need.
    fn write<W: io::Write>(self, writer: &mut W, bits: u16) -> Result<()>;

    /// Writes the container of the sample with so many bits, and so many bytes.
    fn write_padded<W: io::Write>(self, writer: &mut W, bits: u16, byte_width: u16) -> Result<()>;

    /// Reads a container of so many bytes, of which the sample uses so many bits.
    fn read<R: io::Read>(reader: &mut R, format: SampleFormat, bytes: u16, bits: u16) -> Result<Self>;

    /// The lowest 16 bits of an integer.
    fn as_i16(self) -> i16;

    // The number of the type, of one of your own 0, since samples of that aren't read ahead.
    #[doc(hidden)]
    const __HOUND_TYPE: u8 = 0;

    // What readers and writers call; of a type of your own it is by the calls above. No trait of yours has such names.

    #[doc(hidden)]
    #[inline]
    fn __hound_write<W: Write + Seek>(self, writer: &mut Writer<W>) -> Result<()> {
        put(writer, container_of(self, writer.spec_ex())?)
    }

    #[doc(hidden)]
    fn __hound_write_all<W: Write + Seek>(samples: &[Self], writer: &mut Writer<W>) -> Result<()>
    where
        Self: Copy,
    {
        let containers = samples.iter().map(|sample| container_of(*sample, writer.spec_ex()));
        put_all(writer, &containers.collect::<Result<Vec<_>>>()?)
    }

    #[doc(hidden)]
    #[inline]
    fn __hound_read<R: Read>(reader: &mut WavReader<R>, spec_ex: WavSpecEx) -> Option<Result<Self>> {
        let (WavSpecEx { spec, bytes_per_sample }, reader) = (spec_ex, &mut reader.proved);
        if reader.samples_left() == 0 {
            return None;
        }
        reader.samples_read += 1;
        let mut rest = reader.reader.reader.by_ref().take(u64::MAX);
        let sample = Self::read(&mut rest, spec.sample_format, bytes_per_sample, spec.bits_per_sample);
        reader.bytes_read += u64::MAX - rest.limit();
        Some(sample)
    }

    #[doc(hidden)]
    fn __hound_read_all<R: Read>(reader: &mut WavReader<R>, samples: &mut [Self]) -> (usize, Result<()>) {
        let spec_ex = reader.proved.spec_ex();
        for (count, slot) in samples.iter_mut().enumerate() {
            match Self::__hound_read(reader, spec_ex) {
                Some(Ok(sample)) => *slot = sample,
                Some(Err(error)) => return (count, Err(error)),
                None => return (count, Ok(())),
            }
        }
        (samples.len(), Ok(()))
    }
}

#[inline(always)]
fn put<W: Write + Seek, S: Proved>(writer: &mut Writer<W>, sample: S) -> Result<()> {
    writer.output.accept_sample(sample, &mut writer.fault).map_err(|reason| rejected(writer, reason))
}

#[inline(always)]
fn put_all<W: Write + Seek, S: Proved + Copy>(writer: &mut Writer<W>, samples: &[S]) -> Result<()> {
    writer.output.accept_samples(samples, &mut writer.fault).map_err(|reason| rejected(writer, reason))
}

#[cold]
#[inline(never)]
fn rejected<W: Write + Seek>(writer: &mut Writer<W>, reason: SampleError) -> Error {
    writer.output.writer.resume();
    error_of_sample(reason, &mut writer.fault)
}

// Reads a sample, and then those after it which the buffer of the file holds: these aren't rejected, and have no fault.
#[inline(never)]
fn read_ahead<R: Read, S: Proved + Copy + Default>(
    reader: &mut WavReader<R>,
    bits_of: impl Fn(S) -> u32,
) -> Option<Result<S>> {
    let sample = reader.proved.samples().next()?;
    if let (Ok(_), Origin::Opened(file, _)) = (&sample, &reader.proved.reader.reader.0) {
        let held = file.buffer().len() / usize::from(reader.proved.spec_ex.bytes_per_sample);
        let wanted = reader.wanted.min(held).min(reader.proved.samples_left() as usize);
        reader.wanted = (2 * reader.wanted + 1).min(MOST_AHEAD);
        let mut samples = [S::default(); MOST_AHEAD];
        let (count, _) = reader.proved.read_samples(&mut samples[..wanted]);
        reader.ahead.reserve(MOST_AHEAD);
        reader.ahead.extend(samples[..count].iter().rev().map(|sample| bits_of(*sample)));
    }
    Some(sample)
}

macro_rules! sample {
    ($type:ident, $number:expr, $bits_of:expr, $of_bits:expr, $as_i16:expr) => {
        impl Sample for $type {
            const __HOUND_TYPE: u8 = $number;

            fn write<W: io::Write>(self, writer: &mut W, bits: u16) -> Result<()> {
                Sample::write_padded(self, writer, bits, bits / 8)
            }

            fn write_padded<W: io::Write>(self, writer: &mut W, bits: u16, byte_width: u16) -> Result<()> {
                let container = self.encode(bits, byte_width)?;
                Ok(writer.write_all(&container[..usize::from(byte_width)])?)
            }

            fn read<R: io::Read>(reader: &mut R, format: SampleFormat, bytes: u16, bits: u16) -> Result<$type> {
                <$type as Proved>::read(&mut Input(reader), format, bytes, bits)
            }

            #[inline(always)]
            fn as_i16(self) -> i16 {
                $as_i16(self)
            }

            #[inline(always)]
            fn __hound_write<W: Write + Seek>(self, writer: &mut Writer<W>) -> Result<()> {
                put(writer, self)
            }

            #[inline]
            fn __hound_write_all<W: Write + Seek>(samples: &[$type], writer: &mut Writer<W>) -> Result<()> {
                put_all(writer, samples)
            }

            #[inline(always)]
            fn __hound_read<R: Read>(reader: &mut WavReader<R>, spec_ex: WavSpecEx) -> Option<Result<$type>> {
                match (reader.ahead.pop(), &reader.proved.reader.reader.0) {
                    (Some(bits), _) => Some(Ok($of_bits(bits))),
                    (None, Origin::Opened(..)) => read_ahead(reader, $bits_of),
                    _ => WavSamples { reader: &mut reader.proved, spec_ex, phantom_sample: PhantomData }.next(),
                }
            }

            fn __hound_read_all<R: Read>(reader: &mut WavReader<R>, samples: &mut [$type]) -> (usize, Result<()>) {
                reader.proved.read_samples(samples)
            }
        }
    };
}
sample!(i8, 1, |sample| sample as u32, |bits| bits as i8, i16::from);
sample!(i16, 2, |sample| sample as u32, |bits| bits as i16, |sample| sample);
sample!(i32, 3, |sample| sample as u32, |bits| bits as i32, |sample| sample as i16);
sample!(f32, 4, f32::to_bits, f32::from_bits, |_| panic!("a float has no 16 bits"));

/// What a type of the user's own writes: its bytes as a number, the low one first.
#[derive(Clone, Copy)]
struct Container(u64);

// One container, or the sample is rejected. A byte more fits in its buffer.
#[inline]
fn container_of<S: Sample>(sample: S, spec_ex: WavSpecEx) -> Result<Container> {
    let (mut bytes, width) = ([0; 8], usize::from(spec_ex.bytes_per_sample));
    let mut rest = &mut bytes[..=width];
    let written = sample.write_padded(&mut rest, spec_ex.spec.bits_per_sample, spec_ex.bytes_per_sample);
    match rest.len() {
        1 => written.map(|()| Container(u64::from_le_bytes(bytes))),
        0 => Err(Error::Unsupported),
        _ => written.and(Err(Error::Unsupported)),
    }
}

impl Proved for Container {
    fn read<R: io::Read>(_: &mut R, _: SampleFormat, _: u16, _: u16) -> Result<Container> {
        Err(Error::Unsupported)
    }

    fn as_i16(self) -> i16 {
        0
    }

    #[inline(always)]
    fn encode(self, _: u16, _: u16) -> Result<[u8; 4]> {
        Ok((self.0 as u32).to_le_bytes())
    }
}
