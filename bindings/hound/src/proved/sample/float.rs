// Made from crates/hound_sample by scripts/erase.py: change that, and not this.
// Floating-point samples by their bits.

use crate::proved::sample::Sample;
use crate::proved::sample::decode::{Decode, check_type, decode_next, read_container, read_containers};
use crate::proved::sample::item::{ContainerReader, SampleError};
use crate::proved::number::{le_u32, u32_at};
use crate::proved::spec::{Error, Result, SampleFormat};
use std::{io, result};

/// A floating-point sample of 32 bits, by its bit pattern.
///
/// It is written with 32 bits in four bytes, and read so from samples of format `Float`. Every pattern stays as it is.
/// `FloatBits::from(number)` is the sample of a number, and `sample.to_f32()` the number of a sample; every NaN has one
/// pattern there. `==` compares patterns, so 0.0 and -0.0 differ. It can't be cast to sixteen bits: generic code can't
/// do it, and `as_i16` of the type itself returns 0.
///
/// ```text
/// writer.write_sample(FloatBits::from(0.5))?;
/// writer.finalize()?;
/// let mut reader = WavReader::new(tape.bytes())?;
/// let sample = reader.samples::<FloatBits>().next().transpose()?;
/// ```
pub type FloatBits = f32;

/// The pattern of a number.

impl Decode for FloatBits {
    #[inline(always)]
    fn check(fmt: SampleFormat, width: u16, bits: u16) -> Result<()> {
        check_type(SampleFormat::Float, 4, fmt, width, bits)
    }

    #[inline(always)]
    fn decode(container: &[u8], fmt: SampleFormat, width: u16, bits: u16) -> FloatBits {
        f32::from_bits(u32_at(container, 0))
    }
}

impl Sample for FloatBits {
    #[inline(always)]
    fn read<R: io::Read>(reader: &mut R, fmt: SampleFormat, bytes: u16, bits: u16) -> Result<FloatBits> {
        read_container(reader, fmt, bytes, bits)
    }

    #[inline(always)]
    fn read_item<R: ContainerReader>(
        reader: &mut R,
        fmt: SampleFormat,
        width: u16,
        bits: u16,
    ) -> result::Result<FloatBits, SampleError> {
        decode_next(reader, fmt, width, bits)
    }

    #[inline(always)]
    fn read_many<R: io::Read>(
        reader: &mut R,
        samples: &mut [FloatBits],
        fmt: SampleFormat,
        width: u16,
        bits: u16,
    ) -> (usize, Result<()>) {
        read_containers(reader, samples, fmt, width, bits)
    }

    #[inline(always)]
    fn as_i16(self) -> i16 {
        0
    }

    #[inline(always)]
    fn encode(self, bits: u16, width: u16) -> Result<[u8; 4]> {
        if bits == 32 && width == 4 {
            return Ok(le_u32(self.to_bits()));
        }
        Err(Error::Unsupported)
    }
}
