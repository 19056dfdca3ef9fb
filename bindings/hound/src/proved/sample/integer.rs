// Made from crates/hound_sample by scripts/erase.py: change that, and not this.
// The containers of integers.

use crate::proved::sample::decode::{Decode, check_type};
use crate::proved::number::{i16_from_le, i24_from_le, i32_from_le, le_i16, le_i32, signed_from_u8, u8_from_signed};
use crate::proved::spec::{Error, Result, SampleFormat};

// One unsigned byte, which counts from -128.
#[inline(always)]
fn encode_8_bits(x: i32) -> Result<[u8; 4]> {
    let narrow = match i8::try_from(x) {
        Ok(narrow) => narrow,
        Err(_) => return Err(Error::TooWide),
    };
    Ok([u8_from_signed(narrow), 0, 0, 0])
}

#[inline(always)]
fn encode_16_bits(x: i32) -> Result<[u8; 4]> {
    let narrow = match i16::try_from(x) {
        Ok(narrow) => narrow,
        Err(_) => return Err(Error::TooWide),
    };
    let [low, high] = le_i16(narrow);
    Ok([low, high, 0, 0])
}

// Three bytes; a fourth, where the container has one, is zero.
#[inline(always)]
fn encode_24_bits(x: i32) -> Result<[u8; 4]> {
    if x < -8_388_608 || x > 8_388_607 {
        return Err(Error::TooWide);
    }
    let [low, middle, high, _] = le_i32(x);
    Ok([low, middle, high, 0])
}

/// The container of an integer in the first `width` bytes, and zeros after it.
#[inline(always)]
pub(crate) fn encode_integer(x: i32, bits: u16, width: u16) -> Result<[u8; 4]> {
    if bits == 16 && width == 2 {
        return encode_16_bits(x);
    }
    if bits == 24 && (width == 3 || width == 4) {
        return encode_24_bits(x);
    }
    if bits == 32 && width == 4 {
        return Ok(le_i32(x));
    }
    if bits == 8 && width == 1 {
        return encode_8_bits(x);
    }
    Err(Error::Unsupported)
}

/// The lowest sixteen bits, as a signed number.
#[inline(always)]
pub(crate) fn lowest_16_bits(x: i32) -> i16 {
    let [low, high, _, _] = le_i32(x);
    i16_from_le([low, high])
}

impl Decode for i8 {
    #[inline(always)]
    fn check(fmt: SampleFormat, width: u16, bits: u16) -> Result<()> {
        check_type(SampleFormat::Int, 1, fmt, width, bits)
    }

    #[inline(always)]
    fn decode(container: &[u8], fmt: SampleFormat, width: u16, bits: u16) -> i8 {
        signed_from_u8(container[0])
    }
}

impl Decode for i16 {
    #[inline(always)]
    fn check(fmt: SampleFormat, width: u16, bits: u16) -> Result<()> {
        check_type(SampleFormat::Int, 2, fmt, width, bits)
    }

    #[inline(always)]
    fn decode(container: &[u8], fmt: SampleFormat, width: u16, bits: u16) -> i16 {
        if width == 2 {
            return i16_from_le([container[0], container[1]]);
        }
        signed_from_u8(container[0]) as i16
    }
}

impl Decode for i32 {
    #[inline(always)]
    fn check(fmt: SampleFormat, width: u16, bits: u16) -> Result<()> {
        check_type(SampleFormat::Int, 4, fmt, width, bits)
    }

    #[inline(always)]
    fn decode(container: &[u8], fmt: SampleFormat, width: u16, bits: u16) -> i32 {
        match bits {
            16 => i16_from_le([container[0], container[1]]) as i32,
            24 => i24_from_le([container[0], container[1], container[2]]),
            8 => signed_from_u8(container[0]) as i32,
            _ => i32_from_le([container[0], container[1], container[2], container[3]]),
        }
    }
}

/// A type of integers, which an `i32` has room for.
pub(crate) trait Integer: Decode {
    fn to_i32(self) -> i32;
}

impl Integer for i8 {
    #[inline(always)]
    fn to_i32(self) -> i32 {
        self as i32
    }
}

impl Integer for i16 {
    #[inline(always)]
    fn to_i32(self) -> i32 {
        self as i32
    }
}

impl Integer for i32 {
    #[inline(always)]
    fn to_i32(self) -> i32 {
        self
    }
}
