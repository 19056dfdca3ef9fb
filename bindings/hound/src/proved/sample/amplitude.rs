// Made from crates/hound_sample by scripts/erase.py: change that, and not this.
// Floats whose full scale is 1: decoded from containers of integers, and stored in them, with or without noise.

use crate::proved::sample::decode::{Decode, check_type};
use crate::proved::sample::scale::{double_to_int, int_to_double, int_to_float, small_int_to_float};
use crate::proved::sample::slices::store_container;
use crate::proved::number::{i16_from_le, i24_from_le, le_i16, le_i32, signed_from_u8, u8_from_signed};
use crate::proved::spec::{Result, SampleFormat};
use crate::rattle::{f32_to_f64_with_nan, nearest_u64_to_f64};

/// A float of 32 bits whose full scale is 1, as which integers of a file are decoded.
#[repr(C)]
#[derive(Clone, Copy)]
pub struct UnitFloat(pub f32);

/// The same of 64 bits.
#[repr(C)]
#[derive(Clone, Copy)]
pub struct UnitDouble(pub f64);

impl Decode for UnitFloat {
    #[inline(always)]
    fn check(fmt: SampleFormat, width: u16, bits: u16) -> Result<()> {
        check_type(SampleFormat::Int, 4, fmt, width, bits)
    }

    #[inline(always)]
    fn decode(container: &[u8], fmt: SampleFormat, width: u16, bits: u16) -> UnitFloat {
        match bits {
            16 => UnitFloat(small_int_to_float(i16_from_le([container[0], container[1]]) as i32, 16)),
            24 => UnitFloat(small_int_to_float(i24_from_le([container[0], container[1], container[2]]), 24)),
            8 => UnitFloat(small_int_to_float(signed_from_u8(container[0]) as i32, 8)),
            _ => UnitFloat(int_to_float(i32::decode(container, fmt, width, bits), bits)),
        }
    }
}

impl Decode for UnitDouble {
    #[inline(always)]
    fn check(fmt: SampleFormat, width: u16, bits: u16) -> Result<()> {
        check_type(SampleFormat::Int, 4, fmt, width, bits)
    }

    #[inline(always)]
    fn decode(container: &[u8], fmt: SampleFormat, width: u16, bits: u16) -> UnitDouble {
        UnitDouble(int_to_double(i32::decode(container, fmt, width, bits), bits))
    }
}

/// A float whose full scale is 1, of 32 or of 64 bits.
pub trait Amplitude: Copy {
    /// The same as a float of 64 bits, or none for a NaN.
    fn number(self) -> Option<f64>;
}

impl Amplitude for f32 {
    #[inline(always)]
    fn number(self) -> Option<f64> {
        if self.is_nan() {
            return None;
        }
        Some(f32_to_f64_with_nan(self))
    }
}

impl Amplitude for f64 {
    #[inline(always)]
    fn number(self) -> Option<f64> {
        Some(self)
    }
}

// The container of an integer that has no more than so many bits, in the first bytes.
#[inline(always)]
fn container_of(sample: i32, bits: u16, width: u16) -> [u8; 4] {
    if bits == 16 && width == 2 {
        let [low, high] = le_i16(sample as i16);
        return [low, high, 0, 0];
    }
    if bits == 24 && (width == 3 || width == 4) {
        let [low, middle, high, _] = le_i32(sample);
        return [low, middle, high, 0];
    }
    if bits == 32 && width == 4 {
        return le_i32(sample);
    }
    [u8_from_signed(sample as i8), 0, 0, 0]
}

// The integer that is nearest to a number, which is counted where it is clipped. With a constant for a NaN the compiler
// leaves one test for it in a loop.
#[inline(always)]
fn int_of(number: Option<f64>, bits: u16, count: &mut u64) -> i32 {
    match number {
        Some(number) => double_to_int(number, bits, count),
        None => double_to_int(f64::NAN, bits, count),
    }
}

// The sum of a number and its noise.
#[inline(always)]
fn sum_with(number: Option<f64>, noise: f64) -> Option<f64> {
    match number {
        Some(number) => Some(number + noise),
        None => None,
    }
}

// Stores floats as integers in containers, one after the other, and returns how many were clipped.
#[inline(always)]
fn scale_each<S: Amplitude>(bytes: &mut [u8], amplitudes: &[S], bits: u16, width: u16) -> u64 {
    let mut count = 0;
    for i in 0..amplitudes.len() {
        let sample = int_of(amplitudes[i].number(), bits, &mut count);
        let container = container_of(sample, bits, width);
        store_container(bytes, i * width as usize, container, width as usize);
    }
    count
}

/// Stores floats as integers in containers, one after the other, and returns how many were clipped.
pub fn store_amplitudes<S: Amplitude>(bytes: &mut [u8], amplitudes: &[S], bits: u16, width: u16) -> u64 {
    by_pair!(bits, width, scale_each(bytes, amplitudes))
}

// The state of the generator after another one.
#[inline(always)]
fn next_state(state: u64) -> u64 {
    state.wrapping_mul(6_364_136_223_846_793_005).wrapping_add(1_442_695_040_888_963_407)
}

// The upper 16 bits of a state less the 16 bits below them.
#[inline(always)]
fn difference(state: u64) -> i32 {
    (state >> 48) as i32 - (state >> 32 & 0xffff) as i32
}

// The noise of a state for integers of so many bits. The step is the same for all of a call, so it is computed once.
#[inline(always)]
fn noise_of(state: u64, bits: u16, step: f64) -> f64 {
    f64::from(difference(state)) * step
}

// By what the difference is divided.
fn noise_divisor(bits: u16) -> f64 {
    nearest_u64_to_f64(1 << (bits + 15))
}

// The noise of a difference of 1.
#[inline(always)]
fn noise_step(bits: u16) -> f64 {
    1.0 / noise_divisor(bits)
}

// Stores floats with noise as integers in containers, and returns how many were clipped. The state becomes that for the
// next ones.
#[inline(always)]
fn scale_each_with_noise<S: Amplitude>(
    bytes: &mut [u8],
    amplitudes: &[S],
    state: &mut u64,
    bits: u16,
    width: u16,
) -> u64 {
    let step = noise_step(bits);
    let mut next = *state;
    let mut count = 0;
    for i in 0..amplitudes.len() {
        next = next_state(next);
        let noisy = sum_with(amplitudes[i].number(), noise_of(next, bits, step));
        let sample = int_of(noisy, bits, &mut count);
        let container = container_of(sample, bits, width);
        store_container(bytes, i * width as usize, container, width as usize);
    }
    *state = next;
    count
}

/// Stores floats with noise as integers in containers, one after the other, and returns how many were clipped. The
/// state of the noise becomes that for the next ones.
pub fn store_with_noise<S: Amplitude>(
    bytes: &mut [u8],
    amplitudes: &[S],
    bits: u16,
    width: u16,
    state: &mut u64,
) -> u64 {
    by_pair!(bits, width, scale_each_with_noise(bytes, amplitudes, state))
}
