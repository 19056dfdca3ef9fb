// Made from crates/hound_sample by scripts/erase.py: change that, and not this.
// Samples as floats whose full scale is 1, and as integers of other bits.

use crate::rattle::{f32_to_f64_with_nan, nearest_u32_to_f32, saturating_f64_to_i64};

/// An integer of so many bits as a float whose full scale is 1: over `2^(bits - 1)`.
///
/// It is the `f32` that is nearest to the quotient, of two the even one. Integers of up to 24 bits come back from
/// `float_to_int` unchanged ([`scaled_integers_come_back`](super::scaled_integers_come_back)).
///
/// ```text
/// let half = int_to_float(16384, 16); // 0.5
/// ```
#[inline]
pub fn int_to_float(sample: i32, bits: u16) -> f32 {
    let step = 1.0 / nearest_u32_to_f32(two_to(bits - 1));
    // A sign that is looked up needs no branch, which would be guessed wrong for each second sample.
    let steps = [step, -step];
    nearest_u32_to_f32(sample.unsigned_abs()) * steps[(sample < 0) as usize]
}

/// The same of an integer that is a float itself, which takes less time.
#[inline]
pub(crate) fn small_int_to_float(sample: i32, bits: u16) -> f32 {
    // A product takes less time, and 1 over full scale, a power of two, is exact.
    sample as f32 * (1.0 / nearest_u32_to_f32(two_to(bits - 1)))
}

/// The same as a float of 64 bits, which is the quotient itself.
#[inline]
pub(crate) fn int_to_double(sample: i32, bits: u16) -> f64 {
    f64::from(sample) * (1.0 / f64::from(two_to(bits - 1)))
}

/// A float whose full scale is 1 as an integer of so many bits, and whether it was clipped.
///
/// It is times `2^(bits - 1)`, rounded to the nearest integer, of two to the even one. What is then past the largest
/// one, or the lowest, is clipped to it; a NaN gives 0.
///
/// ```text
/// let (sample, is_clipped) = float_to_int(1.0, 16); // 32767, true
/// ```
#[inline]
pub fn float_to_int(number: f32, bits: u16) -> (i32, bool) {
    let mut count = 0;
    let sample = double_to_int(f32_to_f64_with_nan(number), bits, &mut count);
    (sample, count == 1)
}

/// The same of a float of 64 bits, which is counted where it is clipped.
#[inline(always)]
pub(crate) fn double_to_int(number: f64, bits: u16, count: &mut u64) -> i32 {
    let scaled = number * f64::from(two_to(bits - 1));
    let limit = two_to(bits - 1) - 1;
    if -f64::from(limit) < scaled && scaled < f64::from(limit) {
        return nearest_within(scaled, limit);
    }
    clip_distant(scaled, bits, count)
}

// The nearest integer, of two the even one, to a number within a limit.
#[inline(always)]
fn nearest_within(number: f64, limit: u32) -> i32 {
    // Between 2^52 and 2^53 floats are 1 apart, so a sum that is there has no fraction.
    ((number + 6755399441055744.0) as i64 - 6755399441055744) as i32
}

// The integer of so many bits that is nearest to any number, which is counted where another one is nearer. It is a call
// of its own that is seldom made, so that the loops over it stay short.
#[cold]
#[inline(never)]
fn clip_distant(number: f64, bits: u16, count: &mut u64) -> i32 {
    let (sample, is_clipped) = clip(saturating_f64_to_i64(crate::rattle::round_ties_even(number)), bits);
    if is_clipped {
        *count += 1;
    }
    sample
}

/// An integer of so many bits as one of others, and whether it was clipped.
///
/// More bits are zeros below. Fewer are the nearest integer, a half upwards; the largest ones may then need a bit more,
/// and are clipped.
///
/// ```text
/// let (sample, is_clipped) = change_bits(0x123480, 24, 16); // 0x1235, false
/// ```
#[inline]
pub fn change_bits(sample: i32, old_bits: u16, new_bits: u16) -> (i32, bool) {
    if new_bits < old_bits {
        return clip(narrowed(sample, old_bits - new_bits), new_bits);
    }
    clip(widened(sample, new_bits - old_bits), new_bits)
}

// With so many bits more, which are zeros.
#[inline(always)]
fn widened(sample: i32, more: u16) -> i64 {
    i64::from(sample) * i64::from(two_to(more))
}

// With so many bits fewer, to the nearest.
#[inline(always)]
fn narrowed(sample: i32, fewer: u16) -> i64 {
    (i64::from(sample) + (1 << (fewer - 1))) >> fewer
}

// The integer of so many bits that is nearest, and whether it is another one.
#[inline(always)]
fn clip(number: i64, bits: u16) -> (i32, bool) {
    let full_scale = i64::from(two_to(bits - 1));
    let nearest = number.clamp(-full_scale, full_scale - 1);
    (nearest as i32, nearest != number)
}

#[inline(always)]
fn two_to(power: u16) -> u32 {
    1 << power
}
