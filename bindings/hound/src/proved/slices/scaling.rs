// Made from crates/hound_slices by scripts/erase.py: change that, and not this.
// Floats whose full scale is 1 as integers of a file; and floats of 32 bits as those of 64, and back.

use crate::proved::slices::error::CallError;
use crate::proved::sample::{Amplitude, store_amplitudes, store_with_noise};
use crate::proved::spec::{SampleFormat, WavSpecEx, is_pair};
use crate::rattle::{f32_to_f64_with_nan, nearest_f64_to_f32_with_nan};

// How many bytes so many integers of a spec take, if they are written and there is room for them.
fn size_of_integers(spec_ex: WavSpecEx, count: usize, room: usize) -> Result<usize, CallError> {
    let spec = spec_ex.spec;
    let width = spec_ex.bytes_per_sample;
    if spec.sample_format != SampleFormat::Int {
        return Err(CallError::OtherFormat);
    }
    if !is_pair(SampleFormat::Int, spec.bits_per_sample, width) {
        return Err(CallError::NotWritable);
    }
    if count > room / width as usize {
        return Err(CallError::NoRoom);
    }
    Ok(count * width as usize)
}

/// Encodes floats as integers of a spec, one after the other, counts those that were clipped, and returns how many
/// bytes.
pub fn encode_floats<S: Amplitude>(
    spec_ex: WavSpecEx,
    samples: &[S],
    out: &mut [u8],
    clipped: &mut u64,
) -> Result<usize, CallError> {
    let end = size_of_integers(spec_ex, samples.len(), out.len())?;
    let (bits, width) = (spec_ex.spec.bits_per_sample, spec_ex.bytes_per_sample);
    *clipped = store_amplitudes(&mut out[..end], samples, bits, width);
    Ok(end)
}

/// The same with noise, whose state becomes that for the next floats.
pub fn encode_with_noise<S: Amplitude>(
    spec_ex: WavSpecEx,
    samples: &[S],
    state: &mut u64,
    out: &mut [u8],
    clipped: &mut u64,
) -> Result<usize, CallError> {
    let end = size_of_integers(spec_ex, samples.len(), out.len())?;
    let (bits, width) = (spec_ex.spec.bits_per_sample, spec_ex.bytes_per_sample);
    *clipped = store_with_noise(&mut out[..end], samples, bits, width, state);
    Ok(end)
}

/// Widens floats to 64 bits, which changes none, and returns how many.
pub fn widen_floats(samples: &[f32], out: &mut [f64]) -> Result<usize, CallError> {
    if samples.len() > out.len() {
        return Err(CallError::NoRoom);
    }
    for i in 0..samples.len() {
        out[i] = f32_to_f64_with_nan(samples[i]);
    }
    Ok(samples.len())
}

// The nearest float of 32 bits, and whether it is infinite though the number isn't.
#[inline(always)]
fn narrowed(number: f64) -> (f32, bool) {
    let nearest = nearest_f64_to_f32_with_nan(number);
    let is_infinite = number.is_finite() && !nearest.is_finite();
    (nearest, is_infinite)
}

/// Narrows floats to 32 bits, to the nearest, counts those that become infinite, and returns how many there are in all.
pub fn narrow_floats(samples: &[f64], out: &mut [f32], infinite: &mut u64) -> Result<usize, CallError> {
    if samples.len() > out.len() {
        return Err(CallError::NoRoom);
    }
    let mut count = 0;
    for i in 0..samples.len() {
        let (sample, is_infinite) = narrowed(samples[i]);
        out[i] = sample;
        count += is_infinite as u64;
    }
    *infinite = count;
    Ok(samples.len())
}
