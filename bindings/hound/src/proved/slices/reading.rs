// Made from crates/hound_slices by scripts/erase.py: change that, and not this.
// Blocks of samples that are read.

use crate::proved::slices::error::CallError;
use crate::proved::sample::{Decode, decode_containers};
use crate::proved::spec::{Error, WavSpecEx};
use crate::proved::walk::find_samples;

// Whether samples of a spec are read as a type.
fn check_read<S: Decode>(spec_ex: WavSpecEx) -> Result<(), CallError> {
    let spec = spec_ex.spec;
    let width = spec_ex.bytes_per_sample;
    match S::check(spec.sample_format, width, spec.bits_per_sample) {
        Ok(()) => Ok(()),
        Err(Error::InvalidSampleFormat) => Err(CallError::OtherFormat),
        Err(Error::TooWide) => Err(CallError::TooWide),
        Err(_) => Err(CallError::NotWritable),
    }
}

// Decodes containers into the front of `out`, as many as there are and fit, and returns how many.
fn decode_front<S: Decode>(spec_ex: WavSpecEx, bytes: &[u8], out: &mut [S]) -> usize {
    let width = spec_ex.bytes_per_sample as usize;
    let count = out.len().min(bytes.len() / width);
    let (format, bits) = (spec_ex.spec.sample_format, spec_ex.spec.bits_per_sample);
    let front = &mut out[..count];
    decode_containers(&bytes[..count * width], front, format, spec_ex.bytes_per_sample, bits);
    count
}

/// Reads samples from one on into the front of `out`, and returns how many.
pub fn read_block<S: Decode>(file: &[u8], first: u64, out: &mut [S]) -> Result<usize, CallError> {
    let (head, samples) = find_samples(file)?;
    let spec_ex = head.spec_ex;
    check_read::<S>(spec_ex)?;
    if first >= samples as u64 || out.is_empty() {
        return Ok(0);
    }
    let first = first as usize;
    let width = spec_ex.bytes_per_sample as usize;
    let data = &file[head.data_start as usize..];
    let stored = (samples as usize).min(data.len() / width);
    if first >= stored {
        return Err(CallError::Truncated);
    }
    let start = first * width;
    let end = start + (stored - first) * width;
    Ok(decode_front(spec_ex, &data[start..end], out))
}

/// Decodes containers of a spec, which lie one after the other, and returns how many.
pub fn decode_block<S: Decode>(spec_ex: WavSpecEx, bytes: &[u8], out: &mut [S]) -> Result<usize, CallError> {
    check_read::<S>(spec_ex)?;
    Ok(decode_front(spec_ex, bytes, out))
}
