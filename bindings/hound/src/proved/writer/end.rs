// Made from crates/hound_writer by scripts/erase.py: change that, and not this.
// What is written at places: bytes, the two sizes, and at the end of the written data the containers of samples.

use crate::proved::writer::block::{BLOCK_LENGTH, Block};
use crate::proved::medium::{Medium, put_all};
use crate::proved::number::le_u32;
use crate::proved::sample::Sample;
use crate::proved::spec::WavSpecEx;
use std::io;

/// Writes bytes at the end of the written data, where the medium may be already. It may have moved at an error.
pub(crate) fn put_at_end<M: Medium>(
    medium: &mut M,
    may_have_moved: &mut bool,
    end: u64,
    bytes: &[u8],
) -> io::Result<()> {
    let result = go_and_put(medium, *may_have_moved, end, bytes);
    *may_have_moved = result.is_err();
    result
}

// Writes bytes at a place, where the medium may be already.
fn go_and_put<M: Medium>(medium: &mut M, may_have_moved: bool, at: u64, bytes: &[u8]) -> io::Result<()> {
    if !may_have_moved {
        return put_all(medium, bytes);
    }
    put_all_at(medium, at, bytes)
}

// Writes the containers of samples, a block at a time, or stops at the first `put` that fails.
fn put_samples<M: Medium, S: Sample + Copy>(
    medium: &mut M,
    block: &mut Block,
    samples: &[S],
    bits: u16,
    width: u16,
) -> io::Result<()> {
    let most = BLOCK_LENGTH / width as usize;
    let mut done = 0;
    while done < samples.len() {
        let count = most.min(samples.len() - done);
        block.clear();
        block.extend_by(&samples[done..done + count], bits, width);
        put_all(medium, block.as_slice())?;
        done += count;
    }
    Ok(())
}

/// Writes the containers of samples at the end of the written data, as `put_at_end` writes bytes. The block is used for
/// it, and must be empty.
pub(crate) fn put_samples_at_end<M: Medium, S: Sample + Copy>(
    medium: &mut M,
    may_have_moved: &mut bool,
    end: u64,
    block: &mut Block,
    samples: &[S],
    spec_ex: WavSpecEx,
) -> io::Result<()> {
    put_at_end(medium, may_have_moved, end, &[])?;
    let bits = spec_ex.spec.bits_per_sample;
    let result = put_samples(medium, block, samples, bits, spec_ex.bytes_per_sample);
    *may_have_moved = result.is_err();
    result
}

/// Writes bytes at a place, or stops at the first call of the medium that fails.
#[inline(always)]
pub fn put_all_at<M: Medium>(medium: &mut M, place: u64, bytes: &[u8]) -> io::Result<()> {
    medium.go(place)?;
    put_all(medium, bytes)
}

/// Writes both sizes, the RIFF size first, and flushes the medium, which is then after the data length. It ends at the
/// first fault.
pub fn patch<M: Medium>(medium: &mut M, data_len_offset: u64, riff_size: u32, data_length: u32) -> io::Result<()> {
    put_all_at(medium, 4, &le_u32(riff_size))?;
    put_all_at(medium, data_len_offset, &le_u32(data_length))?;
    medium.flush()
}
