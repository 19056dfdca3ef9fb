// Made from crates/hound_sample by scripts/erase.py: change that, and not this.
// The containers of many samples, one after the other: checked, stored and decoded at once.
//
// Each loop is written once and called for each pair of bits and bytes (`by_pair`).

use crate::proved::sample::Sample;
use crate::proved::sample::decode::{Decode, decode_each};
use crate::proved::sample::item::{SampleError, reason_of};
use crate::proved::spec::SampleFormat;

// Whether all samples have containers. It looks at each of them, whatever came before.
#[inline(always)]
fn all_have<S: Sample + Copy>(samples: &[S], bits: u16, width: u16) -> bool {
    let mut all = true;
    for sample in samples {
        all &= sample.encode(bits, width).is_ok();
    }
    all
}

/// Whether all samples have containers with these used bits and bytes.
#[inline(always)]
pub fn have_containers<S: Sample + Copy>(samples: &[S], bits: u16, width: u16) -> bool {
    by_pair!(bits, width, all_have(samples), or any)
}

/// Why the first sample that has no container has none, if there is one.
#[cold]
#[inline(never)]
pub fn check_containers<S: Sample + Copy>(samples: &[S], bits: u16, width: u16) -> Result<(), SampleError> {
    for sample in samples {
        if let Err(error) = sample.encode(bits, width) {
            return Err(reason_of(error));
        }
    }
    Ok(())
}

/// Stores a container of this many bytes.
#[inline(always)]
pub(crate) fn store_container(bytes: &mut [u8], at: usize, container: [u8; 4], width: usize) {
    let [a, b, c, d] = container;
    if width == 0 {
        return;
    }
    bytes[at] = a;
    if width == 1 {
        return;
    }
    bytes[at + 1] = b;
    if width == 2 {
        return;
    }
    bytes[at + 2] = c;
    if width == 3 {
        return;
    }
    bytes[at + 3] = d;
}

// Stores the containers of samples one after the other.
#[inline(always)]
fn store_each<S: Sample + Copy>(bytes: &mut [u8], samples: &[S], bits: u16, width: u16) {
    for (bytes, sample) in bytes.chunks_exact_mut((width as usize).max(1)).zip(samples) {
        let container = match sample.encode(bits, width) {
            Ok(container) => container,
            Err(_) => [0; 4],
        };
        store_container(bytes, 0, container, width as usize);
    }
}

/// Stores the containers of samples, each of which has one, into bytes of their length.
#[inline(always)]
pub fn store_containers<S: Sample + Copy>(bytes: &mut [u8], samples: &[S], bits: u16, width: u16) {
    by_pair!(bits, width, store_each(bytes, samples), or any)
}

/// Decodes containers, as many as the samples, into these.
pub fn decode_containers<S: Decode>(from: &[u8], samples: &mut [S], fmt: SampleFormat, width: u16, bits: u16) {
    by_pair!(bits, width, decode_each(from, samples, fmt), or any)
}
