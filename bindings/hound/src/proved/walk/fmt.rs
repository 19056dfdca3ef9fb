// Made from crates/hound_walk by scripts/erase.py: change that, and not this.
// The content of a fmt chunk.

use crate::proved::walk::cause::{Cause, HeadError, Reason};
use crate::proved::walk::chunks::fill;
use crate::proved::number::{Input, u16_at, u32_at};
use crate::proved::spec::{
    EXTENSION_LENGTH, KSDATAFORMAT_SUBTYPE_IEEE_FLOAT, KSDATAFORMAT_SUBTYPE_PCM, PCMWAVEFORMAT_LENGTH, SampleFormat,
    WAVE_FORMAT_EXTENSIBLE, WAVE_FORMAT_IEEE_FLOAT, WAVE_FORMAT_PCM, WAVEFORMATEX_LENGTH, WAVEFORMATEXTENSIBLE_LENGTH,
    WavSpec, WavSpecEx,
};

// The fields of the first sixteen bytes, and the checks of every format tag, in order.
fn check_wave_format(head: &[u8]) -> Result<WavSpecEx, Cause> {
    let channels = u16_at(head, 2);
    let sample_rate = u32_at(head, 4);
    let bytes_per_second = u32_at(head, 8);
    let block_align = u16_at(head, 12);
    let bits_per_sample = u16_at(head, 14);
    // The block align is divided by the channels, and a frame needs one at least.
    if channels == 0 {
        return Err(Cause::Format(Reason::ZeroChannels));
    }
    let bytes_per_sample = block_align / channels;
    let width_in_bits = 8 * bytes_per_sample as u32;
    // Fewer bits than the container are fine, as 24 in four bytes; more have no place in it.
    if bits_per_sample as u32 > width_in_bits || width_in_bits > 65535 {
        return Err(Cause::Format(Reason::BitsExceedWidth));
    }
    let product = block_align as u64 * sample_rate as u64;
    // The field says nothing new, so one that contradicts the others shows a damaged header early.
    if bytes_per_second as u64 != product || product > 4_294_967_295 {
        return Err(Cause::Format(Reason::Inconsistent));
    }
    // In a WAVEFORMAT the bits are those that store a sample: whole bytes.
    if bits_per_sample % 8 != 0 {
        return Err(Cause::Format(Reason::BitsNotWholeBytes));
    }
    // Without bits a sample would take no byte, and data would have no end of them.
    if bits_per_sample == 0 {
        return Err(Cause::Format(Reason::ZeroBits));
    }
    let spec = WavSpec { channels, sample_rate, bits_per_sample, sample_format: SampleFormat::Int };
    Ok(WavSpecEx { spec, bytes_per_sample })
}

// After the first sixteen bytes of integers: nothing, or bytes that are ignored.
fn read_wave_format_pcm<R: Input>(reader: &mut R, chunk_len: u32, found: WavSpecEx) -> Result<WavSpecEx, HeadError> {
    if chunk_len == PCMWAVEFORMAT_LENGTH {
        return Ok(found);
    }
    // Some programs write integers into a chunk of forty bytes, without the tag for it.
    if chunk_len != WAVEFORMATEX_LENGTH && chunk_len != WAVEFORMATEXTENSIBLE_LENGTH {
        return Err(HeadError::Rejected(Cause::Format(Reason::UnexpectedFmtSize)));
    }
    // The size of more means nothing for integers, and some files have one.
    fill(reader, &mut [0; 2])?;
    let bits = found.spec.bits_per_sample;
    // A WAVEFORMATEX of integers may have 8 or 16 bits; files with 24 are there all the same.
    if bits != 8 && bits != 16 && bits != 24 {
        return Err(HeadError::Rejected(Cause::Format(Reason::BitsNot8Or16)));
    }
    if chunk_len == WAVEFORMATEXTENSIBLE_LENGTH {
        fill(reader, &mut [0; EXTENSION_LENGTH as usize])?;
    }
    Ok(found)
}

// After the first sixteen bytes of floats: nothing, or a size of 0.
fn read_wave_format_ieee_float<R: Input>(
    reader: &mut R,
    chunk_len: u32,
    found: WavSpecEx,
) -> Result<WavSpecEx, HeadError> {
    // A float has no extension that could follow here.
    if chunk_len != PCMWAVEFORMAT_LENGTH && chunk_len != WAVEFORMATEX_LENGTH {
        return Err(HeadError::Rejected(Cause::Format(Reason::UnexpectedFmtSize)));
    }
    if chunk_len == WAVEFORMATEX_LENGTH {
        let mut size = [0; 2];
        fill(reader, &mut size)?;
        // The chunk ends here, so no more can follow.
        if u16_at(&size, 0) != 0 {
            return Err(HeadError::Rejected(Cause::Format(Reason::ExSize)));
        }
    }
    // The tag is for floats of 32 bits; those of 64 that some programs write aren't read.
    if found.spec.bits_per_sample != 32 {
        return Err(HeadError::Rejected(Cause::Format(Reason::BitsNot32)));
    }
    let spec = WavSpec { sample_format: SampleFormat::Float, ..found.spec };
    Ok(WavSpecEx { spec, ..found })
}

// The valid bits, the mask of speakers, which is ignored here, and the subformat.
fn choose_subformat(found: WavSpecEx, rest: &[u8]) -> Result<WavSpecEx, Cause> {
    let valid_bits_per_sample = u16_at(rest, 0);
    // Of the GUIDs only those of the samples that are read here.
    let subformat = &rest[6..22];
    let sample_format = if subformat == KSDATAFORMAT_SUBTYPE_PCM.as_slice() {
        SampleFormat::Int
    } else if subformat == KSDATAFORMAT_SUBTYPE_IEEE_FLOAT.as_slice() {
        SampleFormat::Float
    } else {
        return Err(Cause::Unsupported);
    };
    // Headers without valid bits occur; then the bits of the container are meant.
    let bits_per_sample = if valid_bits_per_sample == 0 { found.spec.bits_per_sample } else { valid_bits_per_sample };
    let spec = WavSpec { bits_per_sample, sample_format, ..found.spec };
    Ok(WavSpecEx { spec, ..found })
}

// After the first sixteen bytes of an extensible chunk: its size, and 22 bytes.
fn read_wave_format_extensible<R: Input>(
    reader: &mut R,
    chunk_len: u32,
    found: WavSpecEx,
) -> Result<WavSpecEx, HeadError> {
    // Its size and the extension follow the first sixteen bytes.
    if chunk_len < WAVEFORMATEXTENSIBLE_LENGTH {
        return Err(HeadError::Rejected(Cause::Format(Reason::UnexpectedFmtSize)));
    }
    let mut size = [0; 2];
    fill(reader, &mut size)?;
    // A larger extension would have fields that nothing here knows.
    if u16_at(&size, 0) != EXTENSION_LENGTH {
        return Err(HeadError::Rejected(Cause::Format(Reason::ExtensibleSize)));
    }
    let mut rest = [0; EXTENSION_LENGTH as usize];
    fill(reader, &mut rest)?;
    Ok(choose_subformat(found, &rest)?)
}
fn read_by_tag<R: Input>(reader: &mut R, tag: u16, chunk_len: u32, found: WavSpecEx) -> Result<WavSpecEx, HeadError> {
    match tag {
        WAVE_FORMAT_PCM => read_wave_format_pcm(reader, chunk_len, found),
        WAVE_FORMAT_IEEE_FLOAT => read_wave_format_ieee_float(reader, chunk_len, found),
        WAVE_FORMAT_EXTENSIBLE => read_wave_format_extensible(reader, chunk_len, found),
        _ => Err(HeadError::Rejected(Cause::Unsupported)),
    }
}

/// Reads the used part of the content of a fmt chunk of this length: of a longer one than forty bytes the first forty.
pub(crate) fn read_fmt_chunk<R: Input>(reader: &mut R, chunk_len: u32) -> Result<WavSpecEx, HeadError> {
    // Fourteen bytes would say all but the bits; no program is known to write so short a chunk.
    if chunk_len < PCMWAVEFORMAT_LENGTH {
        return Err(HeadError::Rejected(Cause::Format(Reason::FmtSize)));
    }
    let mut head = [0; 16];
    fill(reader, &mut head)?;
    let found = check_wave_format(&head)?;
    read_by_tag(reader, u16_at(&head, 0), chunk_len, found)
}
