// Made from crates/hound_spec by scripts/erase.py: change that, and not this.
// The bytes before the data.

use crate::proved::spec::{Error, Result, SampleFormat, WavSpec, WavSpecEx};
use crate::proved::number::{le_u16, le_u32};

/// The format tag of integers (mmreg.h, WAVE_FORMAT_PCM).
pub const WAVE_FORMAT_PCM: u16 = 0x0001;

/// The format tag of floats (mmreg.h, WAVE_FORMAT_IEEE_FLOAT).
pub const WAVE_FORMAT_IEEE_FLOAT: u16 = 0x0003;

/// The format tag of a WAVEFORMATEXTENSIBLE, whose subformat says what its samples are.
pub const WAVE_FORMAT_EXTENSIBLE: u16 = 0xfffe;

/// The bytes of a WAVEFORMATEX without an extension: a PCMWAVEFORMAT, and the size of more.
pub const WAVEFORMATEX_LENGTH: u32 = 18;

/// The bytes of a WAVEFORMATEXTENSIBLE.
pub const WAVEFORMATEXTENSIBLE_LENGTH: u32 = 40;

/// The size that a WAVEFORMATEXTENSIBLE gives for its extension.
pub const EXTENSION_LENGTH: u16 = 22;

/// The bytes of a PCMWAVEFORMAT.
pub const PCMWAVEFORMAT_LENGTH: u32 = 16;

/// The subformat of integers in a WAVEFORMATEXTENSIBLE: a GUID of mmreg.h, whose first three groups are little-endian
/// numbers.
pub const KSDATAFORMAT_SUBTYPE_PCM: [u8; 16] =
    [0x01, 0x00, 0x00, 0x00, 0x00, 0x00, 0x10, 0x00, 0x80, 0x00, 0x00, 0xaa, 0x00, 0x38, 0x9b, 0x71];

/// The subformat of floats, likewise.
pub const KSDATAFORMAT_SUBTYPE_IEEE_FLOAT: [u8; 16] =
    [0x03, 0x00, 0x00, 0x00, 0x00, 0x00, 0x10, 0x00, 0x80, 0x00, 0x00, 0xaa, 0x00, 0x38, 0x9b, 0x71];

/// The bytes of a header, 44 or 68, without memory of their own. Only [`header_of`] makes one.
pub struct Header {
    bytes: [u8; 68],
    len: usize,
}

impl Header {
    // No bytes yet.
    fn new() -> Header {
        Header { bytes: [0; 68], len: 0 }
    }

    // Appends bytes.
    fn write_all(&mut self, bytes: &[u8]) {
        let end = self.len + bytes.len();
        self.bytes[self.len..end].copy_from_slice(bytes);
        self.len = end;
    }

    fn write_le_u16(&mut self, n: u16) {
        self.write_all(&le_u16(n));
    }

    fn write_le_u32(&mut self, n: u32) {
        self.write_all(&le_u32(n));
    }

    /// The bytes, in the file's order.
    pub fn as_slice(&self) -> &[u8] {
        &self.bytes[..self.len]
    }
}

// One low bit for each channel, of which 18 have a speaker.
fn channel_mask(channels: u16) -> u32 {
    (1 << channels.min(18)) - 1
}

// Whether the older fmt chunk is enough: the extensible one is required above two channels or 16 bits.
fn is_short(spec_ex: WavSpecEx) -> bool {
    spec_ex.spec.channels <= 2 && spec_ex.spec.bits_per_sample <= 16
}

/// How many bytes a header of this spec has; the data follow it.
pub fn header_length(spec_ex: WavSpecEx) -> usize {
    if is_short(spec_ex) {
        44
    } else {
        68
    }
}

/// The RIFF size of a file whose data begin at this place and have this length, pad byte included.
#[inline(always)]
pub fn riff_size(data_start: u64, data_length: u64) -> u64 {
    data_start - 8 + data_length + data_length % 2
}

/// Whether the RIFF size of such a file fits 32 bits.
#[inline(always)]
pub fn riff_size_fits(data_start: u64, data_length: u64) -> bool {
    let greatest = u32::MAX as u64;
    data_start <= greatest + 8 && data_length <= greatest && riff_size(data_start, data_length) <= greatest
}

// The fields of a WAVEFORMAT, and the bits after them.
fn write_waveformat(header: &mut Header, tag: u16, bits: u16, spec_ex: WavSpecEx) {
    let spec = spec_ex.spec;
    let block_align = spec.channels as u32 * spec_ex.bytes_per_sample as u32;
    let bytes_per_sec = block_align * spec.sample_rate;
    header.write_le_u16(tag);
    header.write_le_u16(spec.channels);
    header.write_le_u32(spec.sample_rate);
    header.write_le_u32(bytes_per_sec);
    header.write_le_u16(block_align as u16);
    header.write_le_u16(bits);
}

// The fmt chunk's length, and a PCMWAVEFORMAT.
fn write_pcmwaveformat(header: &mut Header, spec_ex: WavSpecEx) {
    let bits = spec_ex.spec.bits_per_sample;
    header.write_le_u32(PCMWAVEFORMAT_LENGTH);
    write_waveformat(header, WAVE_FORMAT_PCM, bits, spec_ex);
}

// The fmt chunk's length, and a WAVEFORMATEXTENSIBLE.
fn write_waveformatextensible(header: &mut Header, spec_ex: WavSpecEx) {
    let spec = spec_ex.spec;
    let container_bits = 8 * spec_ex.bytes_per_sample;
    header.write_le_u32(WAVEFORMATEXTENSIBLE_LENGTH);
    write_waveformat(header, WAVE_FORMAT_EXTENSIBLE, container_bits, spec_ex);
    header.write_le_u16(EXTENSION_LENGTH);
    header.write_le_u16(spec.bits_per_sample);
    header.write_le_u32(channel_mask(spec.channels));
    write_subformat(header, spec.sample_format);
}

fn write_subformat(header: &mut Header, format: SampleFormat) {
    match format {
        SampleFormat::Int => header.write_all(&KSDATAFORMAT_SUBTYPE_PCM),
        SampleFormat::Float => header.write_all(&KSDATAFORMAT_SUBTYPE_IEEE_FLOAT),
    }
}

// The fmt chunk's length and its content, in the older form if that is enough.
fn write_fmt(header: &mut Header, spec_ex: WavSpecEx) {
    if is_short(spec_ex) {
        write_pcmwaveformat(header, spec_ex);
    } else {
        write_waveformatextensible(header, spec_ex);
    }
}

/// The header of a file of this spec, up to the first data byte (RIFF, "Waveform Audio File Format"). The spec must be
/// writable: see [`WavSpecEx::is_writable`].
///
/// Both sizes are in bytes. The RIFF size counts all after its own field, the data length the content of the data
/// chunk. One or two channels of 8 or 16 bits have the header of 44 bytes with a PCMWAVEFORMAT, every other spec that
/// of 68 with a WAVEFORMATEXTENSIBLE.
pub fn header_of(spec_ex: WavSpecEx, riff_size: u32, data_length: u32) -> Header {
    let mut header = Header::new();
    header.write_all(b"RIFF");
    header.write_le_u32(riff_size);
    header.write_all(b"WAVE");
    header.write_all(b"fmt ");
    write_fmt(&mut header, spec_ex);
    header.write_all(b"data");
    header.write_le_u32(data_length);
    header
}
