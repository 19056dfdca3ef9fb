// Made from crates/hound_spec by scripts/erase.py: change that, and not this.
// What a file says of its samples.
/// Whether a sample is stored as an integer or as an IEEE float (WAVEFORMATEX, "wFormatTag", and the subformat of a
/// WAVEFORMATEXTENSIBLE).
#[derive(Clone, Copy, Debug, PartialEq, Eq)]
pub enum SampleFormat {
    /// The bits of an IEEE float, as in files with the format tag `WAVE_FORMAT_IEEE_FLOAT`. They are read and written
    /// as `FloatBits`; full scale is from -1.0 to 1.0.
    Float,
    /// An integer, as in files with the format tag `WAVE_FORMAT_PCM`. Its values are signed here at all widths, though
    /// a byte of 8 bits isn't.
    Int,
}

/// The properties of the audio data.
///
/// The fields can be any numbers; [`WavSpecEx::is_writable`] says which of them a file can be written with.
///
/// ```text
/// let spec = WavSpec {
///     channels: 1,
///     sample_rate: 44100,
///     bits_per_sample: 16,
///     sample_format: SampleFormat::Int,
/// };
/// ```
#[derive(Clone, Copy, Debug, PartialEq, Eq)]
pub struct WavSpec {
    /// The number of channels, whose samples are interleaved: a sample of each is a frame.
    pub channels: u16,
    /// The number of frames a second, in hertz; 44100 on a CD. It may be 0 in a file that is read.
    pub sample_rate: u32,
    /// The number of bits of a sample that are used; 16 on a CD. In a file that is read it can be any but 0, since the
    /// valid bits of a WAVEFORMATEXTENSIBLE aren't checked; types read only the pairs of [`WavSpecEx::is_writable`].
    pub bits_per_sample: u16,
    /// Whether samples are integers or floats.
    pub sample_format: SampleFormat,
}

/// The properties of the audio data, with the width of a sample in the file.
///
/// `WavSpecEx::from(spec)` has the default width.
///
/// ```text
/// let spec_ex = WavSpecEx {
///     spec: WavSpec {
///         bits_per_sample: 24,
///         ..spec
///     },
///     bytes_per_sample: 4, // `WavSpecEx::from(spec)` has 3.
/// };
/// ```
#[derive(Clone, Copy, Debug, PartialEq, Eq)]
pub struct WavSpecEx {
    /// The properties of the audio data; its bits are the used ones.
    pub spec: WavSpec,
    /// The number of bytes that a sample takes in the file, its container. In a file that is read: the block align
    /// divided by the channels, rounded down (WAVEFORMATEX, "nBlockAlign").
    pub bytes_per_sample: u16,
}

impl WavSpecEx {
    /// Whether a file of this spec can be written.
    ///
    /// The pairs of bits and bytes are (8, 1), (16, 2), (24, 3), (24, 4) and (32, 4) for integers, and (32, 4) for
    /// floats. There is at least one channel and one frame a second, a frame has at most 65535 bytes, and a second at
    /// most 4294967295. A writer's constructors reject exactly the other specs, as `Unsupported`.
    pub(crate) fn is_writable(&self) -> bool {
        let spec = self.spec;
        let bytes = self.bytes_per_sample;
        let block_align = spec.channels as u32 * bytes as u32;
        is_pair(spec.sample_format, spec.bits_per_sample, bytes)
            && spec.channels >= 1
            && spec.sample_rate >= 1
            && block_align <= 65535
            && block_align as u64 * spec.sample_rate as u64 <= u32::MAX as u64
    }
}

/// The spec with as many bytes to a sample as its bits need, rounded down: `(bits + 7) / 8`.
impl From<WavSpec> for WavSpecEx {
    fn from(spec: WavSpec) -> WavSpecEx {
        WavSpecEx { spec, bytes_per_sample: ((spec.bits_per_sample as u32 + 7) / 8) as u16 }
    }
}

/// Whether samples of this format are written with this many used bits and bytes: (8, 1), (16, 2), (24, 3), (24, 4) and
/// (32, 4) for integers, and (32, 4) for floats.
#[inline(always)]
pub fn is_pair(format: SampleFormat, bits: u16, width: u16) -> bool {
    match format {
        SampleFormat::Int => {
            (bits == 8 && width == 1)
                || (bits == 16 && width == 2)
                || (bits == 24 && (width == 3 || width == 4))
                || (bits == 32 && width == 4)
        }
        SampleFormat::Float => bits == 32 && width == 4,
    }
}
