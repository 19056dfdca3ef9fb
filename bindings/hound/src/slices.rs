//! Samples, headers and sizes in slices of memory, for a program that keeps a file itself (own). Nothing here allocates
//! or needs `std`. What isn't written of a slice stays as it was, and at an error all of it.
//! The types of samples are `i8`, `i16`, `i32` and `f32`, whose format is `Float`; and integers are decoded to floats
//! whose full scale is 1, as [`UnitFloat`] and [`UnitDouble`], and encoded from such `f32` and `f64`.
pub use crate::proved::sample::{UnitDouble, UnitFloat};
use crate::proved::slices::file_kind;
pub use crate::proved::slices::{
    decode_block, encode_block, encode_floats, encode_with_noise, file_size, guess_data, narrow_floats, whole_frames,
    widen_floats, write_filler, write_header, write_sizes, CallError,
};
pub use crate::proved::walk::find_samples;

/// What a file is that isn't read, by its first bytes, of which a few thousand will do: as "Microsoft ADPCM", for a
/// sentence next to its error. None for samples that are read, and for what isn't known.
pub fn kind(file: &[u8]) -> Option<&'static str> {
    let kind = file_kind(file);
    KINDS.iter().find(|(number, _)| *number == kind).map(|(_, name)| *name)
}

#[rustfmt::skip]
const KINDS: &[(u32, &str)] = &[
    // The names of kinds of files, made from hound.h by scripts/make_interface.py.
    (2, "Microsoft ADPCM"), (6, "A-law"), (7, "mu-law"), (17, "IMA ADPCM"), (34, "TrueSpeech"), (49, "GSM 6.10"),
    (64, "G.721 ADPCM"), (80, "MPEG"), (85, "MP3"), (8192, "AC-3"),
    (65537, "RIFX, whose numbers have their highest byte first"), (65538, "RF64, which is for more than 4 GiB"),
    (65539, "BW64, which is for more than 4 GiB"), (65540, "Wave64"), (65541, "AIFF"), (65542, "FLAC"), (65543, "Ogg"),
    (65544, "MP3, or another MPEG audio"), (65545, "floats of 64 bits"),
    // The end of what is made from hound.h.
];
