"""What erase.py changes besides deleting ghost text, and check_erased.py allows: in which file, which tokens, by which,
how often they are there, and why. `(…)`, `[…]` and `{…}` are brackets with anything in them, and another `…` is
anything without braces and semicolons.
"""
from typing import NamedTuple

CRATES = ["number", "spec", "sample", "medium", "durable", "walk", "reader", "writer", "repair", "follow", "slices"]

# Files that bindings/hound doesn't use: laws, which are ghosts, media in memory, allocators, files, which it opens
# itself, and the structs that only C has.
LEFT_OUT = [
    "number/laws.rt", "sample/laws.rt", "durable/laws.rt", "walk/laws.rt", "reader/laws.rt", "writer/laws.rt",
    "repair/laws.rt", "follow/laws.rt", "medium/bytes.rt", "medium/cursor.rt", "medium/file.rt", "medium/journal.rt",
    "medium/tape.rt",
    "spec/allocation.rt", "durable/file.rt", "reader/file.rt", "writer/file.rt", "writer/batch.rt", "repair/file.rt",
    "slices/effect.rt", "slices/following.rt", "slices/recording.rt", "slices/repairer.rt", "slices/spec.rt",
    "slices/value.rt",
    "slices/walking.rt",
]


class Allowed(NamedTuple):
    file: str
    times: int
    old: str
    new: str
    why: str


REPLACEMENTS = [
    # What contracts need and Rust has no word for.
    Allowed("*", 11, "#![tactic(…)]", "", "The prover's tactics."),
    Allowed("*", 18, "#[tactic(…)]", "", "The prover's tactics."),
    Allowed("*", 5, "impl … Model for … {…}", "", "What a value is in contracts."),
    Allowed("*", 4, "use std::marker::Model;", "", "The trait of that."),
    Allowed("*", 3, "marker::Brand", "crate::rattle::Brand", "A type whose ghosts vary: here it has none."),
    Allowed("*", 13, "#[derive(Drop)]", "", "Every type of Rust can be dropped."),
    Allowed("*", 3, "Debug, Drop", "Debug", "Every type of Rust can be dropped."),
    Allowed("*", 7, "+ Drop", "", "Every type of Rust can be dropped."),
    Allowed("medium/medium.rt", 1, "trait Placed: Drop", "trait Placed", "Every type of Rust can be dropped."),
    # What Rattle's library has and Rust's hasn't.
    # A float of Rattle has one NaN, so that a sample is the number of its bits. In Rust it is the float itself.
    Allowed("sample/float.rt", 1, "#[repr(C)] #[derive(Clone, Copy, Debug, PartialEq, Eq)] pub struct FloatBits(pub u32);",
            "pub type FloatBits = f32;", "A float of Rust has each pattern."),
    Allowed("sample/float.rt", 1, "FloatBits(u32_at(container, 0))", "f32::from_bits(u32_at(container, 0))",
            "As above."),
    Allowed("sample/float.rt", 1, "le_u32(self.0)", "le_u32(self.to_bits())", "As above."),
    Allowed("sample/float.rt", 1, "use std::num::{f32_from_bits_with_nan, f32_to_bits_with_nan};", "", "As above."),
    Allowed("sample/float.rt", 1, "impl From<f32> for FloatBits {…}", "", "As above."),
    Allowed("sample/float.rt", 1, "impl FloatBits {…}", "", "As above."),
    Allowed("*", 3, "use std::num::", "use crate::rattle::", "Conversions of floats."),
    Allowed("spec/error.rt", 1, ", DeriveError)]", ")]", "bindings/hound has the texts."),
    Allowed("spec/error.rt", 1, "use thiserror::Error as DeriveError;", "", "bindings/hound has the texts."),
    Allowed("spec/error.rt", 1, "InvalidSampleFormat, #[error(…)] TooLong, #[error(…)] OutOfMemory",
            "InvalidSampleFormat", "It is hound's error, which has no more."),
    Allowed("*", 5, "Error::TooLong", "crate::rattle::too_long()", "It is hound's error, where this is an IoError."),
    Allowed("spec/error.rt", 6, "#[error(…)]", "", "bindings/hound has the texts."),
    Allowed("spec/header.rt", 1, "impl WavSpec {…}", "", "It takes an allocator: bindings/hound has its own."),
    Allowed("spec/header.rt", 1, "use std::alloc::Global;", "", "Nothing here takes an allocator."),
    Allowed("writer/resuming.rt", 1, "fmt<W: fmt::Write>(&self, f: &mut fmt::Formatter<W>)",
            "fmt(&self, f: &mut fmt::Formatter<'_>)", "A formatter of Rust has no type of where it writes."),
    Allowed("writer/output.rt", 1, "Option<Vec<i16>>", "Option<()>", "Nothing here allocates."),
    # A value that is dropped is lent in Rust, and an io::Error isn't copied: one is moved out of where it was saved.
    Allowed("writer/write.rt", 1, "impl<W: Medium> Drop for WavWriter<W> {…}", "", "bindings/hound has its own."),
    Allowed("writer/write.rt", 2, "(no_sample, &self.fault)", "(no_sample, &mut self.fault)",
            "An io::Error isn't copied."),
    Allowed("*", 2, "fault: &io::Error", "fault: &mut io::Error", "An io::Error isn't copied."),
    Allowed("sample/item.rt", 1, "Error::IoError(*fault)",
            "Error::IoError(std::mem::replace(fault, io::ErrorKind::Other.into()))", "An io::Error isn't copied."),
    Allowed("reader/reader.rt", 1, "error_for(&self,", "error_for(&mut self,", "An io::Error isn't copied."),
    Allowed("*", 3, "&self.reader.fault)", "&mut self.reader.fault)", "An io::Error isn't copied."),
    Allowed("reader/blocks.rt", 1, "&early_end()", "&mut early_end()", "An io::Error isn't copied."),
    # What hound hasn't, and what newer versions of Rust than 1.63 have.
    Allowed("spec/spec.rt", 1, "pub fn is_writable", "pub(crate) fn is_writable", "hound has no such method."),
    Allowed("sample/scale.rt", 1, "number.round_ties_even()", "crate::rattle::round_ties_even(number)",
            "f64::round_ties_even is of Rust 1.77."),
    # A block is made where it stays: a struct that holds it would be copied each time that it moves.
    Allowed("writer/block.rt", 1, "bytes: [u8; BLOCK_LENGTH],", "bytes: crate::rattle::Boxed<[u8; BLOCK_LENGTH]>,",
            "A file of few samples takes less time."),
    Allowed("writer/block.rt", 1, "bytes: [0; BLOCK_LENGTH],", "bytes: crate::rattle::boxed([0; BLOCK_LENGTH]),",
            "As above."),
    # Loops that LLVM makes no vectors of where Rust checks their indices, which the kit's compiler doesn't. In Rattle
    # they count, because the contracts also hold of containers without bytes, of which an iterator over chunks would
    # give none.
    Allowed("sample/slices.rt", 1, "let mut end = 0; for sample in samples {",
            "for (bytes, sample) in bytes.chunks_exact_mut((width as usize).max(1)).zip(samples) {",
            "It has no check, so that LLVM makes vectors of it."),
    Allowed("sample/slices.rt", 1, "store_container(bytes, end, container, width as usize); end += width as usize;",
            "store_container(bytes, 0, container, width as usize);", "The rest of that."),
    Allowed("sample/decode.rt", 1, "for i in 0..samples.len() {"
            " samples[i] = S::decode(&from[i * size..(i + 1) * size], fmt, width, bits);",
            "for (sample, container) in samples.iter_mut().zip(from.chunks_exact(size.max(1))) {"
            " *sample = S::decode(container, fmt, width, bits);", "It has no check, so that LLVM makes vectors of it."),
]

# The whole library as C has it, which erase.py --whole makes for bindings/tests/erased.py alone: all files of slices,
# and hound_c, whose exports are functions there.
WHOLE_CRATES = [*CRATES, "c"]
WHOLE_LEFT_OUT = [name for name in LEFT_OUT if not name.startswith("slices/")]
WHOLE_REPLACEMENTS = REPLACEMENTS + [
    Allowed("slices/spec.rt", 1, "spec.bits_per_sample.div_ceil(8)",
            "(spec.bits_per_sample / 8 + u16::from(spec.bits_per_sample % 8 > 0))", "u16::div_ceil is of Rust 1.73."),
    Allowed("slices/recording.rt", 1, "pub has_rest: u16,", "pub has_rest: u16, pub unused: u16,",
            "C's struct has two bytes more, which the kit's compiler makes zeros."),
    Allowed("slices/recording.rt", 1, "has_rest: if recorder.has_rest { 1 } else { 0 },",
            "has_rest: if recorder.has_rest { 1 } else { 0 }, unused: 0,", "The rest of that."),
    Allowed("c/lib.rt", 57, '#[unsafe(no_mangle)] pub extern "C" fn', "pub fn", "Rust has no slices in C."),
]
