// Made from crates/hound_number by scripts/erase.py: change that, and not this.
//! Little-endian numbers, and the loops over `read` and `write`.
//!
//! The lowest layer: each call makes, reads or writes exactly the bytes of its number, or returns the fault. The root
//! of `hound` exports none of it; a crate that needs it lists `hound_number`.

mod input;

pub use input::{Input, ReadError, early_end, read_into};
use std::io;
use std::io::{Error, ErrorKind};

/// The signed number of an unsigned byte, which counts from -128, as samples of 8 bits do (WAVEFORMATEX,
/// "wBitsPerSample").
#[inline(always)]
pub fn signed_from_u8(x: u8) -> i8 {
    (x as i16 - 128) as i8
}

/// The unsigned byte of a signed number, which counts from -128: the inverse of [`signed_from_u8`], by
/// [`signed_bytes_come_back`].
#[inline(always)]
pub fn u8_from_signed(x: i8) -> u8 {
    (x as i16 + 128) as u8
}

/// The two bytes of a number, the low one first, as in each call here.
#[inline(always)]
pub fn le_u16(n: u16) -> [u8; 2] {
    n.to_le_bytes()
}

/// The four bytes of a number.
#[inline(always)]
pub fn le_u32(n: u32) -> [u8; 4] {
    n.to_le_bytes()
}

/// The two bytes of a signed number.
#[inline(always)]
pub fn le_i16(n: i16) -> [u8; 2] {
    n.to_le_bytes()
}

/// The four bytes of a signed number.
#[inline(always)]
pub fn le_i32(n: i32) -> [u8; 4] {
    n.to_le_bytes()
}

/// The number in the two bytes from the index `at` on, which must exist: `at + 2` is at most `bytes.len()`.
#[inline(always)]
pub fn u16_at(bytes: &[u8], at: usize) -> u16 {
    bytes[at] as u16 + bytes[at + 1] as u16 * 0x100
}

/// The number in the four bytes from the index `at` on, which must exist: `at + 4` is at most `bytes.len()`.
#[inline(always)]
pub fn u32_at(bytes: &[u8], at: usize) -> u32 {
    bytes[at] as u32
        + bytes[at + 1] as u32 * 0x100
        + bytes[at + 2] as u32 * 0x1_0000
        + bytes[at + 3] as u32 * 0x100_0000
}

/// The signed number in two bytes.
#[inline(always)]
pub fn i16_from_le(bytes: [u8; 2]) -> i16 {
    i16::from_le_bytes(bytes)
}

/// The signed number in three bytes, from -8388608 to 8388607.
#[inline(always)]
pub fn i24_from_le(bytes: [u8; 3]) -> i32 {
    let [low, middle, high] = bytes;
    i16_from_le([middle, high]) as i32 * 0x100 + low as i32
}

/// The signed number in four bytes.
#[inline(always)]
pub fn i32_from_le(bytes: [u8; 4]) -> i32 {
    i32::from_le_bytes(bytes)
}

/// Writes all of the bytes, in order; if there are none, the writer isn't called.
///
/// `Interrupted` is passed on like any other fault, and a write that takes no byte is one of kind `WriteZero`. At an
/// `Err` a beginning of the bytes may be written, and no more is tried.
pub fn write_bytes<W: io::Write>(writer: &mut W, bytes: &[u8]) -> io::Result<()> {
    let mut at = 0;
    while at < bytes.len() {
        let n = writer.write(&bytes[at..])?;
        if n == 0 {
            return Err(Error::from(ErrorKind::WriteZero));
        }
        at += n;
    }
    Ok(())
}
