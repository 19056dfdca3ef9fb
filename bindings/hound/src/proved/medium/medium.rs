// Made from crates/hound_medium by scripts/erase.py: change that, and not this.
// The traits that readers and writers are generic over, the same for a `&mut`, and the loop over `put`.

use std::io;

/// A place among bytes, counted in bytes from 0. It can be past the end.
///
/// Implemented for [`Tape`](super::Tape), [`Journal`](super::Journal), `BufReader<File>`, `BufWriter<File>`, and a
/// `&mut` to any such type, so that a medium can be lent.
///
/// If it `tells`, contracts know its bytes; `state` says nothing of any other. Then an `Err` of any call, of `put`,
/// `flush` and `get` too, changes only the count of faults. A new value is at 0, where a writer has to begin; `go(0)`
/// leads there again.
pub trait Placed {
    /// Seeks to a place, counted from the beginning. One past the end is allowed; the bytes stay.
    fn go(&mut self, to: u64) -> io::Result<()>;

    /// Seeks by this many bytes, back if negative. It is an error if the new place would be below 0 or above
    /// `u64::MAX`.
    fn shift(&mut self, by: i64) -> io::Result<()>;
}

/// A place that bytes are written at: what a `WavWriter` writes into.
///
/// Implemented for [`Tape`](super::Tape), [`Journal`](super::Journal), `BufWriter<File>`, and a `&mut` to any such
/// type. Your own needs `put` and `flush`, those of [`Placed`] and their laws, and the writer's contracts hold over it.
pub trait Medium: Placed {
    /// Writes bytes at the place, as many as it takes at once, moves after them, and returns their number, at least 1.
    /// Zeros fill a gap after the old end. `bytes` must not be empty. An `Err` writes none.
    fn put(&mut self, bytes: &[u8]) -> io::Result<usize>;

    /// Passes all bytes written on to what the medium writes into, as a file; the place stays.
    fn flush(&mut self) -> io::Result<()>;
}

/// A place that bytes are read from: what `WavReader::seek` and the calls that append need.
///
/// Implemented for [`Tape`](super::Tape), [`Journal`](super::Journal), `BufReader<File>`, and a `&mut` to any such
/// type. A `BufWriter<File>` is none, so a file is appended to by `WavWriter::append`.
pub trait Source: io::Read + Placed {
    /// Reads bytes at the place into the front of the buffer, moves after them, and returns their number, 0 only at the
    /// end or for an empty buffer. Unlike `read`, its contract gives the place and the count of faults.
    fn get(&mut self, buf: &mut [u8]) -> io::Result<usize>;
}

impl<P: Placed> Placed for &mut P {
    fn go(&mut self, to: u64) -> io::Result<()> {
        Placed::go(&mut **self, to)
    }

    fn shift(&mut self, by: i64) -> io::Result<()> {
        Placed::shift(&mut **self, by)
    }
}

impl<M: Medium> Medium for &mut M {
    #[inline(always)]
    fn put(&mut self, bytes: &[u8]) -> io::Result<usize> {
        Medium::put(&mut **self, bytes)
    }

    fn flush(&mut self) -> io::Result<()> {
        Medium::flush(&mut **self)
    }
}

impl<S: Source> Source for &mut S {
    #[inline]
    fn get(&mut self, buf: &mut [u8]) -> io::Result<usize> {
        Source::get(&mut **self, buf)
    }
}

/// Writes all of the bytes, in order, or stops at the first `put` that fails.
///
/// At an `Err` a beginning of the bytes may be written, and the place is after it. If there are no bytes, `put` isn't
/// called.
#[inline(always)]
pub fn put_all<M: Medium>(medium: &mut M, bytes: &[u8]) -> io::Result<()> {
    let mut at = 0;
    while at < bytes.len() {
        match medium.put(&bytes[at..]) {
            Ok(count) => at += count,
            Err(error) => return Err(error),
        }
    }
    Ok(())
}

/// The same result, where an `Err` has counted a fault; the count stays at `u64::MAX` once there.
#[inline(always)]
pub fn count_fault<T, E>(outcome: Result<T, E>, faults: &mut u64) -> Result<T, E> {
    if outcome.is_err() {
        *faults = faults.saturating_add(1);
    }
    outcome
}
