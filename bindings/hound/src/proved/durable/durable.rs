// Made from crates/hound_durable by scripts/erase.py: change that, and not this.
// A medium around another that flushes it before it goes back.

use crate::proved::medium::{Medium, Placed, Source, count_fault};
use std::io;
use std::io::ErrorKind;

/// A medium around another one, which it flushes before each step to or before a byte that was written since the last
/// flush.
///
/// A `WavWriter` writes samples after all that the file has, and then the sizes before them. So over a `Durable` the
/// samples are flushed before the sizes are written, and again after them, and a loss of power at any time leaves a
/// length that counts no more samples than the file has.
///
/// If the medium within `tells`, so does this one, with the same bytes. Its counts of faults and of flushed bytes are
/// its own: a flush that comes before a step back counts as part of it. If that flush fails, the step is the one fault,
/// and nothing has moved. Each of its faults is one of the medium within, too (`IsItsFault`), so it has counted no more
/// than that one ([`a_durable_medium_ascends`](super::a_durable_medium_ascends)).
///
/// Its places go up to `i64::MAX`, as those of a file do. A call that leads past that, and one that writes more bytes
/// than 64 bits can count, fails as a step before the first byte does.
pub struct Durable<M: Medium> {
    inner: M,
    place: u64,
    // After the highest of the bytes written since the last flush of the medium within.
    end: u64,
    taken: u64,
    flushed: u64,
    faults: u64,
}

impl<M: Medium> Durable<M> {
    /// A medium around a new one, at its place 0, into which nothing has been written yet.
    pub fn new(inner: M) -> Durable<M> {
        Durable { inner, place: 0, end: 0, taken: 0, flushed: 0, faults: 0 }
    }

    /// The medium within, as it is.
    pub fn into_inner(self) -> M {
        let Durable { inner, .. } = self;
        inner
    }

    // Flushes the medium within.
    fn sync(&mut self) -> io::Result<()> {
        count_fault(Medium::flush(&mut self.inner), &mut self.faults)?;
        self.end = 0;
        Ok(())
    }

    // The fault of a call that no place or count allows: that of a step before the first byte, which the medium within
    // rejects.
    fn fail(&mut self) -> io::Error {
        let outcome = self.inner.shift(i64::MIN);
        self.faults = self.faults.saturating_add(1);
        match outcome {
            Ok(()) => io::Error::from(ErrorKind::InvalidInput),
            Err(error) => error,
        }
    }
}

// The place so many bytes after another one, or before it if negative, if there is one.
fn place_from(place: u64, by: i64) -> Option<u64> {
    if by < 0 {
        place.checked_sub(by.unsigned_abs())
    } else {
        place.checked_add(by as u64)
    }
}

impl<M: Medium> Placed for Durable<M> {
    fn go(&mut self, to: u64) -> io::Result<()> {
        if to > i64::MAX as u64 {
            return Err(self.fail());
        }
        if to < self.end {
            self.sync()?;
        }
        count_fault(self.inner.go(to), &mut self.faults)?;
        self.place = to;
        Ok(())
    }

    fn shift(&mut self, by: i64) -> io::Result<()> {
        match place_from(self.place, by) {
            Some(to) => self.go(to),
            None => Err(self.fail()),
        }
    }
}

impl<M: Medium> Medium for Durable<M> {
    /// As that of the medium within. It is also an `Err` if the end of the bytes would pass `i64::MAX`, or the count of
    /// all bytes written `u64::MAX`.
    fn put(&mut self, bytes: &[u8]) -> io::Result<usize> {
        let room = (i64::MAX as u64 - self.place).min(u64::MAX - self.taken);
        if room < bytes.len() as u64 {
            return Err(self.fail());
        }
        let n = count_fault(self.inner.put(bytes), &mut self.faults)?;
        self.place += n as u64;
        self.taken += n as u64;
        self.end = self.place;
        Ok(n)
    }

    fn flush(&mut self) -> io::Result<()> {
        self.sync()?;
        self.flushed = self.taken;
        Ok(())
    }
}

impl<M: Medium + Source> io::Read for Durable<M> {
    #[inline]
    fn read(&mut self, buf: &mut [u8]) -> io::Result<usize> {
        self.get(buf)
    }
}

impl<M: Medium + Source> Source for Durable<M> {
    #[inline]
    fn get(&mut self, buf: &mut [u8]) -> io::Result<usize> {
        if i64::MAX as u64 - self.place < buf.len() as u64 {
            return Err(self.fail());
        }
        let n = count_fault(Source::get(&mut self.inner, buf), &mut self.faults)?;
        self.place += n as u64;
        Ok(n)
    }
}
