// Made from crates/hound_reader by scripts/erase.py: change that, and not this.
// Items: a reader that saves its last fault, and one that counts the bytes that it gives.

use crate::proved::number::early_end;
use crate::proved::sample::{ContainerReader, Sample, SampleError, error_of_sample, reason_of};
use crate::proved::spec::WavSpecEx;
use std::{io, marker, result};

/// How many bytes an item without a sample took, of those given for it.
#[inline(always)]
pub(crate) fn taken_without(no_sample: SampleError, given: u64, width: u16) -> u64 {
    match no_sample {
        SampleError::Failed => given.min(width as u64),
        _ => 0,
    }
}

/// What a block returns for how it ended, with this saved fault.
#[inline(always)]
pub(crate) fn result_of(
    answer: result::Result<(), SampleError>,
    fault: &mut io::Error,
) -> crate::proved::spec::Result<()> {
    match answer {
        Ok(()) => Ok(()),
        Err(no_sample) => Err(error_of_sample(no_sample, fault)),
    }
}

/// The end is saved as a fault.
#[cold]
#[inline(never)]
pub(crate) fn keep_end(fault: &mut io::Error) {
    *fault = early_end();
}

/// A reader, and the last fault of its reads, or its end, if that came later.
///
/// An `io::Error` is large, and a read that is not inlined passes it in memory. So the one call of `read` returns a
/// number, and the fault goes straight from here to where it is reported.
pub(crate) struct SavingReader<R> {
    pub(crate) reader: R,
    pub(crate) fault: io::Error,
}

impl<R: io::Read> SavingReader<R> {
    /// How many bytes a read gives, if it doesn't fail. The fault is saved, and so is the end.
    #[inline(always)]
    pub(crate) fn read_or_save_error(&mut self, buf: &mut [u8]) -> Option<usize> {
        match self.reader.read(buf) {
            Ok(0) => {
                keep_end(&mut self.fault);
                Some(0)
            }
            Ok(count) => Some(count),
            Err(fault) => {
                self.fault = fault;
                None
            }
        }
    }

    // Fills the front of a buffer as `fill` does, by a loop.
    #[cold]
    #[inline(never)]
    fn fill_rest(&mut self, buf: &mut [u8]) -> usize {
        let mut at = 0;
        while at < buf.len() {
            match self.read_or_save_error(&mut buf[at..]) {
                None | Some(0) => return at,
                Some(count) => at += count,
            }
        }
        at
    }

    /// Fills the front of a buffer, all of it unless a read fails or the input ends, and returns how many bytes. The
    /// first read mostly fills it, so the others are in a cold call.
    #[inline(always)]
    fn fill(&mut self, buf: &mut [u8]) -> usize {
        match self.read_or_save_error(buf) {
            None | Some(0) => 0,
            Some(count) if count == buf.len() => count,
            Some(count) => count + self.fill_rest(&mut buf[count..]),
        }
    }
}

/// Where counting begins, as contracts see it: a generic call leaves of a reader only what is in its type. A `Brand` is
/// one, whose members are chosen where it is passed.
pub(crate) trait CountStart {}

impl CountStart for crate::rattle::Brand {}

/// A reader, and the number of bytes that it gave since counting began, at most `u64::MAX`. A type may read an item
/// however it likes, and a later `seek` has to know what was really taken.
pub(crate) struct CountingReader<'a, R: io::Read, B: CountStart> {
    pub(crate) reader: &'a mut SavingReader<R>,
    pub(crate) given: u64,
    pub(crate) since: marker::PhantomData<B>,
}

impl<R: io::Read, B: CountStart> io::Read for CountingReader<'_, R, B> {
    #[inline(always)]
    fn read(&mut self, buf: &mut [u8]) -> io::Result<usize> {
        match self.reader.read_or_save_error(buf) {
            Some(count) if count > 0 || buf.is_empty() => {
                self.given = self.given.saturating_add(count as u64);
                Ok(count)
            }
            // Whatever this one is, callers get the fault that was saved.
            _ => Err(io::ErrorKind::Other.into()),
        }
    }
}

impl<R: io::Read, B: CountStart> CountingReader<'_, R, B> {
    // The next bytes, as many as the array has: a constant number, which needs no call that copies.
    #[inline(always)]
    fn next_array<const N: usize>(&mut self) -> Option<[u8; N]> {
        let mut bytes = [0; N];
        let count = self.reader.fill(&mut bytes);
        self.given = self.given.saturating_add(count as u64);
        if count == N {
            return Some(bytes);
        }
        None
    }
}

impl<R: io::Read, B: CountStart> ContainerReader for CountingReader<'_, R, B> {
    #[inline(always)]
    fn next_container(&mut self, width: u16) -> Option<[u8; 4]> {
        match width {
            1 => {
                let [a] = self.next_array::<1>()?;
                Some([a, 0, 0, 0])
            }
            2 => {
                let [a, b] = self.next_array::<2>()?;
                Some([a, b, 0, 0])
            }
            3 => {
                let [a, b, c] = self.next_array::<3>()?;
                Some([a, b, c, 0])
            }
            _ => self.next_array::<4>(),
        }
    }
}

/// Reads a sample of this spec into `answer`, and returns how many bytes the reader gave for it, where counting begins
/// now. The reference comes back so that contracts know it for the same.
#[inline(always)]
pub(crate) fn read_item_since<'a, R: io::Read, S: Sample, B: CountStart>(
    reader: &'a mut SavingReader<R>,
    spec_ex: WavSpecEx,
    answer: &mut result::Result<S, SampleError>,
) -> (&'a mut SavingReader<R>, u64) {
    let mut counting = CountingReader { reader, given: 0, since: marker::PhantomData::<B> };
    let (format, bits) = (spec_ex.spec.sample_format, spec_ex.spec.bits_per_sample);
    *answer = S::read_item(&mut counting, format, spec_ex.bytes_per_sample, bits);
    (counting.reader, counting.given)
}

// Reads samples as the type's `read_many`, and returns the reason of its error: the kit covers no call with a
// `CountingReader` whose signature has an `Error`, which holds a reference itself.
#[inline(always)]
fn read_many<R: io::Read, S: Sample>(
    reader: &mut R,
    spec_ex: WavSpecEx,
    samples: &mut [S],
) -> (usize, result::Result<(), SampleError>) {
    let (format, bits) = (spec_ex.spec.sample_format, spec_ex.spec.bits_per_sample);
    let (count, read) = S::read_many(reader, samples, format, spec_ex.bytes_per_sample, bits);
    match read {
        Ok(()) => (count, Ok(())),
        Err(error) => (count, Err(reason_of(error))),
    }
}

/// Reads samples as [`read_item_since`] does, those that are requested at once.
#[inline(always)]
pub(crate) fn read_many_since<'a, R: io::Read, S: Sample, B: CountStart>(
    reader: &'a mut SavingReader<R>,
    spec_ex: WavSpecEx,
    samples: &mut [S],
    answer: &mut (usize, result::Result<(), SampleError>),
) -> (&'a mut SavingReader<R>, u64) {
    let mut counting = CountingReader { reader, given: 0, since: marker::PhantomData::<B> };
    *answer = read_many(&mut counting, spec_ex, samples);
    (counting.reader, counting.given)
}
