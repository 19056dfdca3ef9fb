// Made from crates/hound_reader by scripts/erase.py: change that, and not this.
// The iterators over samples.

use crate::proved::reader::reader::WavReader;
use crate::proved::sample::Sample;
use crate::proved::spec::{Result, WavSpecEx};
use std::io;
use std::marker::PhantomData;

/// An iterator over the samples that a reader has left; `size_hint` and `len` say how many.
///
/// An `Ok` takes exactly one container. An error of the type takes no byte, and counts as an item. So does a sample
/// that a fault or the end of the input cut, an `IoError`, which leaves the reader after the bytes that were taken:
/// items after it mean nothing until an Ok seek. After the last item comes None, on every call.
pub struct WavSamples<'wr, R, S> {
    pub(crate) reader: &'wr mut WavReader<R>,
    // A copy of the reader's, which a loop over the items can keep in registers.
    pub(crate) spec_ex: WavSpecEx,
    pub(crate) phantom_sample: PhantomData<S>,
}

impl<R: io::Read, S: Sample> Iterator for WavSamples<'_, R, S> {
    type Item = Result<S>;

    #[inline(always)]
    fn next(&mut self) -> Option<Result<S>> {
        let no_sample = match self.reader.next_item(self.spec_ex)? {
            Ok(sample) => return Some(Ok(sample)),
            Err(no_sample) => no_sample,
        };
        Some(Err(self.reader.error_for(no_sample)))
    }

    fn size_hint(&self) -> (usize, Option<usize>) {
        let left = self.len();
        (left, Some(left))
    }
}

impl<R: io::Read, S: Sample> ExactSizeIterator for WavSamples<'_, R, S> {
    fn len(&self) -> usize {
        self.reader.samples_left() as usize
    }
}

/// The same iterator as [`WavSamples`], which owns its reader.
pub struct WavIntoSamples<R, S> {
    pub(crate) reader: WavReader<R>,
    pub(crate) spec_ex: WavSpecEx,
    pub(crate) phantom_sample: PhantomData<S>,
}

impl<R: io::Read, S: Sample> Iterator for WavIntoSamples<R, S> {
    type Item = Result<S>;

    #[inline(always)]
    fn next(&mut self) -> Option<Result<S>> {
        let no_sample = match self.reader.next_item(self.spec_ex)? {
            Ok(sample) => return Some(Ok(sample)),
            Err(no_sample) => no_sample,
        };
        Some(Err(self.reader.error_for(no_sample)))
    }

    fn size_hint(&self) -> (usize, Option<usize>) {
        (self.len(), Some(self.len()))
    }
}

impl<R: io::Read, S: Sample> ExactSizeIterator for WavIntoSamples<R, S> {
    fn len(&self) -> usize {
        self.reader.samples_left() as usize
    }
}
