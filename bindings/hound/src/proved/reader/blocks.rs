// Made from crates/hound_reader by scripts/erase.py: change that, and not this.
// Files in memory, where no read fails, and blocks of a source, whose failed reads are counted: contracts say why each
// `IoError` comes.

use crate::proved::reader::item::{SavingReader, keep_end, result_of};
use crate::proved::reader::reader::WavReader;
use crate::proved::medium::Source;
use crate::proved::number::early_end;
use crate::proved::sample::{Decode, SampleError, decode_containers, reason_of};
use crate::proved::spec::{Result, WavSpecEx};
use crate::proved::walk::{HeadError, error_of, find_samples};
use std::result;

// Decodes containers from the front of bytes, which it takes, until the samples are full or the bytes end. Returns how
// many samples came, and how many bytes were taken.
//
// All bytes are taken where they end within a container.
fn decode_many<S: Decode>(
    bytes: &mut &[u8],
    spec_ex: WavSpecEx,
    samples: &mut [S],
) -> (usize, u64, result::Result<(), SampleError>) {
    if samples.is_empty() {
        return (0, 0, Ok(()));
    }
    let spec = spec_ex.spec;
    let width = spec_ex.bytes_per_sample;
    if let Err(error) = S::check(spec.sample_format, width, spec.bits_per_sample) {
        return (0, 0, Err(reason_of(error)));
    }
    let all: &[u8] = *bytes;
    let size = width as usize;
    let count = samples.len().min(all.len() / size);
    let whole = count * size;
    decode_containers(&all[..whole], &mut samples[..count], spec.sample_format, width, spec.bits_per_sample);
    if count == samples.len() {
        *bytes = &all[whole..];
        return (count, whole as u64, Ok(()));
    }
    *bytes = &all[all.len()..];
    (count, all.len() as u64, Err(SampleError::Failed))
}

impl<'a> WavReader<&'a [u8]> {
    /// Reads a file in memory: takes exactly what is before the data, as [`WavReader::new`] does (own).
    ///
    /// No read of bytes in memory fails. So an error is one of the causes that the bytes have, and an `IoError` is that
    /// they end early, which no contract of `new` says.
    ///
    /// ```text
    /// let mut reader = WavReader::from_bytes(bytes)?;
    /// let (count, result) = reader.decode_samples(&mut block);
    /// ```
    pub fn from_bytes(bytes: &'a [u8]) -> Result<WavReader<&'a [u8]>> {
        match find_samples(bytes) {
            Ok((head, num_samples)) => {
                let data = &bytes[head.data_start as usize..];
                Ok(WavReader::over(data, head.spec_ex, num_samples))
            }
            Err(cause) => Err(error_of(HeadError::Rejected(cause))),
        }
    }

    /// Reads the next samples into the front of a slice, as [`WavReader::read_samples`] does (own).
    ///
    /// No read of bytes in memory fails. So an `Err` is the error of the type, or an `IoError` of kind `Other`, where
    /// the bytes end before the next container does. It is for the types of this crate, since a type of your own may
    /// return an `IoError` of its own.
    pub fn decode_samples<S: Decode>(&mut self, samples: &mut [S]) -> (usize, Result<()>) {
        let wanted = samples.len().min(self.samples_left() as usize);
        let front = &mut samples[..wanted];
        let (count, given, answer) = decode_many(&mut self.reader.reader, self.spec_ex, front);
        self.count_block(count, given, answer);
        (count, result_of(answer, &mut early_end()))
    }
}

// The bytes of a piece: enough that a call of `get` costs little for each sample.
const PIECE: usize = 1024;

// Fills the front of a buffer, all of it unless a read fails or the source ends, and returns how many bytes. The fault
// is saved, and so is the end.
fn get_all<R: Source>(reader: &mut SavingReader<R>, buf: &mut [u8]) -> usize {
    let mut at = 0;
    while at < buf.len() {
        match reader.reader.get(&mut buf[at..]) {
            Ok(0) => {
                keep_end(&mut reader.fault);
                return at;
            }
            Ok(count) => at += count,
            Err(fault) => {
                reader.fault = fault;
                return at;
            }
        }
    }
    at
}

// Gets samples until the slice is full, a read fails or the source ends, which is saved. Returns how many came, and how
// many bytes were taken.
fn get_many<S: Decode, R: Source>(
    reader: &mut SavingReader<R>,
    spec_ex: WavSpecEx,
    samples: &mut [S],
) -> (usize, u64, result::Result<(), SampleError>) {
    if samples.is_empty() {
        return (0, 0, Ok(()));
    }
    let spec = spec_ex.spec;
    let width = spec_ex.bytes_per_sample;
    if let Err(error) = S::check(spec.sample_format, width, spec.bits_per_sample) {
        return (0, 0, Err(reason_of(error)));
    }
    let size = width as usize;
    let mut piece = [0; PIECE];
    let mut done = 0;
    while done < samples.len() {
        let wanted = (samples.len() - done).min(PIECE / size);
        let taken = get_all(reader, &mut piece[..wanted * size]);
        let mut bytes = &piece[..taken];
        let (count, _, answer) = decode_many(&mut bytes, spec_ex, &mut samples[done..done + wanted]);
        if let Err(no_sample) = answer {
            return (done + count, (done * size + taken) as u64, Err(no_sample));
        }
        done += wanted;
    }
    (done, (done * size) as u64, Ok(()))
}

impl<R: Source> WavReader<R> {
    /// Reads the next samples into the front of a slice, as [`WavReader::read_samples`] does (own).
    ///
    /// Where contracts know the bytes of the source, an `Err` is the error of the type, or an `IoError`: of kind
    /// `Other`, where the bytes end before the next container does, or of a read that failed, which the source has
    /// counted. It is for the types of this crate, since a type of your own may return an `IoError` of its own.
    pub fn try_read_samples<S: Decode>(&mut self, samples: &mut [S]) -> (usize, Result<()>) {
        let wanted = samples.len().min(self.samples_left() as usize);
        let front = &mut samples[..wanted];
        let (count, given, answer) = get_many(&mut self.reader, self.spec_ex, front);
        let result = result_of(answer, &mut self.reader.fault);
        self.count_block(count, given, answer);
        (count, result)
    }
}
