use crate::medium::{Input, Origin};
use crate::proved::walk::{self, error_of, read_until_samples};
use crate::sample::Reader;
use crate::{Result, Sample, WavSpec, WavSpecEx};
use std::io::{self, Read};
use std::{fs, marker, panic, path};

/// Reads the first 12 bytes of a file, and returns the length that they say the file has.
pub fn read_wave_header<R: Read>(reader: &mut R) -> Result<u64> {
    walk::read_wave_header(&mut Input(reader))
}

/// Reads the samples of a file. It takes no byte after the samples that were asked for.
pub struct WavReader<R> {
    pub(crate) proved: Reader<R>,
    // Samples of a file that this crate has opened which were read ahead of their turn, the last one first, each as its
    // bits: only such as its buffer held, so that it can go back without a call of the system.
    pub(crate) ahead: Vec<u32>,
    pub(crate) wanted: usize, // How many are to be read ahead at the next time: few at first, since a `seek` may come.
    sample_type: u8,          // Their type, by the number that it has as a `Sample`.
}

// Where the user's reader panics, the sample that was to be read isn't counted, and nothing else is wrong.
impl<R: panic::UnwindSafe> panic::UnwindSafe for WavReader<R> {}
impl<R: panic::RefUnwindSafe> panic::RefUnwindSafe for WavReader<R> {}

impl<R: Read> WavReader<R> {
    /// Reads the header, and makes a reader of the samples after it. A program that reads a file needs a `BufReader`
    /// around it, as that of [`open`](WavReader::open) has.
    pub fn new(reader: R) -> Result<WavReader<R>> {
        WavReader::over(reader, Origin::Reader)
    }

    fn over(mut reader: R, origin: impl FnOnce(R) -> Origin<R>) -> Result<WavReader<R>> {
        let (head, num_samples) = read_until_samples(&mut Input(&mut reader)).map_err(error_of)?;
        let proved = Reader::over(Input(origin(reader)), head.spec_ex, num_samples);
        Ok(WavReader { proved, ahead: Vec::new(), wanted: 0, sample_type: 0 })
    }

    /// What the file says of its samples.
    pub fn spec(&self) -> WavSpec {
        self.proved.spec()
    }

    /// An iterator over the samples that are left, the channels of a frame one after the other. It
    /// continues where the last one stopped.
    ///
    /// The type has to have the format of the samples, and at least their bits; else each item is an
    /// error. An `i32` holds all integers. A rejected item counts as read, but its bytes come next: `seek`
    /// before you read on. Stop at an `IoError`: a file that was cut off has one for each missing sample.
    pub fn samples<'wr, S: Sample>(&'wr mut self) -> WavSamples<'wr, R, S> {
        self.begin(S::__HOUND_TYPE);
        WavSamples { spec_ex: self.proved.spec_ex(), reader: self, phantom_sample: marker::PhantomData }
    }

    /// The same, which owns the reader.
    pub fn into_samples<S: Sample>(mut self) -> WavIntoSamples<R, S> {
        self.begin(S::__HOUND_TYPE);
        WavIntoSamples { spec_ex: self.proved.spec_ex(), reader: self, phantom_sample: marker::PhantomData }
    }

    /// How many frames the header counts, whatever was read; a frame has a sample of each channel.
    pub fn duration(&self) -> u32 {
        self.proved.duration()
    }

    /// How many samples the header counts, of all channels together, whatever was read.
    pub fn len(&self) -> u32 {
        self.proved.len()
    }

    /// The reader, after the last sample that was asked for.
    pub fn into_inner(mut self) -> R {
        self.begin(0);
        match self.proved.into_inner().0 {
            Origin::Reader(reader) => reader,
            Origin::Opened(file, reader_of) => reader_of(file),
        }
    }

    /// Goes to a frame, counted from 0. After the last one no sample is left.
    pub fn seek(&mut self, time: u32) -> io::Result<()>
    where
        R: io::Seek,
    {
        self.begin(0);
        self.proved.seek(time)
    }

    /// Begins with samples of a type, by its number. Others that were read ahead weren't read then.
    #[inline(always)]
    pub(crate) fn begin(&mut self, sample_type: u8) {
        if self.sample_type != sample_type {
            let count = self.ahead.len() as u64;
            let bytes = count * u64::from(self.proved.spec_ex.bytes_per_sample);
            if let Origin::Opened(file, _) = &mut self.proved.reader.reader.0 {
                file.seek_relative(-(bytes as i64)).expect("the buffer holds them");
            }
            self.proved.samples_read -= count;
            self.proved.bytes_read -= bytes;
            self.ahead.clear();
            (self.wanted, self.sample_type) = (0, sample_type);
        }
    }
}

impl WavReader<io::BufReader<fs::File>> {
    /// Opens a file, and reads its header.
    pub fn open<P: AsRef<path::Path>>(filename: P) -> Result<WavReader<io::BufReader<fs::File>>> {
        let file = io::BufReader::new(fs::File::open(filename)?);
        WavReader::over(file, |file| Origin::Opened(file, |file| file))
    }
}

/// The samples of a file, as type `S`, of a `WavReader` that is borrowed.
pub struct WavSamples<'wr, R: 'wr, S> {
    reader: &'wr mut WavReader<R>,
    spec_ex: WavSpecEx,
    phantom_sample: marker::PhantomData<S>,
}

/// The samples of a file, as type `S`, of a `WavReader` that is owned.
pub struct WavIntoSamples<R, S> {
    reader: WavReader<R>,
    spec_ex: WavSpecEx,
    phantom_sample: marker::PhantomData<S>,
}

macro_rules! samples {
    ($samples:ident $(, $lifetime:lifetime)?) => {
        impl<$($lifetime,)? R: Read, S: Sample> Iterator for $samples<$($lifetime,)? R, S> {
            type Item = Result<S>;

            #[inline(always)]
            fn next(&mut self) -> Option<Result<S>> {
                S::__hound_read(&mut self.reader, self.spec_ex)
            }

            fn size_hint(&self) -> (usize, Option<usize>) {
                let left = self.reader.proved.samples_left() as usize + self.reader.ahead.len();
                (left, Some(left))
            }
        }

        impl<$($lifetime,)? R: Read, S: Sample> ExactSizeIterator for $samples<$($lifetime,)? R, S> {}
    };
}
samples!(WavSamples, 'wr);
samples!(WavIntoSamples);
