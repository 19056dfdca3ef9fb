//! Each public item of hound 3.5.1 with its type. This compiles over a crate only if that has these names, signatures,
//! bounds, variants, fields and traits.
#![allow(dead_code)]
use std::fmt::{Debug, Display};
use std::fs::File;
use std::io::{self, BufReader, BufWriter, Cursor, Read, Seek, Write};
use std::panic::{RefUnwindSafe, UnwindSafe};
use std::path::Path;

fn is_plain<T: Copy + Clone + Debug + PartialEq + Eq + Send + Sync + 'static>() {}
fn is_copied<T: Copy + Clone + Send + Sync + 'static>() {}
fn is_sent<T: Send + Sync + Unpin + UnwindSafe + RefUnwindSafe>() {}

crate::both! {
    use hound::*;

    fn iterates<I: ExactSizeIterator<Item = Result<S>>, S>() {}

    fn reader<'r, R: Read + 'r, S: Sample>() {
        let _: fn(R) -> Result<WavReader<R>> = WavReader::new;
        let _: fn(&WavReader<R>) -> WavSpec = WavReader::spec;
        let _: fn(&'r mut WavReader<R>) -> WavSamples<'r, R, S> = WavReader::samples;
        let _: fn(WavReader<R>) -> WavIntoSamples<R, S> = WavReader::into_samples;
        let _: [fn(&WavReader<R>) -> u32; 2] = [WavReader::duration, WavReader::len];
        let _: fn(WavReader<R>) -> R = WavReader::into_inner;
        let _: fn(&mut R) -> Result<u64> = read_wave_header;
        iterates::<WavSamples<'r, R, S>, S>();
        iterates::<WavIntoSamples<R, S>, S>();
    }

    fn seeking_reader<R: Read + Seek>() {
        let _: fn(&mut WavReader<R>, u32) -> io::Result<()> = WavReader::seek;
    }

    fn writer<'w, W: Write + Seek + 'w, S: Sample>() {
        let _: fn(W, WavSpec) -> Result<WavWriter<W>> = WavWriter::new;
        let _: fn(W, WavSpecEx) -> Result<WavWriter<W>> = WavWriter::new_with_spec_ex;
        let _: fn(&mut WavWriter<W>, S) -> Result<()> = WavWriter::write_sample;
        let _: fn(&'w mut WavWriter<W>, u32) -> SampleWriter16<'w, W> = WavWriter::get_i16_writer;
        let _: fn(&mut WavWriter<W>) -> Result<()> = WavWriter::flush;
        let _: fn(WavWriter<W>) -> Result<()> = WavWriter::finalize;
        let _: fn(&WavWriter<W>) -> WavSpec = WavWriter::spec;
        let _: [fn(&WavWriter<W>) -> u32; 2] = [WavWriter::duration, WavWriter::len];
        let _: fn(&mut SampleWriter16<'w, W>, S) = SampleWriter16::write_sample;
        let _: unsafe fn(&mut SampleWriter16<'w, W>, S) = SampleWriter16::write_sample_unchecked;
        let _: fn(SampleWriter16<'w, W>) -> Result<()> = SampleWriter16::flush;
    }

    fn appending_writer<W: Read + Write + Seek>() {
        let _: fn(W) -> Result<WavWriter<W>> = WavWriter::new_append;
    }

    fn files<P: AsRef<Path>>() {
        let _: fn(P) -> Result<WavReader<BufReader<File>>> = WavReader::open;
        let _: fn(P, WavSpec) -> Result<WavWriter<BufWriter<File>>> = WavWriter::create;
        let _: fn(P) -> Result<WavWriter<BufWriter<File>>> = WavWriter::append;
    }

    struct Own;

    impl Sample for Own {
        fn write<W: Write>(self, writer: &mut W, bits: u16) -> Result<()> {
            0i8.write(writer, bits)
        }
        fn write_padded<W: Write>(self, writer: &mut W, bits: u16, width: u16) -> Result<()> {
            0i32.write_padded(writer, bits, width)
        }
        fn read<R: Read>(reader: &mut R, format: SampleFormat, width: u16, bits: u16) -> Result<Own> {
            f32::read(reader, format, width, bits).map(|_| Own)
        }
        fn as_i16(self) -> i16 {
            0i16.as_i16()
        }
    }

    fn plain_types(spec: WavSpec, spec_ex: WavSpecEx) -> Vec<u8> {
        is_plain::<SampleFormat>();
        is_plain::<WavSpec>();
        is_copied::<WavSpecEx>();
        let WavSpecEx { spec: of_spec_ex, bytes_per_sample } = spec_ex;
        let WavSpec { channels, sample_rate, bits_per_sample, sample_format } = of_spec_ex;
        let _: (u16, u32, u16, u16) = (channels, sample_rate, bits_per_sample, bytes_per_sample);
        match sample_format {
            SampleFormat::Float | SampleFormat::Int => spec.into_header_for_infinite_file(),
        }
    }

    fn is_error<E: std::error::Error + Display + Debug + From<io::Error> + Send + Sync + 'static>(_: E) {}

    fn errors(error: Error) {
        match &error {
            Error::IoError(_) | Error::FormatError(_) => {}
            Error::TooWide | Error::UnfinishedSample | Error::Unsupported | Error::InvalidSampleFormat => {}
        }
        is_error(error);
    }

    fn auto_traits() {
        is_sent::<WavReader<BufReader<File>>>();
        is_sent::<WavIntoSamples<BufReader<File>, f32>>();
        is_sent::<WavWriter<BufWriter<File>>>();
    }

    fn shorter<'s>(
        reader: WavReader<&'static [u8]>,
        samples: WavIntoSamples<&'static [u8], i16>,
        writer: WavWriter<Cursor<&'static mut [u8]>>,
    ) -> (WavReader<&'s [u8]>, WavIntoSamples<&'s [u8], i16>, WavWriter<Cursor<&'s mut [u8]>>) {
        (reader, samples, writer)
    }
}
