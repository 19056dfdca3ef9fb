//! Each public item, as programs of hound use it.
#![cfg(feature = "std")]
mod common;

use common::{numbers, write_by, written, Inverse, Path, MONO, WAYS};
use hound::blocks::{ReadSamples, WriteSamples};
use hound::machines::{Cause, FailedAction, Reason, RecorderError, RepairError, Unrepairable};
use hound::slices::CallError;
use hound::{Error, Result, Sample, SampleFormat, WavReader, WavSpec, WavSpecEx, WavWriter};
use std::cell::{RefCell, RefMut};
use std::io::{self, Cursor, Read, Seek, SeekFrom, Write};
use std::panic::{catch_unwind, AssertUnwindSafe};
use std::process::Command;
use std::rc::Rc;
use std::{env, fs, mem};

const FLOATS: WavSpec = WavSpec { bits_per_sample: 32, sample_format: SampleFormat::Float, ..MONO };

/// A medium in memory that others see, too. One of its calls fails, or panics, and it may be full.
#[derive(Clone, Default)]
struct Disk(Rc<RefCell<DiskState>>);

#[derive(Default)]
struct DiskState {
    file: Cursor<Vec<u8>>,
    room: Option<usize>,
    calls: u32,
    fails: u32,
    panics: bool,
}

impl Disk {
    fn call(&self) -> io::Result<RefMut<'_, DiskState>> {
        let mut state = self.0.borrow_mut();
        state.calls += 1;
        if state.calls != state.fails {
            return Ok(state);
        }
        let panics = state.panics;
        drop(state);
        assert!(!panics, "the medium panics");
        Err(io::Error::new(io::ErrorKind::Other, "the medium fails"))
    }

    fn contents(&self) -> Vec<u8> {
        self.0.borrow().file.get_ref().clone()
    }

    /// What a reader finds.
    fn samples(&self) -> Vec<i16> {
        WavReader::new(Cursor::new(self.contents())).unwrap().into_samples().collect::<Result<_>>().unwrap()
    }

    /// The samples that the header counts, also where they are no whole frames, which readers reject.
    fn counted(&self) -> Vec<i16> {
        let file = self.contents();
        let start = if file[16] == 16 { 44 } else { 68 };
        let length = u32::from_le_bytes([file[start - 4], file[start - 3], file[start - 2], file[start - 1]]) as usize;
        file[start..start + length].chunks(2).map(sample_of).collect()
    }
}

impl Read for Disk {
    fn read(&mut self, bytes: &mut [u8]) -> io::Result<usize> {
        self.call()?.file.read(bytes)
    }
}

impl Write for Disk {
    fn write(&mut self, bytes: &[u8]) -> io::Result<usize> {
        let mut state = self.call()?;
        let room = state.room.map_or(bytes.len(), |room| room.saturating_sub(state.file.position() as usize));
        match room.min(bytes.len()) {
            0 => Err(io::Error::new(io::ErrorKind::Other, "the medium is full")),
            count => state.file.write(&bytes[..count]),
        }
    }
    fn flush(&mut self) -> io::Result<()> {
        self.call().map(drop)
    }
}

impl Seek for Disk {
    fn seek(&mut self, to: SeekFrom) -> io::Result<u64> {
        self.call()?.file.seek(to)
    }
}

fn sample_of(container: &[u8]) -> i16 {
    i16::from_le_bytes([container[0], container[1]])
}

#[test]
fn a_tone_is_written_and_measured() {
    let path = Path::new("tone");
    let mut writer = WavWriter::create(&path, MONO).unwrap();
    for time in (0..44100).map(|time| time as f32 / 44100.0) {
        writer.write_sample(((time * 440.0 * 2.0 * std::f32::consts::PI).sin() * 16384.0) as i16).unwrap();
    }
    assert_eq!((writer.spec(), writer.len(), writer.duration()), (MONO, 44100, 44100));
    writer.finalize().unwrap();
    assert_eq!(fs::metadata(&path).unwrap().len(), 44 + 2 * 44100);

    let mut reader = WavReader::open(&path).unwrap();
    assert_eq!((reader.spec(), reader.len(), reader.duration()), (MONO, 44100, 44100));
    let squares = reader.samples::<i16>().fold(0.0, |squares, sample| squares + f64::from(sample.unwrap()).powi(2));
    let root_mean_square = (squares / f64::from(reader.len())).sqrt();
    assert!((root_mean_square - 16384.0 / 2f64.sqrt()).abs() < 1.0);
}

#[test]
fn the_bytes_are_those_of_the_format() {
    let file = written(WavSpec { channels: 2, ..MONO }, &[2i16, -3, 5, -7]);
    let header = *b"RIFF\x2c\0\0\0WAVEfmt \x10\0\0\0\x01\0\x02\0\x44\xac\0\0\x10\xb1\x02\0\x04\0\x10\0data\x08\0\0\0";
    assert_eq!(file, [&header[..], b"\x02\0\xfd\xff\x05\0\xf9\xff"].concat());
    let odd = written(WavSpec { bits_per_sample: 8, ..MONO }, &[1i8]);
    assert_eq!((&odd[4..8], &odd[40..]), (&[38, 0, 0, 0][..], &[1, 0, 0, 0, 129, 0][..]));
    assert_eq!(hound::read_wave_header(&mut &file[..]).unwrap(), 52);
    assert_eq!(hound::read_wave_header(&mut &b"RIFF\xff\xff\xff\xffWAVEfmt "[..]).unwrap(), 0x1_0000_0007);
    assert!(matches!(hound::read_wave_header(&mut &file[..11]), Err(Error::IoError(_))));
    // Of a stream both sizes are the largest.
    for (bits_per_sample, length) in [(16, 44), (24, 68)] {
        let spec = WavSpec { bits_per_sample, ..MONO };
        let mut header = written::<i32>(spec, &[]);
        header[4..8].fill(255);
        header[length - 4..].fill(255);
        assert_eq!(spec.into_header_for_infinite_file(), header);
    }
}

#[test]
fn floats_are_scaled_where_a_file_has_integers() {
    for (bits, bytes_per_sample) in [(8, 1), (16, 2), (24, 3), (24, 4), (32, 4)] {
        let spec_ex = WavSpecEx { spec: WavSpec { bits_per_sample: bits, channels: 2, ..MONO }, bytes_per_sample };
        let integers: Vec<i32> = (0..5002).map(|number| (number % 256 - 128) << (bits - 8)).collect();
        let floats: Vec<f32> = (0..5002).map(|number| (number % 256 - 128) as f32 / 128.0).collect();
        let mut file = Cursor::new(Vec::new());
        let mut writer = WavWriter::new_with_spec_ex(&mut file, spec_ex).unwrap();
        writer.write_sample(integers[0]).unwrap();
        assert_eq!((writer.write_scaled(&floats[1..4000]).unwrap(), writer.write_scaled::<f32>(&[]).unwrap()), (0, 0));
        assert_eq!(writer.write_scaled(&[&floats[4000..], &[2.0, f32::NAN]].concat()).unwrap(), 1);
        writer.finalize().unwrap();
        file.rewind().unwrap();
        let loudest = i32::MAX >> (32 - bits);
        let read = WavReader::new(&mut file).unwrap().into_samples::<i32>().map(|sample| sample.unwrap());
        assert!(read.eq(integers.iter().copied().chain([loudest, 0])));

        let length = file.get_ref().len();
        file.get_mut().truncate(length - 2); // the last sample is torn, or the last two are missing
        file.rewind().unwrap();
        let (mut reader, mut out) = (WavReader::new(&mut file).unwrap(), vec![9.0; 5004]);
        assert_eq!(reader.samples::<i32>().next().unwrap().unwrap(), integers[0]);
        assert!(matches!(reader.read_scaled(&mut out[1..4]), (3, Ok(())))); // one by one, and then blocks
        assert!(matches!(reader.read_scaled(&mut out[4..20]), (16, Ok(()))));
        assert!(matches!(reader.read_scaled(&mut out[20..5002]), (4982, Ok(()))));
        assert!(out[1..5002] == floats[1..]);
        assert!(matches!(reader.read_scaled(&mut out), (count, Err(Error::IoError(_))) if count < 2));
    }
    // Floats have no other scale, and any pattern, as that of a NaN that signals (but through the x87 of i686).
    let nan = if cfg!(target_arch = "x86") { 0x7fc1_2345 } else { 0x7f81_2345 };
    let (mut file, patterns) = (Cursor::new(Vec::new()), [2.5, f32::from_bits(nan)]);
    let mut writer = WavWriter::new(&mut file, FLOATS).unwrap();
    assert_eq!(writer.write_scaled(&patterns).unwrap(), 0);
    writer.finalize().unwrap();
    file.rewind().unwrap();
    let mut out = [0.0; 3];
    let mut reader = WavReader::new(file).unwrap();
    assert!(matches!(reader.read_scaled(&mut out), (2, Ok(()))));
    assert_eq!(out.map(f32::to_bits), [0x4020_0000, nan, 0]);
    reader.seek(1).unwrap();
    assert_eq!(reader.samples::<f32>().next().unwrap().unwrap().to_bits(), nan);
}

// Where samples were decoded before they are asked for, and where the buffer of a file tears one.
#[test]
fn floats_of_a_file_follow_samples() {
    let integers: Vec<i32> = (0..20_000).map(|number| number * 419 - 4_190_000).collect();
    let path = Path::new("floats-after-samples");
    fs::write(&path, written(WavSpec { bits_per_sample: 24, ..MONO }, &integers)).unwrap();
    let (mut reader, mut out) = (WavReader::open(&path).unwrap(), vec![9.0f32; 20_000]);
    for integer in &integers[..3] {
        assert_eq!(reader.samples::<i32>().next().unwrap().unwrap(), *integer);
    }
    assert!(matches!(reader.read_scaled(&mut out[3..9]), (6, Ok(()))));
    assert!(matches!(reader.read_scaled(&mut out[9..19_000]), (18_991, Ok(()))));
    assert!(out[3..19_000].iter().zip(&integers[3..]).all(|(float, integer)| *float == *integer as f32 / 8_388_608.0));
    assert_eq!(reader.samples::<i32>().next().unwrap().unwrap(), integers[19_000]);
    assert!(matches!(reader.read_scaled(&mut out), (999, Ok(()))));
    assert_eq!(out[998], integers[19_999] as f32 / 8_388_608.0);
}

#[test]
fn doubles_are_scaled_too() {
    let spec = WavSpec { bits_per_sample: 32, ..MONO };
    let integers: Vec<i32> = (0..5001).map(|number| (number * 858_993i64 - 2_147_483_647) as i32).collect();
    let doubles: Vec<f64> = integers.iter().map(|number| f64::from(*number) / 2_147_483_648.0).collect();
    let mut file = Cursor::new(Vec::new());
    let mut writer = WavWriter::new(&mut file, spec).unwrap();
    assert_eq!((writer.write_scaled(&doubles).unwrap(), writer.write_scaled(&[-1.0, 1.0]).unwrap()), (0, 1));
    writer.finalize().unwrap();
    file.rewind().unwrap();
    let (mut reader, mut out) = (WavReader::new(&mut file).unwrap(), vec![9.0; 5004]);
    assert!(matches!(reader.read_scaled(&mut out), (5003, Ok(()))));
    assert!(out[..5001] == doubles[..] && out[5001] == -1.0 && out[5003] == 9.0);
    let (mut file, mut out) = (Cursor::new(Vec::new()), [0.0f64; 2]);
    let mut writer = WavWriter::new(&mut file, FLOATS).unwrap();
    assert!(matches!(writer.write_scaled(&[0.5, 1e39]), Err(Error::TooWide)));
    assert_eq!(writer.write_scaled(&[0.1, f64::INFINITY]).unwrap(), 0);
    writer.finalize().unwrap();
    file.rewind().unwrap();
    assert!(matches!(WavReader::new(file).unwrap().read_scaled(&mut out), (2, Ok(()))));
    assert_eq!(out, [f64::from(0.1f32), f64::INFINITY]);
}

#[test]
fn each_type_is_read_or_rejected() {
    let file = written(MONO, &[300i16, -300]);
    let mut reader = WavReader::new(&file[..]).unwrap();
    assert!(matches!(reader.samples::<i8>().next(), Some(Err(Error::TooWide))));
    assert!(matches!(reader.samples::<f32>().next(), Some(Err(Error::InvalidSampleFormat))));
    assert_eq!(reader.samples::<i32>().len(), 0);
    assert_eq!(
        WavReader::new(&file[..]).unwrap().into_samples::<i32>().collect::<Result<Vec<_>>>().unwrap(),
        [300, -300]
    );
    let floats = written(FLOATS, &[0.5f32, -0.0]);
    let read = WavReader::new(&floats[..]).unwrap().into_samples::<f32>().map(|sample| sample.unwrap().to_bits());
    assert_eq!(read.collect::<Vec<_>>(), [0.5f32.to_bits(), (-0.0f32).to_bits()]);
    let mut writer = WavWriter::new(Cursor::new(Vec::new()), MONO).unwrap();
    assert!(matches!(writer.write_sample(32768), Err(Error::TooWide)));
    assert!(matches!(writer.write_sample(0.5f32), Err(Error::Unsupported)));
    assert_eq!(writer.len(), 0);
    assert!(matches!(
        WavWriter::new(Cursor::new(Vec::new()), WavSpec { bits_per_sample: 12, ..MONO }),
        Err(Error::Unsupported)
    ));
    assert!(matches!(WavReader::new(&b"RIFX"[..]), Err(Error::FormatError("no RIFF tag found"))));
    assert_eq!(WavReader::new(&file[..43]).err().unwrap().to_string(), "Failed to read enough bytes.");
    // The reasons of hound 3.5.1, without advice, where the data length counts a part of a sample or of a frame.
    for (channels, length, reason) in
        [(1, 3, "data chunk length is not a multiple of sample size"), (2, 6, "invalid data chunk length")]
    {
        let mut file = written(WavSpec { channels, ..MONO }, &[1i16; 4]);
        file[40] = length;
        assert!(matches!(WavReader::new(&file[..]), Err(Error::FormatError(text)) if text == reason));
    }
}

#[test]
fn a_sample_of_the_other_format_is_taken_by_its_bits_or_unsupported() {
    for (bits, sample_format) in [
        (8, SampleFormat::Int),
        (16, SampleFormat::Int),
        (24, SampleFormat::Int),
        (32, SampleFormat::Int),
        (32, SampleFormat::Float),
    ] {
        let mut file = Cursor::new(Vec::new());
        let mut writer = WavWriter::new(&mut file, WavSpec { bits_per_sample: bits, sample_format, ..MONO }).unwrap();
        let result = writer.write_sample(0.5f32);
        assert!(if bits == 32 { result.is_ok() } else { matches!(result, Err(Error::Unsupported)) });
        if bits == 32 {
            writer.write_sample(-2i16).unwrap();
            writer.finalize().unwrap();
            assert!(file.get_ref().ends_with(&[0, 0, 0, 63, 254, 255, 255, 255]));
        }
    }
}

#[test]
fn a_new_file_has_its_header_at_once() {
    let path = Path::new("header");
    mem::forget(WavWriter::create(&path, MONO).unwrap());
    let mut header = written::<i16>(MONO, &[]);
    header[4..8].fill(0); // The RIFF size is 0 until the first `flush`, as that of hound is.
    assert_eq!(fs::read(&path).unwrap(), header);
    drop(WavWriter::create(&path, MONO).unwrap()); // which writes the sizes, as hound's does
    assert_eq!(fs::read(&path).unwrap(), written::<i16>(MONO, &[]));
    fs::write(&path, "longer than a header, which is emptied before the new one is written").unwrap();
    let writer = WavWriter::create_durable(&path, FLOATS).unwrap();
    assert_eq!(fs::read(&path).unwrap(), written::<f32>(FLOATS, &[]));
    drop(writer);
    assert_eq!(hound::repair_file(&path).unwrap().state, hound::RepairState::Whole);
}

#[test]
fn a_file_stays_as_it_is_where_the_spec_can_not_be_written() {
    let path = Path::new("kept");
    fs::write(&path, "before").unwrap();
    let wrong = WavSpec { bits_per_sample: 12, ..MONO };
    assert!(matches!(WavWriter::create(&path, wrong), Err(Error::Unsupported)));
    assert!(matches!(WavWriter::create_durable(&path, wrong), Err(Error::Unsupported)));
    assert_eq!(fs::read(&path).unwrap(), b"before");
    assert!(WavWriter::create(Path::new("none"), wrong).is_err() && !Path::new("none").0.exists());
}

#[test]
fn containers_are_written_and_read_by_the_trait() {
    let mut bytes = Vec::new();
    Sample::write(-2i16, &mut bytes, 16).unwrap();
    0x1234_56i32.write_padded(&mut bytes, 24, 4).unwrap();
    assert_eq!(bytes, [0xfe, 0xff, 0x56, 0x34, 0x12, 0]);
    assert!(matches!(1i16.write(&mut bytes, 12), Err(Error::Unsupported)));
    (-3i32).write(&mut bytes, 24).unwrap();
    assert_eq!(bytes.split_off(6), [0xfd, 0xff, 0xff]);
    let mut rest = &bytes[..];
    assert_eq!(i16::read(&mut rest, SampleFormat::Int, 2, 16).unwrap(), -2);
    assert_eq!(i32::read(&mut rest, SampleFormat::Int, 4, 24).unwrap(), 0x12_3456);
    assert!(rest.is_empty() && 70000i32.as_i16() == 4464);
}

/// A sample that writes so many bytes, whatever the file has.
struct Bytes(usize);

impl Sample for Bytes {
    fn write<W: Write>(self, _: &mut W, _: u16) -> Result<()> {
        unreachable!("a writer asks for containers")
    }
    fn write_padded<W: Write>(self, writer: &mut W, _: u16, _: u16) -> Result<()> {
        Ok(writer.write_all(&vec![7; self.0])?)
    }
    fn read<R: Read>(_: &mut R, _: SampleFormat, _: u16, _: u16) -> Result<Bytes> {
        unreachable!("it is written only")
    }
    fn as_i16(self) -> i16 {
        unreachable!("it is in no batch")
    }
}

#[test]
fn bytes_of_a_users_own_type_are_one_container_or_rejected() {
    let mut file = Cursor::new(Vec::new());
    let mut writer = WavWriter::new(&mut file, MONO).unwrap();
    for (bytes, len) in [(2, 1), (1, 1), (2, 2), (3, 2), (4, 2), (0, 2), (9, 2), (2, 3)] {
        let result = writer.write_sample(Bytes(bytes));
        assert!(if bytes == 2 { result.is_ok() } else { matches!(result, Err(Error::Unsupported)) });
        assert_eq!(writer.len(), len);
    }
    writer.finalize().unwrap();
    assert_eq!(file.get_ref()[40..], [6, 0, 0, 0, 7, 7, 7, 7, 7, 7]);
}

#[test]
fn samples_are_appended_in_containers_of_four_bytes() {
    let spec = WavSpec { bits_per_sample: 24, ..MONO };
    let mut file = Cursor::new(Vec::new());
    WavWriter::new_with_spec_ex(&mut file, WavSpecEx { spec, bytes_per_sample: 4 }).unwrap().write_sample(-3).unwrap();
    file.rewind().unwrap();
    WavWriter::new_append(&mut file).unwrap().write_sample(5).unwrap();
    assert_eq!(file.get_ref()[68..], [0xfd, 0xff, 0xff, 0, 5, 0, 0, 0]);
    file.rewind().unwrap();
    let mut reader = WavReader::new(file).unwrap();
    assert_eq!(reader.samples::<i32>().map(|sample| sample.unwrap()).collect::<Vec<_>>(), [-3, 5]);
    reader.seek(1).unwrap();
    assert_eq!(reader.samples::<i32>().next().unwrap().unwrap(), 5);
}

#[test]
fn a_file_is_appended_to_after_batches_and_flushes() {
    let path = Path::new("append");
    let mut writer = WavWriter::create(&path, MONO).unwrap();
    let mut batch = writer.get_i16_writer(2);
    batch.write_sample(1i16);
    #[allow(unused_unsafe)]
    unsafe {
        batch.write_sample_unchecked(2i16);
    }
    batch.flush().unwrap();
    writer.flush().unwrap();
    assert_eq!(WavReader::open(&path).unwrap().len(), 2);
    writer.write_samples(&[3i16, 4]).unwrap();
    assert!(matches!(writer.write_samples(&[5, 32768]), Err(Error::TooWide)));
    drop(writer);
    let mut appender = WavWriter::append(&path).unwrap();
    appender.write_sample(5i16).unwrap();
    appender.finalize().unwrap();
    let mut reader = WavReader::open(&path).unwrap();
    let mut block = [9i16; 6];
    assert!(matches!(reader.read_samples(&mut block[..2]), (2, Ok(()))));
    assert!(matches!(reader.read_samples(&mut block[2..]), (3, Ok(()))));
    assert_eq!(block, [1, 2, 3, 4, 5, 9]);
}

#[test]
fn a_batch_that_is_not_full_or_too_full_or_of_other_samples_panics() {
    let flushes = |spec, count| {
        catch_unwind(move || {
            let mut writer = WavWriter::new(Cursor::new(Vec::new()), spec).unwrap();
            let mut batch = writer.get_i16_writer(2);
            (0..count).for_each(|sample: i16| batch.write_sample(sample));
            batch.flush().unwrap();
        })
        .is_ok()
    };
    assert!(flushes(MONO, 2) && !flushes(MONO, 1) && !flushes(MONO, 3));
    assert!(!flushes(FLOATS, 2) && !flushes(WavSpec { bits_per_sample: 24, ..MONO }, 2));
    assert!(catch_unwind(|| 0.5f32.as_i16()).is_err());
}

#[test]
fn a_frame_that_is_not_finished_is_stored_and_reported() {
    for (way, frame) in (0..WAYS).flat_map(|way| [2, 3, 5, 6, 5000, 16383].map(|frame| (way, frame))) {
        let disk = Disk::default();
        let spec = WavSpec { channels: frame as u16, sample_rate: 8000, ..MONO };
        let rejects = |disk: &Disk| WavReader::new(Cursor::new(disk.contents())).map(drop);
        let mut writer = WavWriter::new(disk.clone(), spec).unwrap();
        write_by(way, &mut writer, 0, frame + 1).unwrap();
        assert!(matches!(writer.flush(), Err(Error::UnfinishedSample)));
        assert!((disk.counted(), writer.len() as usize, writer.duration()) == (numbers(frame + 1), frame + 1, 1));
        assert!(matches!(rejects(&disk), Err(Error::FormatError("invalid data chunk length"))));
        write_by(way, &mut writer, frame + 1, 2 * frame - 2).unwrap();
        assert!(matches!(writer.flush(), Err(Error::UnfinishedSample)));
        assert!((disk.counted(), writer.duration()) == (numbers(3 * frame - 1), 2));
        // The sample that finishes the frame makes readers take the file.
        write_by((way + 1) % WAYS, &mut writer, 3 * frame - 1, 1).unwrap();
        writer.flush().unwrap();
        assert!(disk.samples() == numbers(3 * frame));
        write_by(way, &mut writer, 3 * frame, frame - 1).unwrap();
        assert!(matches!(writer.finalize(), Err(Error::UnfinishedSample)));
        assert!(disk.counted() == numbers(4 * frame - 1));
    }
}

#[test]
fn a_writer_that_is_dropped_within_a_frame_leaves_all_samples_to_a_repair() {
    let path = Path::new("torn");
    // The pad byte after an odd number of bytes is a sample of 8 bits to a repair, and finishes the frame.
    for (bits, left) in [(8, &[0, -128][..]), (16, &[]), (24, &[])] {
        let broken = || {
            let spec = WavSpec { channels: 2, bits_per_sample: bits, ..MONO };
            let mut writer = WavWriter::create_durable(&path, spec).unwrap();
            (0..9000).for_each(|i| writer.write_sample(i % 100).unwrap());
            writer.flush().unwrap();
            (0..301).for_each(|i| writer.write_sample(i % 100).unwrap());
            panic!("a mistake of the program");
        };
        assert!(catch_unwind(AssertUnwindSafe(broken)).is_err());
        assert!(matches!(WavReader::open(&path), Err(Error::FormatError("invalid data chunk length"))));
        let found = hound::repair_file(&path).unwrap();
        assert_eq!((found.state, found.counted), (hound::RepairState::CutOff, 4650));
        let found = WavReader::open(&path).unwrap().into_samples::<i32>().map(|sample| sample.unwrap());
        assert!(found.eq((0..9000).chain(0..300).map(|i| i % 100).chain(left.iter().copied())));
    }
}

/// The header counts the blocks that had room, if they are whole frames, and else what was flushed.
#[test]
fn the_blocks_that_a_full_medium_holds_are_counted() {
    let sizes = [0, 1, 100, 2047, 2048, 2049, 6200, 9000];
    for (channels, held) in [1, 2, 6].into_iter().flat_map(|channels| sizes.map(|held| (channels, held))) {
        for end in ["finalize", "flush", "drop"] {
            let disk = Disk::default();
            let mut writer = WavWriter::new(disk.clone(), WavSpec { channels, ..MONO }).unwrap();
            let start = disk.contents().len();
            write_by(0, &mut writer, 0, 6).unwrap();
            writer.flush().unwrap();
            disk.0.borrow_mut().room = Some(start + 2 * (6 + held) + 1);
            let accepted = 6 + (6..12000).take_while(|&i| writer.write_sample(i as i16).is_ok()).count();
            assert!(accepted >= 6 + held);
            match end {
                "finalize" => assert!(writer.finalize().is_err()),
                "flush" => assert!(writer.flush().is_err()),
                _ => drop(writer),
            }
            let written = 6 + held / 2048 * 2048;
            assert!(disk.samples() == numbers(if written % usize::from(channels) == 0 { written } else { 6 }));
            assert!(disk.contents()[start..].chunks_exact(2).map(sample_of).eq(numbers(6 + held)));
        }
    }
}

#[test]
fn what_was_flushed_stays_after_a_fault_and_what_was_accepted_comes_later() {
    for (channels, bits) in [1, 2, 3, 5, 6].iter().flat_map(|&channels| [8, 16].map(|bits| (channels, bits))) {
        let disk = Disk::default();
        let mut writer = WavWriter::new(disk.clone(), WavSpec { channels, bits_per_sample: bits, ..MONO }).unwrap();
        let write = |writer: &mut WavWriter<Disk>, first: i32, last: i32| {
            (first..last).take_while(|i| writer.write_sample(i % 100).is_ok()).count()
        };
        assert_eq!((write(&mut writer, 0, 6000), writer.flush().is_ok()), (6000, true));
        let length = disk.contents().len();
        disk.0.borrow_mut().room = Some(length + 4097 * usize::from(bits / 8));
        let accepted = 6000 + write(&mut writer, 6000, 18000);
        assert!(accepted < 18000);
        assert!(writer.write_sample(1).is_err());
        let right = |count: usize| (0..count).map(|i| i as i16 % 100).collect::<Vec<_>>();
        let stored = disk.samples();
        assert!(stored == right(6000));
        disk.0.borrow_mut().room = None;
        assert_eq!(accepted + write(&mut writer, accepted as i32, 18000), 18000);
        writer.finalize().unwrap();
        assert!(disk.samples() == right(18000));
    }
}

#[test]
fn few_samples_make_no_call_of_the_medium() {
    for way in 0..WAYS {
        let disk = Disk::default();
        let mut writer = WavWriter::new(disk.clone(), WavSpec { channels: 2, ..MONO }).unwrap();
        (0..2044).step_by(4).for_each(|first| write_by(way, &mut writer, first, 4).unwrap());
        assert_eq!((disk.contents().len(), writer.len()), (44, 2044), "way {way}");
        (2044..20_000).step_by(7).for_each(|first| write_by(way, &mut writer, first, 7).unwrap());
        assert!(disk.0.borrow().calls < 20, "way {way}");
        writer.flush().unwrap();
        assert!(disk.counted() == numbers(2044 + (20_000 - 2044 + 6) / 7 * 7));
    }
}

#[test]
fn what_had_no_room_is_written_once_there_is_some() {
    let disk = Disk::default();
    let mut writer = WavWriter::new(disk.clone(), WavSpec { channels: 2, ..MONO }).unwrap();
    disk.0.borrow_mut().room = Some(44 + 2 * 3000);
    let accepted = (0..12000).take_while(|&i| writer.write_sample(i as i16).is_ok()).count();
    for _ in 0..3 {
        assert!(
            writer.flush().is_err() && writer.write_sample(7i16).is_err() && writer.write_samples(&[7i16; 8]).is_err()
        );
        assert!(writer.len() as usize == accepted && disk.samples().len() <= 3000);
    }
    disk.0.borrow_mut().room = None;
    writer.flush().unwrap();
    assert!(disk.samples() == numbers(accepted));
    write_by(0, &mut writer, accepted, 500).unwrap();
    writer.finalize().unwrap();
    assert_eq!(disk.contents(), written(WavSpec { channels: 2, ..MONO }, &numbers(accepted + 500)));
}

#[test]
fn a_write_that_is_interrupted_or_short_is_continued() {
    struct Slow(Disk, usize);
    impl Write for Slow {
        fn write(&mut self, bytes: &[u8]) -> io::Result<usize> {
            self.1 += 1;
            if self.1 % 3 == 0 {
                Err(io::ErrorKind::Interrupted.into())
            } else {
                self.0.write(&bytes[..(bytes.len() + 1) / 2])
            }
        }
        fn flush(&mut self) -> io::Result<()> {
            self.0.flush()
        }
    }
    impl Seek for Slow {
        fn seek(&mut self, to: SeekFrom) -> io::Result<u64> {
            self.0.seek(to)
        }
    }
    for way in 0..WAYS {
        let disk = Disk::default();
        let mut writer = WavWriter::new(Slow(disk.clone(), 0), MONO).unwrap();
        write_by(way, &mut writer, 0, 9000).unwrap();
        writer.finalize().unwrap();
        assert_eq!(disk.contents(), written(MONO, &numbers(9000)));
    }
}

/// The fault that a caller gets is the one that the medium returned, and no copy of its kind.
fn is_of_the_medium<T>(result: Result<T>) {
    match result {
        Err(Error::IoError(fault)) => assert_eq!(fault.to_string(), "the medium fails"),
        Ok(_) | Err(Error::UnfinishedSample) => {}
        Err(other) => panic!("{other:?}"),
    }
}

/// Each call of the medium fails, or panics, in turn, and some samples are written by each way: what a writer accepted
/// is there after that, and nothing else.
fn try_each_call(panics: bool) {
    for (way, channels) in (0..WAYS).flat_map(|way| [1, 2, 3].map(|channels| (way, channels))) {
        let counts = if way == 3 { [1, 20, 7, 21] } else { [1, 5000, 4500, 8] };
        for fails in 2.. {
            let (disk, mut accepted) = (Disk::default(), 0);
            let run = AssertUnwindSafe(|| {
                let mut writer = WavWriter::new(disk.clone(), WavSpec { channels, ..MONO }).unwrap();
                (disk.0.borrow_mut().fails, disk.0.borrow_mut().panics) = (fails, panics);
                for count in counts {
                    let result = write_by(way, &mut writer, accepted, count);
                    accepted = writer.len() as usize;
                    if result.is_err() {
                        is_of_the_medium(result);
                        break;
                    }
                    is_of_the_medium(if count == 8 || count == 21 { Ok(()) } else { writer.flush() });
                }
                is_of_the_medium(writer.finalize());
            });
            let has_panicked = catch_unwind(run).is_err();
            let is_met = disk.0.borrow().calls >= fails;
            assert_eq!(has_panicked, is_met && panics);
            // A call that panicked within may have accepted samples, and `finalize` may have panicked after all.
            let found = disk.counted();
            let most = if panics { found.len() } else { accepted };
            assert!(found == numbers(most) && most >= accepted, "call {fails}, way {way}");
            if !is_met {
                break;
            }
        }
    }
}

#[test]
fn a_call_that_fails_once_loses_nothing_that_was_accepted() {
    try_each_call(false);
}

#[test]
fn a_medium_that_panics_once_ends_no_program_and_loses_nothing_that_was_accepted() {
    try_each_call(true);
}

#[test]
fn a_fault_of_a_reader_is_returned_as_it_is_and_reading_continues() {
    for fails in 1..60 {
        let disk = Disk::default();
        disk.0.borrow_mut().file = Cursor::new(written(MONO, &numbers(100)));
        disk.0.borrow_mut().fails = fails;
        let mut reader = match WavReader::new(disk.clone()) {
            Ok(reader) => reader,
            error => {
                is_of_the_medium(error);
                continue;
            }
        };
        let mut block = [0i16; 7];
        for time in 0..9 {
            is_of_the_medium(reader.seek(time).map_err(Error::from));
            reader.samples::<i16>().take(2).for_each(is_of_the_medium);
            reader.samples::<Inverse>().take(2).for_each(is_of_the_medium);
            is_of_the_medium(reader.read_samples(&mut block).1);
        }
        reader.seek(50).unwrap();
        assert!(reader.samples::<i16>().map(|sample| sample.unwrap()).eq(50..100));
    }
}

#[test]
fn a_read_that_is_interrupted_is_an_error_as_by_hound_and_takes_no_byte() {
    /// Each second read is interrupted, or panics.
    struct Broken(Cursor<Vec<u8>>, usize, bool);
    impl Read for Broken {
        fn read(&mut self, bytes: &mut [u8]) -> io::Result<usize> {
            self.1 += 1;
            if self.1 % 2 == 0 || self.0.position() < 44 {
                return self.0.read(bytes);
            }
            assert!(!self.2, "the reader panics");
            Err(io::ErrorKind::Interrupted.into())
        }
    }
    impl Seek for Broken {
        fn seek(&mut self, to: SeekFrom) -> io::Result<u64> {
            self.0.seek(to)
        }
    }
    let file = || Cursor::new(written(MONO, &numbers(9)));
    let is_interrupted =
        |error: &Error| matches!(error, Error::IoError(fault) if fault.kind() == io::ErrorKind::Interrupted);
    let mut reader = WavReader::new(Broken(file(), 1, false)).unwrap();
    let items: Vec<_> = reader.samples::<i16>().map(|item| item.map_err(|error| is_interrupted(&error))).collect();
    assert_eq!(items, [Err(true), Ok(0), Err(true), Ok(1), Err(true), Ok(2), Err(true), Ok(3), Err(true)]);
    reader.seek(6).unwrap();
    let mut block = [9i16; 3];
    assert_eq!(reader.samples::<i16>().next().unwrap().unwrap(), 6);
    assert!(matches!(reader.read_samples(&mut block), (0, Err(error)) if is_interrupted(&error)));
    assert!(matches!(reader.read_samples(&mut block), (1, Ok(()))));
    assert_eq!(block, [7, 9, 9]);
    // A panic of the reader goes through, and the sample that was to be read comes next.
    let mut reader = WavReader::new(Broken(file(), 1, true)).unwrap();
    for number in 0..9 {
        let next = AssertUnwindSafe(|| reader.samples::<i16>().next());
        assert!(catch_unwind(next).is_err());
        assert_eq!(reader.samples::<i16>().next().unwrap().unwrap(), number);
    }
    assert!(reader.samples::<i16>().next().is_none());
    reader.seek(3).unwrap();
    assert_eq!(reader.samples::<i16>().len(), 6);
}

#[test]
fn a_writer_that_claims_more_bytes_than_it_was_given_took_these() {
    struct Boastful(Disk);
    impl Write for Boastful {
        fn write(&mut self, bytes: &[u8]) -> io::Result<usize> {
            self.0.write(bytes).map(|count| count + 7)
        }
        fn flush(&mut self) -> io::Result<()> {
            self.0.flush()
        }
    }
    impl Seek for Boastful {
        fn seek(&mut self, to: SeekFrom) -> io::Result<u64> {
            self.0.seek(to)
        }
    }
    for way in 0..WAYS {
        let disk = Disk::default();
        let mut writer = WavWriter::new(Boastful(disk.clone()), MONO).unwrap();
        write_by(way, &mut writer, 0, 5000).unwrap();
        writer.flush().unwrap();
        write_by(way, &mut writer, 5000, 4000).unwrap();
        writer.finalize().unwrap();
        assert_eq!(disk.contents(), written(MONO, &numbers(9000)));
    }
}

#[test]
fn a_writer_that_takes_no_byte_is_full() {
    let mut room = [0; 44 + 9];
    let mut writer = WavWriter::new(Cursor::new(&mut room[..]), MONO).unwrap();
    writer.write_sample(7i16).unwrap();
    writer.flush().unwrap();
    write_by(0, &mut writer, 0, 9).unwrap();
    for _ in 0..2 {
        match writer.flush() {
            Err(Error::IoError(fault)) => assert_eq!(fault.kind(), io::ErrorKind::WriteZero),
            other => panic!("{other:?}"),
        }
    }
    drop(writer);
    assert_eq!(WavReader::new(&room[..]).unwrap().into_samples().collect::<Result<Vec<i16>>>().unwrap(), [7]);
}

#[test]
fn a_writer_is_dropped_once_the_sizes_are_written() {
    /// What it has written when it is dropped.
    struct Last(Disk, Rc<RefCell<Vec<u8>>>);
    impl Write for Last {
        fn write(&mut self, bytes: &[u8]) -> io::Result<usize> {
            self.0.write(bytes)
        }
        fn flush(&mut self) -> io::Result<()> {
            self.0.flush()
        }
    }
    impl Seek for Last {
        fn seek(&mut self, to: SeekFrom) -> io::Result<u64> {
            self.0.seek(to)
        }
    }
    impl Drop for Last {
        fn drop(&mut self) {
            *self.1.borrow_mut() = self.0.contents();
        }
    }
    for finalizes in [true, false] {
        let last = Rc::default();
        let mut writer = WavWriter::new(Last(Disk::default(), Rc::clone(&last)), MONO).unwrap();
        writer.write_sample(5i16).unwrap();
        if finalizes {
            writer.finalize().unwrap();
        } else {
            drop(writer);
        }
        assert_eq!(*last.borrow(), written(MONO, &[5i16]));
    }
}

#[test]
fn a_medium_that_panics_always_ends_no_program() {
    struct Locked;
    impl Write for Locked {
        fn write(&mut self, bytes: &[u8]) -> io::Result<usize> {
            assert!(bytes.len() == 44, "a medium that is used by others");
            Ok(44)
        }
        fn flush(&mut self) -> io::Result<()> {
            panic!("a medium that is used by others")
        }
    }
    impl Seek for Locked {
        fn seek(&mut self, _: SeekFrom) -> io::Result<u64> {
            panic!("a medium that is used by others")
        }
    }
    if env::var_os("UNWINDS").is_none() {
        for way in 0..WAYS {
            let mut writer = WavWriter::new(Locked, MONO).unwrap();
            assert!(catch_unwind(AssertUnwindSafe(|| write_by(way, &mut writer, 0, 5000))).is_err());
        }
        drop(WavWriter::new(Locked, MONO).unwrap());
        // While a panic unwinds, old versions of Rust end the program with these words at another one, which is caught.
        let test = ["--exact", "a_medium_that_panics_always_ends_no_program"];
        let ran = Command::new(env::current_exe().unwrap()).args(test).env("UNWINDS", "1").output().unwrap();
        let said = String::from_utf8_lossy(&ran.stderr);
        assert!(ran.status.success() || said.contains("thread panicked while panicking"), "{said}");
        return;
    }
    for way in 0..WAYS {
        let run = || write_by(way, &mut WavWriter::new(Locked, MONO).unwrap(), 0, 5000);
        assert!(catch_unwind(run).is_err());
    }
    assert!(catch_unwind(|| WavWriter::new(Locked, MONO).unwrap().finalize()).is_err());
}

#[test]
fn a_type_of_a_users_own_is_written_and_read() {
    let mut file = Cursor::new(Vec::new());
    let mut writer = WavWriter::new(&mut file, MONO).unwrap();
    writer.write_sample(1i16).unwrap();
    writer.write_sample(Inverse(2)).unwrap();
    writer.write_samples(&[Inverse(3), Inverse(4)]).unwrap();
    writer.write_sample(5i16).unwrap();
    writer.finalize().unwrap();
    file.rewind().unwrap();
    let mut reader = WavReader::new(&mut file).unwrap();
    assert_eq!(reader.samples::<Inverse>().next().unwrap().unwrap(), Inverse(!1));
    assert_eq!(reader.samples::<i16>().map(|sample| sample.unwrap()).collect::<Vec<_>>(), [!2, !3, !4, 5]);
}

#[test]
fn nothing_is_taken_after_the_samples_that_were_asked_for() {
    let path = Path::new("exact");
    let mut file = written(MONO, &(0..20000).map(|i| i as i16).collect::<Vec<_>>());
    file.extend(b"more");
    fs::write(&path, &file).unwrap();
    let mut reader = WavReader::new(Cursor::new(&file)).unwrap();
    reader.samples::<i16>().take(3).for_each(drop);
    assert_eq!(reader.read_samples(&mut [0i16; 4]).0, 4);
    reader.samples::<i32>().nth(1);
    assert_eq!(reader.samples::<i16>().len(), 20000 - 9);
    assert_eq!(reader.into_inner().position(), 44 + 2 * 9);
    let mut opened = WavReader::open(&path).unwrap();
    assert_eq!(opened.samples::<i16>().nth(17000).unwrap().unwrap(), 17000);
    assert_eq!(opened.into_inner().stream_position().unwrap(), 44 + 2 * 17001);
    let mut rest = &file[..];
    assert_eq!(WavReader::new(&mut rest).unwrap().samples::<i16>().count(), 20000);
    assert_eq!(rest, b"more");
}

fn in_blocks<R: Read>(reader: &mut WavReader<R>, length: usize) -> Vec<i32> {
    let (mut samples, mut block) = (Vec::new(), vec![0; length]);
    loop {
        let (count, result) = reader.read_samples(&mut block);
        result.unwrap();
        samples.extend(&block[..count]);
        if count < length {
            return samples;
        }
    }
}

#[test]
fn blocks_have_the_samples_of_an_iterator() {
    let path = Path::new("blocks");
    for bits in [8, 16, 24, 32] {
        let samples: Vec<i32> = (0..30001i32).map(|i| i.wrapping_mul(0x1234_5677) >> (32 - bits)).collect();
        let mut file = written(WavSpec { bits_per_sample: bits, ..MONO }, &samples);
        let end = file.len() as u64 - u64::from(bits % 16 != 0); // before the pad byte
        file.extend(b"more");
        fs::write(&path, &file).unwrap();
        for length in [1, 2, 15, 16, 17, 1000, 4096, 4097, 40000] {
            let mut reader = WavReader::new(Cursor::new(&file)).unwrap();
            assert_eq!(in_blocks(&mut reader, length), samples);
            assert_eq!(reader.into_inner().position(), end);
            let mut opened = WavReader::open(&path).unwrap();
            assert_eq!(opened.samples::<i32>().next().unwrap().unwrap(), samples[0]);
            assert_eq!(in_blocks(&mut opened, length), samples[1..]);
            opened.seek(7).unwrap();
            assert!(matches!(opened.read_samples(&mut vec![0; length]), (count, Ok(())) if count == length.min(29994)));
            assert_eq!(opened.samples::<i32>().len(), 29994usize.saturating_sub(length));
            assert_eq!(
                opened.into_inner().stream_position().unwrap(),
                end - 29994usize.saturating_sub(length) as u64 * u64::from(bits / 8)
            );
        }
    }
}

#[test]
fn a_missing_or_rejected_sample_is_one_error() {
    let file = written(MONO, &(0..100).collect::<Vec<i16>>());
    let path = Path::new("missing");
    fs::write(&path, &file[..44 + 2 * 60 + 1]).unwrap();
    let mut reader = WavReader::open(&path).unwrap();
    let mut block = [9i16; 80];
    assert!(matches!(reader.read_samples(&mut block), (60, Err(Error::IoError(_)))));
    assert!(block[..60].iter().copied().eq(0..60) && block[60..] == [9; 20]);
    assert_eq!(reader.samples::<i16>().take(99).filter(|sample| matches!(sample, Err(Error::IoError(_)))).count(), 39);
    assert!(matches!(reader.read_samples(&mut block), (0, Ok(()))));
    reader.seek(3).unwrap();
    assert!(matches!(reader.read_samples(&mut [0i8; 20]), (0, Err(Error::TooWide))));
    assert_eq!(reader.samples::<i16>().len(), 96);
    assert!(matches!(reader.read_samples(&mut block[..20]), (20, Ok(()))));
    assert_eq!((reader.len(), reader.duration(), block[0]), (100, 100, 3));
}

#[test]
fn samples_that_no_type_reads_are_errors_by_each_call() {
    let mut file = written(WavSpec { bits_per_sample: 24, ..MONO }, &[1, 2, 3, 4]);
    file[38] = 12; // of 24
    let open = || WavReader::new(&file[..]).unwrap();
    let mut reader = open();
    assert!(matches!(reader.samples::<i32>().next(), Some(Err(Error::Unsupported))));
    assert_eq!(reader.samples::<i32>().len(), 3);
    let mut count = 0;
    open().samples::<i32>().for_each(|sample| {
        count += 1;
        assert!(matches!(sample, Err(Error::Unsupported)) && count <= 4);
    });
    assert_eq!((count, open().into_samples::<i32>().take(9).filter(Result::is_err).count()), (4, 4));
    assert!(matches!(open().read_samples(&mut [0i32; 20]), (0, Err(Error::Unsupported))));
}

#[test]
fn reading_goes_on_after_a_closure_that_panicked() {
    let path = Path::new("panicked");
    let file = written(MONO, &(0..9000).collect::<Vec<i16>>());
    fs::write(&path, &file).unwrap();
    fn go_on<R: Read + Seek>(mut reader: WavReader<R>, last: i16) {
        let fold = AssertUnwindSafe(|| reader.samples::<i16>().for_each(|sample| assert!(sample.unwrap() < last)));
        assert!(catch_unwind(fold).is_err());
        assert_eq!(reader.samples::<i16>().len(), 8999 - last as usize);
        assert_eq!(reader.samples::<i16>().next().unwrap().unwrap(), last + 1);
        // What rejects a sample takes none of its bytes, and a type of a user's own reads the next one.
        assert!(matches!(reader.samples::<f32>().next(), Some(Err(Error::InvalidSampleFormat))));
        assert_eq!(reader.samples::<Inverse>().next().unwrap().unwrap(), Inverse(!(last + 2)));
        assert!(matches!(reader.samples::<i8>().next(), Some(Err(Error::TooWide))));
        let mut block = [0i32; 4500];
        assert!(matches!(reader.read_samples(&mut block[..3]), (3, Ok(()))));
        let (count, result) = reader.read_samples(&mut block[3..]);
        assert!(result.is_ok() && block[..3 + count].iter().copied().eq((i32::from(last) + 3..).take(3 + count)));
        assert_eq!(reader.samples::<i16>().len(), 8992 - last as usize - count);
        reader.seek(7).unwrap();
        assert_eq!(reader.samples::<i32>().next().unwrap().unwrap(), 7);
        reader.seek(8000).unwrap();
        assert_eq!(reader.samples::<i16>().map(|sample| i32::from(sample.unwrap())).sum::<i32>(), 8499500);
        reader.seek(7).unwrap();
        let fold = AssertUnwindSafe(|| reader.samples::<i16>().for_each(|sample| assert!(sample.unwrap() < last + 7)));
        assert!(catch_unwind(fold).is_err());
        for frame in [20, 3, 8990] {
            reader.seek(frame).unwrap();
            assert!(reader.samples::<i32>().take(9).map(|sample| sample.unwrap()).eq((frame as i32..).take(9)));
        }
        assert_eq!(reader.into_inner().stream_position().unwrap(), 44 + 2 * 8999);
    }
    for last in [9, 4094, 4095, 4096, 5000] {
        go_on(WavReader::new(Cursor::new(&file)).unwrap(), last);
        go_on(WavReader::new(fs::File::open(&path).unwrap()).unwrap(), last);
        go_on(WavReader::open(&path).unwrap(), last);
    }
    // A sample that is torn stays so: its error comes after the samples that were read with it.
    let mut reader = WavReader::new(&file[..44 + 2 * 20 + 1]).unwrap();
    let fold = AssertUnwindSafe(|| reader.samples::<i16>().for_each(|sample| assert!(sample.unwrap() < 9)));
    assert!(catch_unwind(fold).is_err());
    assert!(matches!(reader.samples::<f32>().next(), Some(Err(Error::InvalidSampleFormat))));
    let rest: Vec<_> = reader.samples::<i16>().take(12).map(|sample| sample.ok()).collect();
    assert_eq!(rest, (10..20).map(Some).chain([None, None]).collect::<Vec<_>>());
}

#[test]
fn a_reader_that_claims_more_bytes_than_it_had_room_for_is_believed_as_by_hound() {
    struct Boastful(Cursor<Vec<u8>>);
    impl Read for Boastful {
        fn read(&mut self, bytes: &mut [u8]) -> io::Result<usize> {
            self.0.read(bytes).map(|count| if count < bytes.len() { count } else { count + 7 })
        }
    }
    impl Seek for Boastful {
        fn seek(&mut self, to: SeekFrom) -> io::Result<u64> {
            self.0.seek(to)
        }
    }
    let file = written(MONO, &numbers(9000));
    let open = || WavReader::new(Boastful(Cursor::new(file.clone()))).unwrap();
    let mut block = [0i16; 9000];
    assert!(matches!(open().read_samples(&mut block), (9000, Ok(()))));
    assert!(block[..] == numbers(9000));
    assert!(open().samples::<i16>().map(|sample| sample.unwrap()).eq(numbers(9000)));
    assert_eq!(open().samples::<i16>().fold(0, |sum, sample| sum + i32::from(sample.unwrap())), 40495500);
    assert!(open().samples::<Inverse>().map(|sample| !sample.unwrap().0).eq(numbers(9000)));
    let mut reader = open();
    assert_eq!(reader.samples::<Inverse>().nth(5).unwrap().unwrap(), Inverse(!5));
    reader.seek(3).unwrap();
    assert_eq!(reader.samples::<i16>().next().unwrap().unwrap(), 3);
    let mut rest = Boastful(Cursor::new(file[44..].to_vec()));
    assert!((0..9000).all(|number| i16::read(&mut rest, SampleFormat::Int, 2, 16).unwrap() == number));
}

#[test]
fn an_open_file_is_read_at_any_frame() {
    let path = Path::new("seek");
    let count = 100_000u32;
    fs::write(&path, written(WavSpec { bits_per_sample: 32, ..MONO }, &(0..count as i32).collect::<Vec<_>>())).unwrap();
    let (mut reader, mut frame) = (WavReader::open(&path).unwrap(), 1);
    for i in 0..4000 {
        // Near, and far away.
        frame = if i % 3 == 0 { (frame * 8191 + 1) % count } else { (frame + i % 40) % count };
        reader.seek(frame).unwrap();
        let wanted: Vec<_> = (frame as i32..count as i32).take([1, 2, 17, 70, 3000][i as usize % 5]).collect();
        assert!(reader.samples::<i32>().take(wanted.len()).map(|sample| sample.unwrap()).eq(wanted.iter().copied()));
    }
    reader.seek(count - 1).unwrap();
    assert_eq!(reader.samples::<i32>().map(|sample| sample.unwrap()).collect::<Vec<_>>(), [count as i32 - 1]);
    reader.seek(count + 5).unwrap();
    assert_eq!((reader.samples::<i32>().len(), reader.samples::<i32>().next().is_none()), (0, true));
}

#[test]
fn a_header_that_is_longer_than_a_buffer_is_found() {
    let (path, plain) = (Path::new("long-header"), written(MONO, &[1i16, -2, 3]));
    let chunk =
        |length: usize| [&b"LIST"[..], &(length as u32).to_le_bytes(), &vec![7; length], &[0][..length % 2]].concat();
    let (front, fmt, data) = (&plain[..12], &plain[12..36], &plain[36..]);
    let file = [front, &chunk(9001), &chunk(21).repeat(1000), fmt, &chunk(70_000), data].concat();
    for length in (0..file.len() - data.len()).step_by(997) {
        fs::write(&path, &file[..length]).unwrap();
        let errors = [WavReader::open(&path).err(), WavReader::new(&file[..length]).err()];
        let [open, new] = errors.map(|error| format!("{error:?}"));
        assert!(open == new && open.starts_with("Some"), "{length}: {open}, {new}");
    }
    fs::write(&path, &file).unwrap();
    let mut writer = WavWriter::append(&path).unwrap();
    writer.write_sample(4i16).unwrap();
    writer.finalize().unwrap();
    let samples: hound::Result<Vec<i16>> = WavReader::open(&path).unwrap().into_samples().collect();
    assert_eq!(samples.unwrap(), [1, -2, 3, 4]);
}

#[test]
fn a_file_that_was_cut_off_is_repaired() {
    let path = Path::new("repair");
    let mut writer = WavWriter::create_durable(&path, WavSpec { bits_per_sample: 8, ..MONO }).unwrap();
    writer.write_samples(&[1i8, 2, 3]).unwrap();
    writer.flush().unwrap();
    writer.write_samples(&[4i8, 5]).unwrap();
    let mut file = fs::read(&path).unwrap(); // as after a kill
    drop(writer);
    file.truncate(47);
    file[40..44].fill(0);
    fs::write(&path, &file).unwrap();
    let found = hound::repair_file(&path).unwrap();
    assert_eq!(
        (found.state, found.frames, found.left_over, found.counted, found.spec_ex.bytes_per_sample),
        (hound::RepairState::CutOff, 3, 0, 0, 1)
    );
    let samples = WavReader::open(&path).unwrap().into_samples::<i8>().collect::<Result<Vec<_>>>().unwrap();
    assert_eq!((samples, fs::metadata(&path).unwrap().len()), (vec![1, 2, 3], 48));
    assert_eq!(hound::repair_file(&path).unwrap().state, hound::RepairState::Whole);
}

#[test]
fn a_file_without_its_pad_byte_stays_as_it_is() {
    let path = Path::new("unpadded");
    // As hound 3.5.1 leaves odd data: with no pad byte, and a RIFF size that counts none.
    let mut file = written(WavSpec { bits_per_sample: 8, ..MONO }, &[1i8, 2, 3]);
    file.truncate(47);
    file[4..8].copy_from_slice(&39u32.to_le_bytes());
    fs::write(&path, &file).unwrap();
    let found = hound::repair_file(&path).unwrap();
    assert_eq!((found.state, found.frames, found.counted), (hound::RepairState::AllCounted, 3, 3));
    assert_eq!(fs::read(&path).unwrap(), file);
    assert_eq!(hound::repair_file_to_end(&path).unwrap().state, hound::RepairState::AllCounted);
    file.push(0);
    file[4..8].copy_from_slice(&40u32.to_le_bytes());
    assert_eq!(fs::read(&path).unwrap(), file);
}

#[test]
fn a_tag_after_the_data_is_taken_for_samples_only_on_demand() {
    let path = Path::new("tag");
    let mut file = written(MONO, &[1i16, 2, 3]);
    file[40..44].fill(0);
    file.extend(b"TAG");
    file.extend([0; 125]);
    fs::write(&path, &file).unwrap();
    assert_eq!(hound::repair_file(&path).unwrap().state, hound::RepairState::HasChunksAfterData);
    assert_eq!(fs::read(&path).unwrap(), file);
    let found = hound::repair_file_to_end(&path).unwrap();
    assert_eq!((found.state, found.frames, found.left_over), (hound::RepairState::CutOff, 3 + 64, 0));
    let samples = WavReader::open(&path).unwrap().into_samples::<i16>().collect::<Result<Vec<_>>>().unwrap();
    assert_eq!((samples.len(), &samples[..3]), (67, &[1, 2, 3][..]));
}

#[test]
fn a_file_is_appended_to_durably() {
    let path = Path::new("durable");
    fs::write(&path, written(MONO, &[1i16, 2])).unwrap();
    let mut writer = WavWriter::append_durable(&path).unwrap();
    writer.write_sample(3i16).unwrap();
    writer.flush().unwrap();
    assert_eq!(fs::read(&path).unwrap(), written(MONO, &[1i16, 2, 3]));
    writer.write_samples(&[4i16, 5]).unwrap();
    writer.finalize().unwrap();
    assert_eq!(fs::read(&path).unwrap(), written(MONO, &[1i16, 2, 3, 4, 5]));
    // What can't be synced is an error before it is read.
    match WavWriter::append_durable("/dev/null").map(drop) {
        Err(Error::IoError(error)) => assert_eq!(error.kind(), io::ErrorKind::InvalidInput),
        other => panic!("{other:?}"),
    }
}

#[test]
fn only_a_whole_file_without_chunks_is_appended_to_durably() {
    let path = Path::new("whole");
    let append = |file: &[u8]| {
        fs::write(&path, file).unwrap();
        let result = WavWriter::append_durable(&path).map(drop);
        assert!(result.is_ok() || fs::read(&path).unwrap() == file);
        result.map_err(|error| matches!(error, Error::IoError(error) if error.kind() == io::ErrorKind::InvalidData))
    };
    let file = written(MONO, &[1i16, 2, 3]);
    assert_eq!(append(&file), Ok(()));
    assert_eq!(append(&[&file[..], &[4, 0]].concat()), Err(true));
    assert_eq!(append(&[&file[..], &[4]].concat()), Ok(())); // as a repair leaves a torn frame
    assert_eq!(append(&[&file[..], b"LIST\x04\0\0\0INFO"].concat()), Err(true));
    assert_eq!(append(&file[..file.len() - 1]), Err(false));
    // A byte that isn't 0 is no pad byte after samples of one byte, and a sample is missing in front of one that is.
    let bytes = written(WavSpec { bits_per_sample: 8, ..MONO }, &[1i8, 2, 3]);
    assert_eq!((append(&bytes), append(&bytes[..47])), (Ok(()), Ok(())));
    assert_eq!(append(&[&bytes[..47], &[130]].concat()), Err(true));
    assert_eq!(append(&[&bytes[..], &[0]].concat()), Err(true));
    let wide = written(WavSpec { bits_per_sample: 24, ..MONO }, &[1, 2, 3]);
    let end = wide.len() - 1;
    assert_eq!((append(&wide), append(&wide[..end]), append(&[&wide[..end], &[7]].concat())), (Ok(()), Ok(()), Ok(())));
}

#[test]
fn what_follows_the_counted_samples_is_overwritten_as_by_hound() {
    let path = Path::new("overwritten");
    let file = written(MONO, &[1i16, 2, 3]);
    for rest in [&b"LIST\x04\0\0\0INFO"[..], &[4, 0, 5, 0, 6, 0, 7, 0], &[4]] {
        let longer = [&file[..], rest].concat();
        fs::write(&path, &longer).unwrap();
        let writer = WavWriter::append(&path).unwrap();
        drop(writer); // Nothing was appended.
        let mut writer = WavWriter::append(&path).unwrap();
        assert_eq!((writer.len(), fs::read(&path).unwrap()), (3, longer.clone()));
        writer.write_sample(9i16).unwrap();
        writer.finalize().unwrap();
        let mut medium = Cursor::new(longer.clone());
        WavWriter::new_append(&mut medium).unwrap().write_sample(9i16).unwrap();
        let mut expected = written(MONO, &[1i16, 2, 3, 9]);
        expected.extend(longer.get(expected.len()..).unwrap_or(&[]));
        assert_eq!((fs::read(&path).unwrap(), medium.into_inner()), (expected.clone(), expected));
    }
}

#[test]
fn nothing_is_appended_to_a_file_that_lacks_samples_which_it_counts() {
    let path = Path::new("lacking");
    let file = written(MONO, &[1i16; 4000]);
    fs::write(&path, &file[..2044]).unwrap();
    let eof = io::ErrorKind::UnexpectedEof;
    let lacks = |result: Result<()>| matches!(result, Err(Error::IoError(error)) if error.kind() == eof);
    assert!(lacks(WavWriter::append(&path).map(drop)) && lacks(WavWriter::append_durable(&path).map(drop)));
    assert_eq!(fs::read(&path).unwrap(), file[..2044]);
    let mut medium = Cursor::new(file[..2044].to_vec());
    assert!(lacks(WavWriter::new_append(&mut medium).map(drop)));
    assert_eq!(medium.into_inner(), file[..2044]);
    assert_eq!(hound::repair_file(&path).unwrap().frames, 1000);
    WavWriter::append(&path).unwrap().write_sample(2i16).unwrap();
    assert_eq!(WavReader::open(&path).unwrap().len(), 1001);
}

#[test]
#[cfg(target_os = "linux")]
fn a_file_is_emptied_only_once_its_folder_is_synced() {
    use std::os::unix::io::AsRawFd;
    let path = Path::new("unlinked");
    fs::write(&path, [9; 40000]).unwrap();
    let file = fs::File::open(&path).unwrap();
    fs::remove_file(&path).unwrap();
    // The name of an open file that is in no folder.
    let name = format!("/proc/self/fd/{}", file.as_raw_fd());
    assert!(matches!(WavWriter::create_durable(&name, MONO), Err(Error::IoError(_))));
    assert_eq!(fs::read(&name).unwrap(), [9; 40000]);
}

#[test]
fn a_file_that_was_opened_to_append_to_is_rejected() {
    let path = Path::new("at-its-end");
    let mut options = fs::OpenOptions::new();
    options.read(true).append(true).create(true);
    let rejects = |result: Result<()>| match result {
        Err(Error::IoError(error)) => error.kind() == io::ErrorKind::InvalidInput,
        _ => false,
    };
    let mut writer = WavWriter::new(io::BufWriter::new(options.open(&path).unwrap()), MONO).unwrap();
    writer.write_samples(&[1i16, 2, 3]).unwrap();
    assert!(rejects(writer.flush()) && rejects(writer.flush()) && rejects(writer.finalize()));
    // The samples are there, and the size that was to count them, once.
    assert_eq!(fs::read(&path).unwrap().len(), 44 + 6 + 4);
    fs::write(&path, written(MONO, &[1i16, 2])).unwrap();
    let mut writer = WavWriter::new_append(options.open(&path).unwrap()).unwrap();
    writer.write_sample(3i16).unwrap();
    assert!(rejects(writer.finalize()));
    options.append(false).write(true);
    fs::write(&path, written(MONO, &[1i16, 2])).unwrap();
    let mut writer = WavWriter::new_append(options.open(&path).unwrap()).unwrap();
    writer.write_sample(3i16).unwrap();
    writer.finalize().unwrap();
    assert_eq!(fs::read(&path).unwrap(), written(MONO, &[1i16, 2, 3]));
}

#[cfg(any(unix, windows))] // Elsewhere there are no such locks.
#[test]
fn two_of_this_crate_do_not_change_one_file() {
    fn is_locked<T>(result: Result<T>) -> bool {
        let text = "another program records to, appends to or repairs this file";
        let is = |error: &io::Error| error.kind() == io::ErrorKind::WouldBlock && error.to_string() == text;
        result.map_or_else(|error| matches!(error, Error::IoError(error) if is(&error)), |_| false)
    }
    let path = Path::new("locked");
    let mut writer = WavWriter::create_durable(&path, MONO).unwrap();
    writer.write_sample(1i16).unwrap();
    for _ in 0..2 {
        assert!(is_locked(WavWriter::create_durable(&path, MONO)) && is_locked(WavWriter::append_durable(&path)));
        assert!(is_locked(hound::repair_file(&path)) && is_locked(hound::repair_file_to_end(&path)));
        writer.finalize().unwrap();
        writer = WavWriter::append_durable(&path).unwrap();
    }
    // As hound's, these look at no lock.
    drop((WavReader::open(&path).unwrap(), WavWriter::append(&path).unwrap()));
    assert_eq!(fs::read(&path).unwrap(), written(MONO, &[1i16]));
}

#[test]
fn a_file_that_is_open_is_locked_once() {
    let path = Path::new("lock");
    let open = || fs::OpenOptions::new().append(true).create(true).open(&path).unwrap();
    let file = open();
    hound::lock(&file).unwrap();
    assert_eq!(hound::lock(&file).is_ok(), !cfg!(windows));
    if cfg!(any(unix, windows)) {
        let error = hound::lock(&open()).unwrap_err();
        assert_eq!((error.kind(), error.to_string().len()), (io::ErrorKind::WouldBlock, 59));
    }
    drop(file);
    hound::lock(&open()).unwrap();
}

#[test]
#[cfg(target_os = "linux")]
fn a_file_without_an_end_is_not_repaired() {
    assert!(matches!(hound::repair_file("/dev/zero"), Err(Error::FormatError("no RIFF tag found"))));
    assert!(matches!(hound::repair_file_to_end("/dev/null"), Err(Error::IoError(_))));
}

/// A trait of a user's own has the names that its types have, but for those of hound.
mod of_a_codec {
    use hound::*;

    trait Codec {
        const CODING: u32;
    }

    impl Codec for i16 {
        const CODING: u32 = 16;
    }

    fn bits<S: Sample + Codec>() -> u32 {
        S::CODING
    }

    #[test]
    fn a_constant_of_a_user_means_the_same() {
        assert_eq!((bits::<i16>(), i16::CODING), (16, 16));
    }
}

mod of_a_user {
    use hound::*;
    use std::io::{Cursor, Read, Seek, Write};

    /// Floats in files of integers of 16 bits, by the names of the blocks that hound doesn't have.
    trait Floats {
        fn write_samples(&mut self, samples: &[f32]) -> Result<()>;
    }

    impl<W: Write + Seek> Floats for WavWriter<W> {
        fn write_samples(&mut self, samples: &[f32]) -> Result<()> {
            samples.iter().try_for_each(|sample| self.write_sample((sample * 32767.0) as i16))
        }
    }

    trait ToFloats {
        fn read_samples(&mut self, samples: &mut [f32]) -> usize;
    }

    impl<R: Read> ToFloats for WavReader<R> {
        fn read_samples(&mut self, samples: &mut [f32]) -> usize {
            let read = self.samples::<i16>().map(|sample| f32::from(sample.unwrap()) / 32767.0);
            samples.iter_mut().zip(read).map(|(slot, sample)| *slot = sample).count()
        }
    }

    #[test]
    fn a_trait_of_a_user_means_the_same() {
        let (mut file, mut samples) = (Cursor::new(Vec::new()), [0.0; 3]);
        let mut writer = WavWriter::new(&mut file, super::MONO).unwrap();
        writer.write_samples(&[1.0, -1.0, 0.5]).unwrap();
        writer.finalize().unwrap();
        assert_eq!(file.get_ref()[44..], [0xff, 0x7f, 1, 0x80, 0xff, 0x3f]);
        file.set_position(0);
        assert_eq!(WavReader::new(file).unwrap().read_samples(&mut samples), 3);
        assert_eq!(samples[..2], [1.0, -1.0]);
    }
}

#[test]
#[allow(deprecated)]
fn errors_and_formats_are_as_those_of_hound() {
    use std::error::Error as _;
    let error = Error::IoError(io::Error::new(io::ErrorKind::Other, "full"));
    assert!(error.source().is_none() && error.cause().unwrap().to_string() == "full");
    assert!(Error::TooWide.source().is_none() && Error::TooWide.cause().is_none());
    assert_eq!((SampleFormat::Float as u8, SampleFormat::Int as u8), (0, 1));
}

#[test]
fn errors_of_machines_and_slices_become_those_of_hound() {
    let no_tag = Unrepairable::Head(Cause::Format(Reason::NoRiffTag));
    for (error, text) in [
        (RepairError::Rejected(no_tag).into(), "Ill-formed WAVE file: no RIFF tag found"),
        (Error::from(Cause::Ended), "Failed to read enough bytes."),
        (RepairError::Rejected(Unrepairable::TooLong).into(), "the sizes of the file would not fit in 32 bits"),
        (RepairError::Failed(FailedAction::Sync).into(), "a sync failed: nobody knows what is stored"),
        (RepairError::Failed(FailedAction::Call).into(), "the file could not be read or written"),
        (RecorderError::NeedsCheckpoint.into(), "a write failed: a checkpoint has to come first"),
        (CallError::NoRoom.into(), "more bytes are needed than there are"),
        (CallError::Truncated.into(), "the file lacks samples that its header counts"),
    ] {
        assert_eq!(error.to_string(), text);
    }
    assert!(matches!(Error::from(CallError::OtherFormat), Error::InvalidSampleFormat));
    assert!(matches!(Error::from(CallError::TooWide), Error::TooWide));
    assert!(matches!(Error::from(CallError::NotWritable), Error::Unsupported));
    assert!(matches!(Error::from(CallError::Head(Cause::Unsupported)), Error::Unsupported));
    assert!(matches!(Error::from(CallError::UnfinishedFrame), Error::UnfinishedSample));
}

#[test]
fn readers_and_writers_are_sent_shared_and_survive_panics() {
    fn can_be<T: Send + Sync + std::panic::UnwindSafe + std::panic::RefUnwindSafe>() {}
    can_be::<WavReader<io::BufReader<fs::File>>>();
    can_be::<hound::WavIntoSamples<io::BufReader<fs::File>, i16>>();
    can_be::<WavWriter<io::BufWriter<fs::File>>>();
}

/// A file of 4 GiB, of which only the header is kept.
struct Long {
    header: Cursor<Vec<u8>>,
    place: u64,
}

impl Read for Long {
    fn read(&mut self, bytes: &mut [u8]) -> io::Result<usize> {
        self.header.set_position(self.place);
        let count = self.header.read(bytes)?;
        self.place += count as u64;
        Ok(count)
    }
}

impl Write for Long {
    fn write(&mut self, bytes: &[u8]) -> io::Result<usize> {
        self.header.set_position(self.place);
        if self.place < self.header.get_ref().len() as u64 {
            self.header.write_all(bytes)?;
        }
        self.place += bytes.len() as u64;
        Ok(bytes.len())
    }
    fn flush(&mut self) -> io::Result<()> {
        Ok(())
    }
}

impl Seek for Long {
    fn seek(&mut self, to: SeekFrom) -> io::Result<u64> {
        self.place = match to {
            SeekFrom::Start(place) => place,
            _ => return Err(io::ErrorKind::Unsupported.into()),
        };
        Ok(self.place)
    }
}

#[test]
fn a_file_gets_no_longer_than_its_sizes_count() {
    let mut header = written::<i16>(MONO, &[]);
    header[40..44].copy_from_slice(&(4_294_967_258u32 - 2 * 4100).to_le_bytes());
    let mut file = Long { header: Cursor::new(header), place: 0 };
    let mut writer = WavWriter::new_append(&mut file).unwrap();
    writer.write_sample(1i16).unwrap();
    writer.write_samples(&[2i16; 4090]).unwrap();
    assert!(matches!(writer.write_samples(&[3i16; 10]), Err(Error::IoError(_))));
    assert_eq!((0..20).filter(|_| writer.write_sample(3i16).is_ok()).count(), 9);
    assert!(matches!(writer.write_sample(3i16), Err(Error::IoError(_))));
    assert_eq!(writer.len(), 4_294_967_258 / 2);
    writer.finalize().unwrap();
    let header = file.header.into_inner();
    assert_eq!(
        (&header[4..8], &header[40..]),
        (&(4_294_967_294u32).to_le_bytes()[..], &(4_294_967_258u32).to_le_bytes()[..])
    );
}

#[test]
fn the_longest_file_has_room_for_what_is_buffered() {
    for channels in [2, 3, 7] {
        let frame = 2 * u32::from(channels);
        let mut header = written::<i16>(WavSpec { channels, ..MONO }, &[]);
        let start = header.len();
        // The RIFF size counts all but the first 8 bytes, and data of an even length.
        let most = (u32::MAX - (start as u32 - 8)) / 2 * 2;
        let before = most / frame * frame - 1000 * frame;
        header[start - 4..].copy_from_slice(&before.to_le_bytes());
        let mut file = Long { header: Cursor::new(header), place: 0 };
        let mut writer = WavWriter::new_append(&mut file).unwrap();
        let mut count = 0;
        for i in 0..4000 {
            count += (0..100).filter(|_| writer.write_sample(3i16).is_ok()).count();
            assert!(i % 3 > 0 || matches!(writer.flush(), Ok(()) | Err(Error::UnfinishedSample)));
        }
        assert_eq!(count as u32, (most - before) / 2);
        assert_eq!(writer.finalize().is_ok(), most % frame == 0);
        assert_eq!(file.header.into_inner()[start - 4..], most.to_le_bytes());
    }
}
