// The workloads of `bench` in crates/hound_examples over the original crate, in the same words: CASE N FILE. It
// prints the same line, so the sums over what was read or written can be compared. A case of blocks
// is the original's iterator, or its `write_sample`, since it has no blocks.
use hound::{Sample, SampleFormat, WavReader, WavSpec, WavWriter};
use std::io::{self, Cursor};
use std::time::Instant;

type Answer = hound::Result<(u64, u128, i64)>;

fn mixed(index: u32) -> u32 {
    index.wrapping_mul(2_654_435_761)
}

trait Pattern {
    type Sample: Sample + Copy;
    const BITS: u16;
    const FORMAT: SampleFormat = SampleFormat::Int;
    fn sample(index: u32) -> Self::Sample;
    fn value(sample: Self::Sample) -> i64;
    fn spec(channels: u16) -> WavSpec {
        WavSpec {
            channels,
            sample_rate: 44100,
            bits_per_sample: Self::BITS,
            sample_format: Self::FORMAT,
        }
    }
}

macro_rules! integers {
    ($name:ident, $sample:ty, $bits:expr, $shift:expr) => {
        struct $name;
        impl Pattern for $name {
            type Sample = $sample;
            const BITS: u16 = $bits;
            fn sample(index: u32) -> $sample {
                ((mixed(index) as i32) >> $shift) as $sample
            }
            fn value(sample: $sample) -> i64 {
                sample as i64
            }
        }
    };
}
integers!(Eight, i8, 8, 24);
integers!(Sixteen, i16, 16, 16);
integers!(TwentyFour, i32, 24, 8);
integers!(ThirtyTwo, i32, 32, 0);

struct Float;
impl Pattern for Float {
    type Sample = f32;
    const BITS: u16 = 32;
    const FORMAT: SampleFormat = SampleFormat::Float;
    fn sample(index: u32) -> f32 {
        f32::from_bits(mixed(index) & 0xbfff_ffff)
    }
    fn value(sample: f32) -> i64 {
        sample.to_bits() as i64
    }
}

fn written(file: &[u8], nanoseconds: u128) -> (u64, u128, i64) {
    let check = file.iter().map(|byte| *byte as i64).sum();
    (file.len() as u64, nanoseconds, check)
}

fn full<P: Pattern>(count: u32) -> Vec<u8> {
    let header = if P::BITS <= 16 { 44 } else { 68 };
    vec![0; header + count as usize * (P::BITS as usize / 8)]
}

fn write_all<P: Pattern, W: io::Write + io::Seek>(mut writer: WavWriter<W>, count: u32) -> hound::Result<()> {
    for index in 0..count {
        writer.write_sample(P::sample(index))?;
    }
    writer.finalize()
}

fn write_flushing<P: Pattern, W: io::Write + io::Seek>(mut writer: WavWriter<W>, count: u32) -> hound::Result<()> {
    for index in 0..count {
        writer.write_sample(P::sample(index))?;
        if index % 4800 == 4799 {
            writer.flush()?;
        }
    }
    writer.finalize()
}

fn write_batches<W: io::Write + io::Seek>(mut writer: WavWriter<W>, count: u32) -> hound::Result<()> {
    let mut first = 0;
    while first < count {
        let length = (count - first).min(1024);
        let mut batch = writer.get_i16_writer(length);
        for index in first..first + length {
            batch.write_sample(Sixteen::sample(index));
        }
        batch.flush()?;
        first += length;
    }
    writer.finalize()
}

fn file_of<P: Pattern>(channels: u16, count: u32) -> hound::Result<Vec<u8>> {
    let mut bytes = Cursor::new(Vec::new());
    write_all::<P, _>(WavWriter::new(&mut bytes, P::spec(channels))?, count)?;
    Ok(bytes.into_inner())
}

fn read_all<P: Pattern, R: io::Read>(mut reader: WavReader<R>) -> hound::Result<i64> {
    let mut sum = 0i64;
    for sample in reader.samples::<P::Sample>() {
        sum = sum.wrapping_add(P::value(sample?));
    }
    Ok(sum)
}

fn seek_often<R: io::Read + io::Seek>(mut reader: WavReader<R>, count: u32) -> hound::Result<i64> {
    let frames = reader.duration();
    let (mut sum, mut time) = (0i64, 0);
    for _ in 0..count {
        reader.seek(time)?;
        if let Some(sample) = reader.samples::<f32>().next() {
            sum = sum.wrapping_add(Float::value(sample?));
        }
        time += 1000;
        if time >= frames {
            time = 0;
        }
    }
    Ok(sum)
}

/// Times this work on a writer into memory of its full size.
fn into_memory<P: Pattern>(
    count: u32,
    work: impl FnOnce(WavWriter<&mut Cursor<Vec<u8>>>) -> hound::Result<()>,
) -> Answer {
    let mut bytes = Cursor::new(full::<P>(count));
    let start = Instant::now();
    work(WavWriter::new(&mut bytes, P::spec(1))?)?;
    let time = start.elapsed().as_nanos();
    Ok(written(bytes.get_ref(), time))
}

/// Times this work on a writer into a file.
fn into_file<P: Pattern>(
    channels: u16,
    path: &str,
    work: impl FnOnce(WavWriter<io::BufWriter<std::fs::File>>) -> hound::Result<()>,
) -> Answer {
    let start = Instant::now();
    work(WavWriter::create(path, P::spec(channels))?)?;
    let time = start.elapsed().as_nanos();
    Ok(written(&std::fs::read(path)?, time))
}

fn write_memory<P: Pattern>(count: u32) -> Answer {
    into_memory::<P>(count, |writer| write_all::<P, _>(writer, count))
}

fn read_memory<P: Pattern>(count: u32) -> Answer {
    let file = file_of::<P>(1, count)?;
    let start = Instant::now();
    let check = read_all::<P, _>(WavReader::new(&file[..])?)?;
    Ok((file.len() as u64, start.elapsed().as_nanos(), check))
}

fn write_file<P: Pattern>(channels: u16, count: u32, path: &str) -> Answer {
    into_file::<P>(channels, path, |writer| write_all::<P, _>(writer, count))
}

fn read_file<P: Pattern>(channels: u16, count: u32, path: &str) -> Answer {
    let file = file_of::<P>(channels, count)?;
    std::fs::write(path, &file)?;
    let start = Instant::now();
    let check = read_all::<P, _>(WavReader::open(path)?)?;
    Ok((file.len() as u64, start.elapsed().as_nanos(), check))
}

fn measure(case: &str, count: u32, path: &str) -> Answer {
    let name = case.replace("_block_64_", "_").replace("_block_2_", "_").replace("_block_", "_");
    match name.as_str() {
        "write_i8_mem" => write_memory::<Eight>(count),
        "write_i16_mem" => write_memory::<Sixteen>(count),
        "write_i24_mem" => write_memory::<TwentyFour>(count),
        "write_i32_mem" => write_memory::<ThirtyTwo>(count),
        "write_f32_mem" => write_memory::<Float>(count),
        "write_i8_file" => write_file::<Eight>(1, count, path),
        "write_i16_file" => write_file::<Sixteen>(1, count, path),
        "write_i16_stereo_file" => write_file::<Sixteen>(2, count, path),
        "write_i24_file" => write_file::<TwentyFour>(1, count, path),
        "write_i32_file" => write_file::<ThirtyTwo>(1, count, path),
        "write_f32_file" => write_file::<Float>(1, count, path),
        "read_i8_mem" => read_memory::<Eight>(count),
        "read_i16_mem" => read_memory::<Sixteen>(count),
        "read_i24_mem" => read_memory::<TwentyFour>(count),
        "read_i32_mem" => read_memory::<ThirtyTwo>(count),
        "read_f32_mem" => read_memory::<Float>(count),
        "read_i8_file" => read_file::<Eight>(1, count, path),
        "read_i16_file" => read_file::<Sixteen>(1, count, path),
        "read_i16_stereo_file" => read_file::<Sixteen>(2, count, path),
        "read_i24_file" => read_file::<TwentyFour>(1, count, path),
        "read_i32_file" => read_file::<ThirtyTwo>(1, count, path),
        "read_f32_file" => read_file::<Float>(1, count, path),
        "write_i16_mem_grow" => {
            let mut bytes = Cursor::new(Vec::new());
            let start = Instant::now();
            write_all::<Sixteen, _>(WavWriter::new(&mut bytes, Sixteen::spec(1))?, count)?;
            let time = start.elapsed().as_nanos();
            Ok(written(bytes.get_ref(), time))
        }
        "batch_i16_mem" => into_memory::<Sixteen>(count, |writer| write_batches(writer, count)),
        "batch_i16_file" => into_file::<Sixteen>(1, path, |writer| write_batches(writer, count)),
        "flush_i16_mem" => {
            into_memory::<Sixteen>(count, |writer| write_flushing::<Sixteen, _>(writer, count))
        }
        "flush_i16_file" => {
            into_file::<Sixteen>(1, path, |writer| write_flushing::<Sixteen, _>(writer, count))
        }
        "seek_f32_mem" => {
            let reader = WavReader::new(Cursor::new(file_of::<Float>(1, 1_000_000)?));
            let start = Instant::now();
            let check = seek_often(reader?, count)?;
            Ok((4 * count as u64, start.elapsed().as_nanos(), check))
        }
        "seek_f32_file" => {
            std::fs::write(path, file_of::<Float>(1, 1_000_000)?)?;
            let start = Instant::now();
            let check = seek_often(WavReader::open(path)?, count)?;
            Ok((4 * count as u64, start.elapsed().as_nanos(), check))
        }
        "open_mem" => {
            let file = file_of::<Sixteen>(1, 16)?;
            let start = Instant::now();
            let mut sum = 0i64;
            for _ in 0..count {
                sum += WavReader::new(&file[..])?.len() as i64;
            }
            Ok((file.len() as u64 * count as u64, start.elapsed().as_nanos(), sum))
        }
        _ => {
            eprintln!("unknown case: {case}");
            std::process::exit(2);
        }
    }
}

fn main() {
    let words: Vec<String> = std::env::args().collect();
    let count: u32 = words[2].parse().unwrap();
    let (bytes, nanoseconds, check) = measure(&words[1], count, &words[3]).unwrap();
    println!("{} {count} {bytes} {nanoseconds} {check}", words[1]);
}
