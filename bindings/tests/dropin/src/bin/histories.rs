//! Made-up files read by both crates, and files written by both, by the same calls: the same answers and bytes, but for
//! what docs/USING.md lists. A listed difference is looked at, too: the package does with a file or with calls what the
//! original does with those that lack the reason.   histories COUNT
use dropin::{both, Chooser, Tally};
use std::io::{Cursor, Read, Seek};
use std::panic::{catch_unwind, set_hook, AssertUnwindSafe};
use std::path::Path;

both! {
    use hound::{Error, Result, Sample, SampleFormat, WavReader, WavSpec, WavSpecEx, WavWriter};

    // A type of a user's own: integers of 16 bits, upside down.
    #[derive(Clone, Copy)]
    struct Own(i16);

    impl Sample for Own {
        fn write<W: std::io::Write>(self, writer: &mut W, bits: u16) -> Result<()> {
            (!self.0).write(writer, bits)
        }
        fn write_padded<W: std::io::Write>(self, writer: &mut W, bits: u16, byte_width: u16) -> Result<()> {
            (!self.0).write_padded(writer, bits, byte_width)
        }
        fn read<R: Read>(reader: &mut R, format: SampleFormat, bytes: u16, bits: u16) -> Result<Own> {
            i16::read(reader, format, bytes, bits).map(|sample| Own(!sample))
        }
        fn as_i16(self) -> i16 {
            self.0
        }
    }

    // Takes a container of any kind.
    struct Skipped;

    impl Sample for Skipped {
        fn write<W: std::io::Write>(self, _: &mut W, _: u16) -> Result<()> {
            Ok(())
        }
        fn write_padded<W: std::io::Write>(self, _: &mut W, _: u16, _: u16) -> Result<()> {
            Ok(())
        }
        fn read<R: Read>(reader: &mut R, _: SampleFormat, bytes: u16, _: u16) -> Result<Skipped> {
            std::io::copy(&mut reader.take(bytes.into()), &mut std::io::sink())?;
            Ok(Skipped)
        }
        fn as_i16(self) -> i16 {
            0
        }
    }

    fn show<T>(result: Option<Result<T>>, show: impl Fn(T) -> String) -> String {
        match result {
            None => "None ".into(),
            Some(Ok(sample)) => show(sample) + " ",
            Some(Err(error)) => format!("[{error:?}] "),
        }
    }

    // Goes to a frame as a new reader that reads up to it would.
    fn go_anew<R: Read>(mut reader: WavReader<R>, time: u32) -> WavReader<R> {
        let samples = time * u32::from(reader.spec().channels);
        reader.samples::<Skipped>().take(samples as usize).for_each(drop);
        reader
    }

    pub fn read(bytes: &[u8], seed: u64, seeks: bool) -> String {
        read_by(|| WavReader::new(Cursor::new(bytes)), seed, seeks)
    }

    #[allow(dead_code)] // The package reads ahead there.
    pub fn read_opened(path: &Path, seed: u64) -> String {
        read_by(|| WavReader::open(path), seed, true)
    }

    fn read_by<R: Read + Seek>(open: impl Fn() -> Result<WavReader<R>>, seed: u64, seeks: bool) -> String {
        let mut reader = match open() {
            Ok(reader) => reader,
            Err(error) => return format!("Err {error:?}"),
        };
        let (spec, mut chooser) = (reader.spec(), Chooser::new(seed));
        let mut answers = format!("{spec:?} {} {}: ", reader.len(), reader.duration());
        for _ in 0..60 {
            let time = chooser.below(u64::from(reader.duration()).min(20) + 1) as u32;
            answers += &match chooser.below(if seed % 3 == 0 { 12 } else { 11 }) {
                0 => show(reader.samples::<i8>().next(), |sample| sample.to_string()),
                1 | 2 => show(reader.samples::<i16>().next(), |sample| sample.to_string()),
                3 => show(reader.samples::<f32>().next(), |sample| sample.to_bits().to_string()),
                4 => show(reader.samples::<Own>().next(), |sample| sample.0.to_string()),
                11 if seeks => format!("seek {:?} ", reader.seek(time).is_ok()),
                11 => {
                    reader = go_anew(open().unwrap(), time);
                    "seek true ".into()
                }
                _ if spec.sample_format == SampleFormat::Float => {
                    show(reader.samples::<f32>().next(), |sample| sample.to_bits().to_string())
                }
                _ => show(reader.samples::<i32>().next(), |sample| sample.to_string()),
            };
        }
        let mut rest = reader.into_inner();
        answers + &rest.by_ref().bytes().count().to_string()
    }

    #[allow(deprecated)]
    fn shown(result: Result<()>) -> String {
        use std::error::Error;
        result.map_or_else(|error| format!("[{error}, {}] ", error.description()), |()| "Ok ".into())
    }

    /// What the calls return, and the file. After a flush within a frame the original writes to a wrong place: so such
    /// a flush may be passed over.
    pub fn write(seed: u64, flushes_torn: bool) -> (String, Vec<u8>) {
        let mut chooser = Chooser::new(seed);
        let (bits, width, sample_format) = chooser.one_of(&[
            (8, 1, SampleFormat::Int),
            (16, 2, SampleFormat::Int),
            (24, 3, SampleFormat::Int),
            (24, 4, SampleFormat::Int),
            (32, 4, SampleFormat::Int),
            (32, 4, SampleFormat::Float),
            (12, 2, SampleFormat::Int),
        ]);
        let channels = 1 + chooser.below(3) as u16;
        let spec = WavSpec {
            channels,
            sample_rate: 8000 + chooser.below(90_000) as u32,
            bits_per_sample: bits,
            sample_format,
        };
        let mut answers = String::new();
        let mut file = Cursor::new(Vec::new());
        for session in 0..if bits == 12 || (bits, width) == (24, 4) { 1 } else { 1 + chooser.below(3) } {
            file.rewind().unwrap();
            let begun = match session {
                0 => WavWriter::new_with_spec_ex(&mut file, WavSpecEx { spec, bytes_per_sample: width }),
                _ => WavWriter::new_append(&mut file),
            };
            let Ok(mut writer) = begun.map_err(|error| answers += &format!("{error}; ")) else { continue };
            let is_long = chooser.below(40) == 0;
            for _ in 0..chooser.below(30) {
                let sample = (chooser.next() >> (32 + chooser.below(32))) as i32;
                answers += &match chooser.below(10) {
                    0 => shown(writer.write_sample(sample as i8)),
                    1 => shown(writer.write_sample(sample as i16)),
                    2 => shown(writer.write_sample(sample as f32)),
                    3 => shown(writer.write_sample(Own(sample as i16))),
                    4 if !flushes_torn && writer.len() % u32::from(channels) != 0 => {
                        shown(Err(Error::UnfinishedSample))
                    }
                    4 => shown(writer.flush()),
                    5 if bits == 16 => {
                        let count = chooser.below(5) as u32;
                        let mut batch = writer.get_i16_writer(count);
                        (0..count).for_each(|i| batch.write_sample(sample.wrapping_add(i as i32) as i16));
                        shown(batch.flush())
                    }
                    _ => {
                        let count = if is_long { 3000 } else { 3 };
                        (0..count).map(|i| shown(writer.write_sample(sample >> (i % 30)))).collect()
                    }
                };
                answers += &format!("{} {}; ", writer.len(), writer.duration());
            }
            if chooser.below(2) == 0 {
                answers += &shown(writer.finalize());
            } else {
                drop(writer);
            }
        }
        (answers, file.into_inner())
    }
}

fn u32_at(bytes: &[u8], at: usize) -> u32 {
    u32::from_le_bytes(bytes[at..at + 4].try_into().unwrap())
}

/// A file of chunks, most of them right, and some of its bytes changed.
fn file(chooser: &mut Chooser) -> Vec<u8> {
    let mut file = b"RIFF\0\0\0\0WAVE".to_vec();
    let channels = 1 + chooser.below(3) as u16;
    let (bits, width) = chooser.one_of(&[(8u16, 1u16), (16, 2), (24, 3), (24, 4), (32, 4), (12, 2)]);
    for _ in 0..chooser.below(3) {
        let length = chooser.below(7) as u32;
        file.extend(chooser.one_of(&[b"LIST", b"fact", b"junk"]));
        file.extend(length.to_le_bytes());
        file.extend((0..length + length % 2).map(|i| i as u8));
    }
    if chooser.below(15) > 0 {
        let length = chooser.one_of(&[16u32, 18, 40, 40, 40, 42, 43, 14]);
        let tag = if length >= 40 {
            chooser.one_of(&[0xfffeu16, 0xfffe, 0xfffe, 1])
        } else {
            chooser.one_of(&[1u16, 1, 3, 2])
        };
        let mut fmt = b"fmt ".to_vec();
        fmt.extend(length.to_le_bytes());
        fmt.extend(tag.to_le_bytes());
        fmt.extend(channels.to_le_bytes());
        fmt.extend(44100u32.to_le_bytes());
        fmt.extend((44100 * u32::from(width * channels)).to_le_bytes());
        fmt.extend((width * channels).to_le_bytes());
        fmt.extend((width * 8).min(if length < 40 { bits } else { 32 }).to_le_bytes());
        fmt.extend(if length == 18 { [0; 2] } else { [22, 0] });
        fmt.extend(bits.to_le_bytes());
        fmt.extend([0; 4]);
        fmt.extend([chooser.one_of(&[1, 3]), 0, 0, 0, 0, 0, 16, 0, 128, 0, 0, 0xaa, 0, 0x38, 0x9b, 0x71, 0, 0, 0, 0]);
        file.extend(&fmt[..8 + (length + length % 2) as usize]);
    }
    let length = chooser.below(30) as u32 * u32::from(width * channels) + u32::from(chooser.below(8) == 0);
    let held = if chooser.below(4) == 0 { chooser.below(u64::from(length) + 1) as u32 } else { length };
    file.extend(b"data");
    file.extend(length.to_le_bytes());
    file.extend((0..held).map(|_| chooser.next() as u8));
    if chooser.below(3) == 0 {
        file.extend(b"LIST\x02\0\0\0ab");
    }
    for _ in 0..chooser.one_of(&[0, 0, 1, 2]) {
        let at = chooser.below(file.len() as u64) as usize;
        file[at] = chooser.next() as u8;
    }
    if chooser.below(10) == 0 {
        file.truncate(chooser.below(file.len() as u64) as usize);
    }
    file
}

/// Two answers from a little before they differ.
fn from_difference<T: std::fmt::Debug>(one: T, other: T) -> String {
    let (one, other) = (format!("{one:02x?}"), format!("{other:02x?}"));
    let at = one.bytes().zip(other.bytes()).take_while(|(a, b)| a == b).count().saturating_sub(60);
    let some = |text: &str| text.chars().skip(at).take(200).collect::<String>();
    format!("\n  original: {}\n  package:  {}", some(&one), some(&other))
}

/// The file without what the original misreads before the data: a pad byte, a fact chunk that hasn't four bytes, and
/// what is in a fmt chunk after its forty bytes.
fn without_what_is_misread(file: &[u8]) -> Vec<u8> {
    let mut plain = file[..file.len().min(12)].to_vec();
    let mut at = 12;
    while at + 8 <= file.len() && &file[at..at + 4] != b"data" {
        let length = u32_at(file, at + 4) as usize;
        let end = at + 8 + length + length % 2;
        let kept = match &file[at..at + 4] {
            b"fact" => 4,
            b"fmt " if file[at + 8..].starts_with(b"\xfe\xff") => length.min(40),
            _ => length,
        };
        plain.extend(&file[at..at + 4]);
        plain.extend((kept as u32).to_le_bytes());
        if &file[at..at + 4] == b"fact" && end <= file.len() {
            plain.extend([0; 4]);
        } else {
            plain.extend(&file[at + 8..(at + 8 + kept).min(file.len())]);
        }
        at = end;
    }
    plain.extend(file.get(at..).unwrap_or_default());
    plain
}

/// The file with a pad byte after odd data, which the RIFF size counts.
fn with_pad_byte(mut file: Vec<u8>) -> Vec<u8> {
    let start = if file.len() < 20 || file[16] == 16 { 44 } else { 68 };
    if file.len() >= start && u32_at(&file, start - 4) % 2 == 1 {
        let size = u32_at(&file, 4) + 1;
        file[4..8].copy_from_slice(&size.to_le_bytes());
        file.push(0);
    }
    file
}

fn or_panic<T>(call: impl FnOnce() -> T) -> Option<T> {
    catch_unwind(AssertUnwindSafe(call)).ok()
}

fn main() {
    set_hook(Box::new(|_| {}));
    let count: u64 = std::env::args().nth(1).map_or(300_000, |word| word.parse().unwrap());
    let mut chooser = Chooser::new(88_172_645_463_325_252);
    let mut tally = Tally::default();
    let folder = if Path::new("/dev/shm").exists() { "/dev/shm".into() } else { std::env::temp_dir() };
    let path = folder.join(format!("histories-{}.wav", std::process::id()));
    for _ in 0..count {
        let (file, seed) = (file(&mut chooser), chooser.next());
        let package = or_panic(|| by_package::read(&file, seed, true));
        std::fs::write(&path, &file).unwrap();
        if or_panic(|| by_package::read_opened(&path, seed)) != package {
            tally.unexplained(|| format!("the package reads otherwise by open: seed {seed} {file:02x?}"));
        }
        let by_original = |file: &[u8], seeks| or_panic(|| by_original::read(file, seed, seeks));
        let plain = without_what_is_misread(&file);
        if package.is_none() {
            tally.unexplained(|| format!("the package panics at {file:02x?}, seed {seed}"));
        } else if package == by_original(&file, true) {
            tally.same();
        } else if package == by_original(&file, false) {
            tally.listed("seek after a rejected sample, a torn one, or of 24 bits in four bytes");
        } else if package == by_original(&plain, false) {
            tally.listed("an odd chunk, a fact chunk, or a fmt chunk of more than 40 bytes");
        } else {
            tally.unexplained(|| {
                format!(
                    "seed {seed} {file:02x?}\n  plain: {plain:02x?}{}",
                    from_difference(by_original(&plain, false), package)
                )
            });
        }
    }
    std::fs::remove_file(path).unwrap();
    for _ in 0..count {
        let seed = chooser.next();
        let package = or_panic(|| by_package::write(seed, true));
        let by_original = |flushes_torn| or_panic(|| by_original::write(seed, flushes_torn));
        let padded = |made: Option<(String, Vec<u8>)>| made.map(|(answers, file)| (answers, with_pad_byte(file)));
        if package.is_none() {
            tally.unexplained(|| format!("the package panics at writing, seed {seed}"));
        } else if package == by_original(true) {
            tally.same();
        } else if package == padded(by_original(true)) {
            tally.listed("the pad byte after odd data");
        } else if package == padded(by_original(false)) {
            tally.listed("after a flush within a frame the next sample follows the others");
        } else if package == by_original(true).map(|(answers, _)| (answers, Vec::new())) {
            tally.listed("a spec that can't be written: nothing is");
        } else {
            tally.unexplained(|| format!("seed {seed}{}", from_difference(padded(by_original(false)), package)));
        }
    }
    tally.end("histories")
}
