//! Readers that give few bytes, fail, are interrupted or end, read by both crates: each call has the same answer and
//! takes the same bytes, also after a closure that panics.   exact COUNT
use dropin::{both, Blocks, Chooser, Tally};
use std::cell::Cell;
use std::io::{self, BufReader, Cursor, Read};
use std::panic::{catch_unwind, set_hook, AssertUnwindSafe};
use std::rc::Rc;

/// Gives a few bytes at a time, as many as its place says, so that other pieces make no difference; and fails once at
/// each of some places.
struct Unsteady {
    bytes: Vec<u8>,
    place: Rc<Cell<usize>>,
    seed: u64,
    faults: Vec<(usize, io::ErrorKind)>,
}

impl Read for Unsteady {
    fn read(&mut self, out: &mut [u8]) -> io::Result<usize> {
        let place = self.place.get();
        if let Some(i) = self.faults.iter().position(|fault| fault.0 == place) {
            return Err(io::Error::new(self.faults.remove(i).1, "fault"));
        }
        let mut chooser = Chooser::new(self.seed ^ (place as u64).wrapping_mul(0x9e37_79b9_7f4a_7c15));
        for _ in 0..3 {
            chooser.next();
        }
        let next_fault = self.faults.iter().map(|fault| fault.0).filter(|&at| at > place).min().unwrap_or(usize::MAX);
        let count = out.len().min(1 + chooser.below(9) as usize).min(self.bytes.len() - place).min(next_fault - place);
        out[..count].copy_from_slice(&self.bytes[place..place + count]);
        self.place.set(place + count);
        Ok(count)
    }
}

/// Whether closures panic in this history.
fn panics(seed: u64) -> bool {
    seed % 4 == 1
}

const READERS: [&str; 9] = [
    "few bytes",
    "faults",
    "Cursor<Vec>",
    "&mut Cursor",
    "BufReader of few bytes",
    "BufReader of faults",
    "BufReader<File>",
    "open",
    "&mut &[u8]",
];

both! {
    use hound::{Error, SampleFormat, WavReader};

    fn show<T: ToString>(sample: Result<T, Error>) -> String {
        sample.map_or_else(|error| format!("[{error}] "), |sample| sample.to_string() + " ")
    }

    // One call of many: a block, an iterator's next, nth, take with a fold or a loop, a whole fold, collect; and a fold
    // whose closure panics.
    fn call<R: Read, S: original::Sample + package::Sample + Copy + Default + ToString>(
        reader: &mut WavReader<R>,
        chooser: &mut Chooser,
        panics: bool,
    ) -> String {
        let some = chooser.below(9) as usize;
        if panics && chooser.below(4) == 0 {
            let mut seen = String::new();
            let fold = AssertUnwindSafe(|| {
                reader.samples::<S>().for_each(|sample| {
                    seen += &show(sample);
                    assert!(seen.len() < 20 * some, "the closure panics");
                })
            });
            let has_panicked = catch_unwind(fold).is_err();
            return format!("panics {has_panicked}: {seen}");
        }
        if chooser.below(7) == 0 {
            let mut block = vec![S::default(); chooser.one_of(&[some, 15 + some, 5000])];
            let (count, result) = reader.block(&mut block);
            return block[..count].iter().map(S::to_string).collect::<String>()
                + &result.map_or_else(|error| error.to_string(), |()| " ".into());
        }
        let mut samples = reader.samples::<S>();
        match chooser.below(9) {
            0..=2 => samples.next().map_or("None ".into(), show),
            3 => samples.nth(some).map_or("None ".into(), show),
            4 => samples.take(some).fold(String::new(), |all, sample| all + &show(sample)),
            5 => samples.take(some).map(show).collect(),
            6 => samples.by_ref().step_by(some + 1).take(2).map(show).collect(),
            7 if some < 3 => samples.fold(String::from("all: "), |all, sample| all + &show(sample)),
            8 if some < 3 => match samples.collect::<Result<Vec<_>, _>>() {
                Ok(all) => all.iter().map(S::to_string).collect(),
                Err(error) => error.to_string(),
            },
            _ => samples.size_hint().0.to_string(),
        }
    }

    /// Where a medium is in its bytes.
    fn position(mut end: impl io::Seek) -> usize {
        end.stream_position().unwrap() as usize
    }

    fn history<R: Read>(
        reader: WavReader<R>,
        seed: u64,
        place: &dyn Fn() -> usize,
        end: impl Fn(R) -> usize,
    ) -> String {
        let mut chooser = Chooser::new(seed);
        let mut reader = reader;
        let panics = panics(seed);
        let mut history = format!("{:?} {} ", reader.spec(), reader.len());
        let is_float = reader.spec().sample_format == SampleFormat::Float;
        for _ in 0..12 {
            history += &match chooser.below(9) {
                0 => call::<R, i8>(&mut reader, &mut chooser, panics),
                1 | 2 => call::<R, i16>(&mut reader, &mut chooser, panics),
                3 => call::<R, f32>(&mut reader, &mut chooser, panics),
                _ if is_float => call::<R, f32>(&mut reader, &mut chooser, panics),
                _ => call::<R, i32>(&mut reader, &mut chooser, panics),
            };
            history += &format!("<{} {}> ", place(), reader.samples::<i32>().len());
        }
        history + &format!("end {}", end(reader.into_inner()))
    }

    pub fn run(bytes: &[u8], seed: u64, reader: &str, path: &str) -> String {
        let place = Rc::new(Cell::new(0));
        let mut chooser = Chooser::new(seed ^ 77);
        let kinds = [io::ErrorKind::Other, io::ErrorKind::Interrupted, io::ErrorKind::WouldBlock];
        let faults =
            (0..chooser.below(6)).map(|_| (20 + chooser.below(bytes.len() as u64) as usize, chooser.one_of(&kinds)));
        let faults = if reader.ends_with("faults") { faults.collect() } else { Vec::new() };
        let unsteady = Unsteady { bytes: bytes.to_vec(), place: place.clone(), seed, faults };
        let now = || place.get();
        let capacity = 1 + (seed % 40) as usize;
        let error = |error: Error| format!("{error} {}", place.get());
        match reader {
            "few bytes" | "faults" => WavReader::new(unsteady).map_or_else(error, |it| history(it, seed, &now, |_| 0)),
            "Cursor<Vec>" => {
                let cursor = Cursor::new(bytes.to_vec());
                WavReader::new(cursor).map_or_else(error, |it| history(it, seed, &|| 0, position))
            }
            "&mut Cursor" => {
                let mut cursor = Cursor::new(bytes);
                let history = WavReader::new(&mut cursor).map_or_else(error, |it| history(it, seed, &|| 0, position));
                history + &cursor.position().to_string()
            }
            "BufReader of few bytes" | "BufReader of faults" => {
                let taken = |end: BufReader<Unsteady>| end.get_ref().place.get() - end.buffer().len();
                WavReader::new(BufReader::with_capacity(capacity, unsteady))
                    .map_or_else(|error| error.to_string(), |it| history(it, seed, &|| 0, taken))
            }
            "BufReader<File>" => {
                let file = BufReader::with_capacity(capacity, std::fs::File::open(path).unwrap());
                WavReader::new(file).map_or_else(error, |it| history(it, seed, &|| 0, position))
            }
            "open" => WavReader::open(path).map_or_else(error, |it| history(it, seed, &|| 0, position)),
            _ => {
                let mut rest = bytes;
                let history =
                    WavReader::new(&mut rest).map_or_else(error, |it| history(it, seed, &|| 0, |end| end.len()));
                history + &rest.len().to_string()
            }
        }
    }
}

fn file(chooser: &mut Chooser, is_long: bool) -> Vec<u8> {
    let (bits, width, is_float) =
        chooser.one_of(&[(8u16, 1u16, 0u8), (16, 2, 0), (24, 3, 0), (24, 4, 0), (32, 4, 0), (32, 4, 1), (12, 2, 0)]);
    let channels = 1 + chooser.below(2) as u16;
    let mut file = b"RIFF\0\0\0\0WAVEfmt \x28\0\0\0\xfe\xff".to_vec();
    file.extend(channels.to_le_bytes());
    file.extend(44100u32.to_le_bytes());
    file.extend((44100 * u32::from(width * channels)).to_le_bytes());
    file.extend((width * channels).to_le_bytes());
    file.extend((width * 8).to_le_bytes());
    file.extend(22u16.to_le_bytes());
    file.extend(bits.to_le_bytes());
    file.extend([0; 4]);
    file.extend([1 + 2 * is_float, 0, 0, 0, 0, 0, 16, 0, 128, 0, 0, 0xaa, 0, 0x38, 0x9b, 0x71]);
    let length = chooser.below(if is_long { 6000 } else { 60 }) as u32 * u32::from(width * channels);
    file.extend(b"data");
    file.extend(length.to_le_bytes());
    let held = if chooser.below(3) == 0 {
        chooser.below(u64::from(length) + 1) as u32
    } else {
        length + chooser.below(20) as u32
    };
    file.extend((0..held).map(|_| (chooser.next() >> 20) as u8));
    file
}

fn main() {
    set_hook(Box::new(|_| {}));
    let count: u64 = std::env::args().nth(1).map_or(70_000, |word| word.parse().unwrap());
    let path = std::env::temp_dir().join(format!("dropin-exact-{}.wav", std::process::id()));
    let path = path.to_str().unwrap();
    let mut chooser = Chooser::new(88_172_645_463_325_252);
    let mut tally = Tally::default();
    for i in 0..count {
        let bytes = file(&mut chooser, i % 50 < 9);
        let (seed, reader) = (chooser.next(), READERS[(i % 9) as usize]);
        if reader == "open" || reader == "BufReader<File>" {
            std::fs::write(path, &bytes).unwrap();
        }
        let (original, package) =
            (by_original::run(&bytes, seed, reader, path), by_package::run(&bytes, seed, reader, path));
        if original == package {
            tally.same();
        } else {
            tally.unexplained(|| format!("{reader}, seed {seed}\n  original: {original}\n  package:  {package}"));
        }
    }
    let _ = std::fs::remove_file(path);
    tally.end("exact")
}
