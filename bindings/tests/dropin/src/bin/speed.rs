//! How long both crates take for what programs do with hound: the least time that the thread has had, of some rounds
//! in turn, in nanoseconds a sample, or a call, flush, seek or file of which the case says so. Each case is compiled at
//! two places in memory, since some processors take longer for a loop that has a jump at the end of 32 bytes. The
//! original has no `read_samples`, so that is compared with its iterator. Then come the cases that are above a limit,
//! with the reason that slower.tsv has, and with the instructions of both, which valgrind counts.
//!     speed ROUNDS [--instructions] [WORD]      the cases whose names have this word, or all
//!     speed once-0 | once-1 CASE FOLDER         one case by the original, or the package, for valgrind
use dropin::{both, Blocks};
use std::arch::asm;
use std::cell::RefCell;
use std::fs::{self, File};
use std::hint::black_box;
use std::io::{BufReader, BufWriter, Cursor, Read, Seek, Write};
use std::process::Command;
use std::rc::Rc;

const SAMPLES: usize = 1 << 20;
const CALLS: usize = 2000;

/// How many times the original's time a case over a file may take, and one in memory.
const OF_FILES: f64 = 1.1;
const IN_MEMORY: f64 = 1.3;

/// The reasons for what is above a limit.
const SLOWER: &str = include_str!("../../slower.tsv");

#[repr(C)]
struct Time {
    seconds: i64,
    nanoseconds: i64,
}

extern "C" {
    fn clock_gettime(clock: i32, time: *mut Time) -> i32;
}

/// The time that this thread has had: the machine may be busy.
fn now() -> f64 {
    let mut time = Time { seconds: 0, nanoseconds: 0 };
    // SAFETY: the time is one, and the clock is that of the thread.
    unsafe { clock_gettime(3, &mut time) };
    time.seconds as f64 * 1e9 + time.nanoseconds as f64
}

/// How long this takes. Callgrind counts what is in this function.
#[no_mangle]
#[inline(never)]
fn measured(call: &mut dyn FnMut()) -> f64 {
    let begun = now();
    call();
    now() - begun
}

/// What is timed of one crate, and how many samples, calls or files it is.
struct Case {
    name: String,
    units: usize,
    call: Box<dyn FnMut()>,
}

impl Case {
    /// How many times the original's time it may take.
    fn limit(&self) -> f64 {
        let is_of_file = |word: &&str| self.name.contains(word);
        let words = ["open", "create", "File", "/dev/null", "append of"];
        if words.iter().any(is_of_file) && !self.name.contains("new_append") {
            OF_FILES
        } else {
            IN_MEMORY
        }
    }
}

/// A file that is read, in memory and in the file system.
struct Wave {
    bytes: Vec<u8>,
    path: String,
}

impl Wave {
    fn new<S: package::Sample>(path: String, spec: package::WavSpecEx, make: impl Fn(usize) -> S) -> Rc<Wave> {
        if let Ok(bytes) = fs::read(&path) {
            return Rc::new(Wave { bytes, path });
        }
        let mut bytes = Cursor::new(Vec::new());
        let mut writer = package::WavWriter::new_with_spec_ex(&mut bytes, spec).unwrap();
        (0..SAMPLES).for_each(|i| writer.write_sample(make(i)).unwrap());
        writer.finalize().unwrap();
        Wave::of(path, bytes.into_inner())
    }

    fn of(path: String, bytes: Vec<u8>) -> Rc<Wave> {
        fs::write(&path, &bytes).unwrap();
        Rc::new(Wave { bytes, path })
    }

    fn buffered(&self) -> BufReader<File> {
        BufReader::new(File::open(&self.path).unwrap())
    }
}

/// The files that are read, and memory and a path that are written.
struct Files {
    i8: Rc<Wave>,
    i16: Rc<Wave>,
    i24: Rc<Wave>,
    i24_in_4: Rc<Wave>,
    i32: Rc<Wave>,
    f32: Rc<Wave>,
    mono: Rc<Wave>,
    room: RefCell<Vec<u8>>,
    memory: RefCell<Vec<u8>>,
    folder: String,
    path: String,
}

impl Files {
    fn new(folder: &str) -> Rc<Files> {
        use package::SampleFormat::{Float, Int};
        let spec = |channels, bits_per_sample, bytes_per_sample, sample_format| package::WavSpecEx {
            spec: package::WavSpec { channels, sample_rate: 48000, bits_per_sample, sample_format },
            bytes_per_sample,
        };
        let path = |name: &str| format!("{folder}/{name}.wav");
        let low_24 = |i: usize| i as i32 & 0x7f_ffff;
        Rc::new(Files {
            i8: Wave::new(path("i8"), spec(2, 8, 1, Int), |i| i as i8),
            i16: Wave::new(path("i16"), spec(2, 16, 2, Int), |i| i as i16),
            i24: Wave::new(path("i24"), spec(2, 24, 3, Int), low_24),
            i24_in_4: Wave::new(path("i24_in_4"), spec(2, 24, 4, Int), low_24),
            i32: Wave::new(path("i32"), spec(2, 32, 4, Int), |i| i as i32),
            f32: Wave::new(path("f32"), spec(2, 32, 4, Float), |i| i as f32),
            mono: Wave::new(path("mono"), spec(1, 16, 2, Int), |i| i as i16),
            room: RefCell::new(vec![0; 5 * SAMPLES]),
            memory: RefCell::new(Vec::with_capacity(5 * SAMPLES)),
            folder: folder.into(),
            path: path("written"),
        })
    }

    // Room for any of the files.
    fn slice(&self, call: impl FnOnce(Cursor<&mut [u8]>)) {
        call(Cursor::new(&mut self.room.borrow_mut()))
    }

    // The same, which grows to the length that it once had.
    fn vec(&self, call: impl FnOnce(Cursor<&mut Vec<u8>>)) {
        let mut memory = self.memory.borrow_mut();
        memory.clear();
        call(Cursor::new(&mut memory))
    }
}

/// What is a sample of both.
trait Sample: original::Sample + package::Sample {}
impl<S: original::Sample + package::Sample> Sample for S {}

/// The number of a sample, for a sum.
trait Number {
    fn number(self) -> u64;
}

macro_rules! number {
    ($($type:ident: $number:expr;)*) => {
        $(impl Number for $type {
            #[inline(always)]
            fn number(self) -> u64 {
                $number(self)
            }
        })*
    };
}
number! {
    i8: |int| int as u64;
    i16: |int| int as u64;
    i32: |int| int as u64;
    f32: |float: f32| u64::from(float.to_bits());
}

both! {
    use hound::{Result, SampleFormat, WavReader, WavSpec, WavWriter};

    /// A type of a user's own.
    #[derive(Clone, Copy, Default)]
    struct Own(i16);

    impl hound::Sample for Own {
        fn write<W: Write>(self, writer: &mut W, bits: u16) -> Result<()> {
            self.0.write(writer, bits)
        }
        fn write_padded<W: Write>(self, writer: &mut W, bits: u16, byte_width: u16) -> Result<()> {
            self.0.write_padded(writer, bits, byte_width)
        }
        fn read<R: Read>(reader: &mut R, format: SampleFormat, bytes: u16, bits: u16) -> Result<Own> {
            i16::read(reader, format, bytes, bits).map(Own)
        }
        fn as_i16(self) -> i16 {
            self.0
        }
    }

    impl Number for Own {
        #[inline(always)]
        fn number(self) -> u64 {
            self.0 as u64
        }
    }

    fn spec(channels: u16, bits_per_sample: u16, is_float: bool) -> WavSpec {
        let sample_format = if is_float { SampleFormat::Float } else { SampleFormat::Int };
        WavSpec { channels, sample_rate: 48000, bits_per_sample, sample_format }
    }

    fn in_memory(wave: &Wave) -> WavReader<Cursor<&[u8]>> {
        WavReader::new(Cursor::new(black_box(&wave.bytes[..]))).unwrap()
    }

    fn opened(wave: &Wave) -> WavReader<BufReader<File>> {
        WavReader::open(&wave.path).unwrap()
    }

    /// All cases, at one of the places in memory.
    struct Cases<const SKIP: usize>(Rc<Files>, Vec<Case>);

    impl<const SKIP: usize> Cases<SKIP> {
        fn add(&mut self, name: impl Into<String>, units: usize, call: impl Fn(&Files) + 'static) {
            let files = self.0.clone();
            let call = Box::new(move || {
                // SAFETY: these bytes do nothing.
                unsafe { asm!(".skip {}, 0x90", const SKIP) };
                call(&files)
            });
            self.1.push(Case { name: name.into(), units, call });
        }

        fn read(&mut self, name: String, wave: &Rc<Wave>, call: impl Fn(&Wave) + 'static) {
            let wave = wave.clone();
            self.add(name, SAMPLES, move |_| call(&wave))
        }

        fn repeat(&mut self, name: impl Into<String>, calls: usize, call: impl Fn(&Files) + 'static) {
            self.add(name, calls, move |files| (0..calls).for_each(|_| call(files)))
        }

        fn reads<S: hound::Sample + Number + 'static>(&mut self, name: &str, wave: &Rc<Wave>) {
            let name = |what| format!("{name} {what}");
            self.read(name("for, Cursor<&[u8]>"), wave, |wave| each::<_, S>(in_memory(wave)));
            self.read(name("for, &[u8]"), wave, |wave| each::<_, S>(WavReader::new(&wave.bytes[..]).unwrap()));
            self.read(name("for, BufReader<File>"), wave, |wave| {
                each::<_, S>(WavReader::new(wave.buffered()).unwrap())
            });
            self.read(name("for, open"), wave, |wave| each::<_, S>(opened(wave)));
            self.read(name("samples().next(), open"), wave, |wave| each_next::<_, S>(opened(wave)));
            self.read(name("samples().next(), Cursor"), wave, |wave| each_next::<_, S>(in_memory(wave)));
            self.read(name("pairs of next, open"), wave, |wave| {
                let mut samples = opened(wave).into_samples::<S>();
                while let (Some(left), Some(right)) = (samples.next(), samples.next()) {
                    black_box((left.unwrap(), right.unwrap()));
                }
            });
            self.read(name("fold, Cursor"), wave, |wave| sum::<_, S>(in_memory(wave)));
            self.read(name("fold, open"), wave, |wave| sum::<_, S>(opened(wave)));
            self.read(name("map.collect, Cursor"), wave, |wave| {
                let mut reader = in_memory(wave);
                black_box(reader.samples::<S>().map(|sample| sample.unwrap()).collect::<Vec<_>>());
            });
            self.read(name("collect Result, open"), wave, |wave| {
                black_box(opened(wave).into_samples::<S>().collect::<Result<Vec<_>>>().unwrap());
            });
            self.read(name("collect Result, Cursor"), wave, |wave| {
                black_box(in_memory(wave).samples::<S>().collect::<Result<Vec<_>>>().unwrap());
            });
            self.read(name("flatten, open"), wave, |wave| {
                for sample in opened(wave).samples::<S>().flatten() {
                    black_box(sample);
                }
            });
            self.read(name("step_by(2), open"), wave, |wave| {
                for sample in opened(wave).samples::<S>().step_by(2) {
                    black_box(sample.unwrap());
                }
            });
        }

        fn blocks<S: Sample + Copy + Default>(&mut self, name: &str, wave: &Rc<Wave>) {
            self.read(format!("{name} read_samples, open"), wave, |wave| {
                let (mut reader, mut block) = (opened(wave), [S::default(); 4096]);
                while reader.block(black_box(&mut block[..])).0 > 0 {}
            })
        }

        fn writes<S: hound::Sample>(&mut self, name: &str, spec: WavSpec, make: impl Fn(usize) -> S + Copy + 'static) {
            self.add(format!("{name} write, Cursor<&mut [u8]>"), SAMPLES, move |files| {
                files.slice(|memory| write_each(WavWriter::new(memory, spec), SAMPLES, make))
            });
            self.add(format!("{name} write, Cursor<&mut Vec>"), SAMPLES, move |files| {
                files.vec(|memory| write_each(WavWriter::new(memory, spec), SAMPLES, make))
            });
            self.add(format!("{name} write, create"), SAMPLES, move |files| {
                write_each(WavWriter::create(&files.path, spec), SAMPLES, make)
            });
            self.add(format!("{name} write, BufWriter<File>"), SAMPLES, move |files| {
                let file = BufWriter::new(File::create(&files.path).unwrap());
                write_each(WavWriter::new(file, spec), SAMPLES, make)
            });
            self.add(format!("{name} write ? len, Cursor<&mut [u8]>"), SAMPLES, move |files| {
                files.slice(|memory| {
                    let mut writer = WavWriter::new(memory, spec).unwrap();
                    for i in 0..SAMPLES {
                        writer.write_sample(black_box(make(i))).unwrap();
                        black_box(writer.len());
                    }
                    writer.finalize().unwrap();
                })
            });
        }

        fn batches(&mut self, spec: WavSpec) {
            for length in [1, 2, 4, 16, 64, 256, 1024, 4096, 65536] {
                self.add(format!("batch({length}), Cursor<&mut [u8]>"), SAMPLES, move |files| {
                    files.slice(|memory| write_batches(WavWriter::new(memory, spec), length))
                });
                self.add(format!("batch({length}), create"), SAMPLES, move |files| {
                    write_batches(WavWriter::create(&files.path, spec), length)
                });
                let samples: Rc<[i16]> = (0..length).map(|i| i as i16).collect();
                let slice = samples.clone();
                self.add(format!("batch({length}) of a slice unchecked, Cursor"), SAMPLES, move |files| {
                    files.slice(|memory| {
                        write_slices(WavWriter::new(memory, spec), &slice, |batch, sample| {
                            // SAFETY: as many are written as the batch has.
                            #[allow(unused_unsafe)]
                            unsafe {
                                batch.write_sample_unchecked(sample)
                            }
                        })
                    })
                });
                self.add(format!("batch({length}) of a slice, Cursor"), SAMPLES, move |files| {
                    files.slice(|memory| {
                        write_slices(WavWriter::new(memory, spec), &samples, |batch, sample| batch.write_sample(sample))
                    })
                });
            }
        }

        fn flushes(&mut self, spec: WavSpec) {
            for count in [2, 10, 100, 1000] {
                let calls = CALLS.min(100_000 / count);
                self.add(format!("flush each {count}, Cursor (a flush)"), calls, move |files| {
                    files.vec(|memory| flush_each(WavWriter::new(memory, spec), calls, count))
                });
                self.add(format!("flush each {count}, create (a flush)"), calls, move |files| {
                    flush_each(WavWriter::create(&files.path, spec), calls, count)
                });
            }
        }

        fn seeks(&mut self) {
            let mono = self.0.mono.clone();
            let mut seek = |name: String, step: i32, count: usize, call: fn(&Wave, i32, usize, usize)| {
                let (mono, calls) = (mono.clone(), CALLS.min(200_000 / count));
                self.add(name + " (a seek)", calls, move |_| call(&mono, step, count, calls));
            };
            for count in [1, 16, 100, 2000] {
                seek(format!("seek + {count} frames, Cursor"), 123_457, count, |wave, step, count, calls| {
                    seek_each(in_memory(wave), step, count, calls)
                });
                seek(format!("seek + {count} frames, BufReader<File>"), 123_457, count, |wave, step, count, calls| {
                    seek_each(WavReader::new(wave.buffered()).unwrap(), step, count, calls)
                });
                seek(format!("seek + {count} frames, open"), 123_457, count, |wave, step, count, calls| {
                    seek_each(opened(wave), step, count, calls)
                });
                let back = -2 * count as i32;
                seek(format!("backwards by {count} frames, open"), back, count, |wave, step, count, calls| {
                    seek_each(opened(wave), step, count, calls)
                });
            }
            for step in [2, 30, 1000] {
                seek(format!("each {step}th frame, open"), step, 1, |wave, step, count, calls| {
                    seek_each(opened(wave), step, count, calls)
                });
            }
        }

        fn headers(&mut self, spec: WavSpec) {
            let file = self.0.mono.bytes.clone();
            for (count, length) in [(0, 0), (1, 26), (20, 20), (1000, 20), (1, 100_000), (1, 4_000_000)] {
                let chunk = [b"LIST", &(length as u32).to_le_bytes()[..], &vec![0; length]].concat();
                let path = format!("{}/header-{count}-{length}.wav", self.0.folder);
                let wave = Wave::of(path, [&file[..12], &chunk.repeat(count), &file[12..200]].concat());
                let (other, calls) = (wave.clone(), CALLS.min(40_000 / (1 + count + length / 1000)));
                self.repeat(format!("new, {count} chunks of {length}, Cursor (a file)"), calls, move |_| {
                    drop(black_box(in_memory(&wave)))
                });
                self.repeat(format!("open, {count} chunks of {length} (a file)"), calls, move |_| {
                    drop(black_box(opened(&other)))
                });
            }
            self.repeat("read_wave_header (a call)", CALLS, move |files| {
                black_box(hound::read_wave_header(&mut black_box(&files.mono.bytes[..12])).unwrap());
            });
            self.repeat("into_header_for_infinite_file (a call)", CALLS, move |_| {
                drop(black_box(black_box(spec).into_header_for_infinite_file()))
            });
        }

        fn short_files(&mut self, spec: WavSpec) {
            for count in [1, 10, 100, 1000] {
                let name = |what| format!("file of {count}: {what} (a file)");
                let bytes = header_of(&self.0.mono.bytes, count);
                let wave = Wave::of(format!("{}/short-{count}.wav", self.0.folder), bytes);
                let (one, other, third) = (wave.clone(), wave.clone(), wave);
                self.repeat(name("read, Cursor"), CALLS, move |_| each::<_, i16>(in_memory(&one)));
                self.repeat(name("fold, Cursor"), CALLS, move |_| sum::<_, i16>(in_memory(&other)));
                self.repeat(name("read, open"), CALLS, move |_| each::<_, i16>(opened(&third)));
                self.repeat(name("write, Cursor"), CALLS, move |files| {
                    files.vec(|memory| write_each(WavWriter::new(memory, spec), count, |i| i as i16))
                });
                self.repeat(name("write, Cursor<&mut [u8]>"), CALLS, move |files| {
                    files.slice(|memory| write_each(WavWriter::new(memory, spec), count, |i| i as i16))
                });
                self.repeat(name("create"), CALLS, move |files| {
                    write_each(WavWriter::create(&files.path, spec), count, |i| i as i16)
                });
            }
            for count in [2, 100, 1000] {
                let begun = header_of(&self.0.mono.bytes, 2);
                let other = begun.clone();
                self.add(format!("append of {count} (a file)"), CALLS, move |files| {
                    fs::write(&files.path, &begun).unwrap();
                    (0..CALLS).for_each(|_| write_each(WavWriter::append(&files.path), count, |i| i as i16))
                });
                self.repeat(format!("new_append of {count}, Cursor (a file)"), CALLS, move |files| {
                    let mut memory = files.memory.borrow_mut();
                    memory.clear();
                    memory.extend_from_slice(&other);
                    write_each(WavWriter::new_append(Cursor::new(&mut *memory)), count, |i| i as i16)
                });
            }
        }

        fn others(&mut self, spec_24: WavSpec, spec_16: WavSpec) {
            self.add("Sample::write to Vec", SAMPLES, |files| {
                files.vec(|mut memory| {
                    (0..SAMPLES).for_each(|i| write_one(black_box(i as i16), *memory.get_mut()))
                })
            });
            self.add("Sample::write to BufWriter</dev/null>", SAMPLES, |_| {
                let mut writer = BufWriter::new(File::create("/dev/null").unwrap());
                (0..SAMPLES).for_each(|i| write_one(black_box(i as i16), &mut writer))
            });
            self.add("Sample::read of &[u8]", SAMPLES, |files| {
                let mut rest = black_box(&files.mono.bytes[44..]);
                for _ in 0..SAMPLES {
                    black_box(<i16 as hound::Sample>::read(&mut rest, SampleFormat::Int, 2, 16).unwrap());
                }
            });
            self.add("convert 16, Cursor to Cursor", SAMPLES, move |files| {
                files.slice(|memory| {
                    let mut writer = WavWriter::new(memory, spec_16).unwrap();
                    for sample in in_memory(&files.i16).samples::<i16>() {
                        writer.write_sample(sample.unwrap()).unwrap();
                    }
                    writer.finalize().unwrap();
                })
            });
            self.add("convert 16 to 24, open to create", SAMPLES, move |files| {
                let mut writer = WavWriter::create(&files.path, spec_24).unwrap();
                for sample in opened(&files.i16).samples::<i32>() {
                    writer.write_sample(sample.unwrap() << 8).unwrap();
                }
                writer.finalize().unwrap();
            });
            self.add("two files zipped, open", SAMPLES, |files| {
                let (one, other) = (opened(&files.i16), opened(&files.i24));
                for (one, other) in one.into_samples::<i16>().zip(other.into_samples::<i32>()) {
                    black_box((one.unwrap(), other.unwrap()));
                }
            });
            self.add("wrong type, open", SAMPLES, |files| {
                let mut errors = 0;
                for sample in opened(&files.i16).samples::<f32>() {
                    errors += u32::from(sample.is_err());
                }
                assert_eq!(errors, SAMPLES as u32);
            });
            self.add("wrong type, each looked at, open", SAMPLES, |files| {
                for sample in opened(&files.i16).samples::<f32>() {
                    black_box(sample.unwrap_err());
                }
            });
            self.add("peak by map.max, open", SAMPLES, |files| {
                black_box(opened(&files.i16).samples::<i16>().map(|sample| sample.unwrap().unsigned_abs()).max());
            });
            self.add("for, Box<dyn Read>, BufReader<File>", SAMPLES, |files| {
                each::<_, i16>(WavReader::new(Box::new(files.i16.buffered()) as Box<dyn Read>).unwrap())
            });
            self.add("Box<dyn Iterator>, open", SAMPLES, |files| {
                let samples: Box<dyn Iterator<Item = Result<i16>>> = Box::new(opened(&files.i16).into_samples());
                for sample in black_box(samples) {
                    black_box(sample.unwrap());
                }
            });
            self.add("skip(900000).sum, open", SAMPLES, |files| {
                let mut reader = opened(&files.i16);
                black_box(reader.samples::<i16>().skip(900_000).map(|sample| i64::from(sample.unwrap())).sum::<i64>());
            });
            self.add("mono for, open", SAMPLES, |files| each::<_, i16>(opened(&files.mono)));
        }
    }

    #[inline(always)]
    fn each<R: Read, S: hound::Sample>(mut reader: WavReader<R>) {
        for sample in reader.samples::<S>() {
            black_box(sample.unwrap());
        }
    }

    #[inline(always)]
    fn each_next<R: Read, S: hound::Sample>(mut reader: WavReader<R>) {
        while let Some(sample) = reader.samples::<S>().next() {
            black_box(sample.unwrap());
        }
    }

    #[inline(always)]
    fn sum<R: Read, S: hound::Sample + Number>(mut reader: WavReader<R>) {
        black_box(reader.samples::<S>().fold(0, |sum: u64, sample| sum.wrapping_add(sample.unwrap().number())));
    }

    #[inline(always)]
    fn seek_each<R: Read + Seek>(mut reader: WavReader<R>, step: i32, count: usize, calls: usize) {
        let (frames, mut frame) = (reader.duration() as i32 - count as i32, 0);
        for _ in 0..calls {
            frame = (frame + step).rem_euclid(frames);
            reader.seek(frame as u32).unwrap();
            for _ in 0..count {
                black_box(reader.samples::<i16>().next().unwrap().unwrap());
            }
        }
    }

    #[inline(always)]
    fn write_each<W: Write + Seek, S: hound::Sample>(
        writer: Result<WavWriter<W>>,
        count: usize,
        make: impl Fn(usize) -> S,
    ) {
        let mut writer = writer.unwrap();
        (0..count).for_each(|i| writer.write_sample(black_box(make(i))).unwrap());
        writer.finalize().unwrap();
    }

    #[inline(always)]
    fn write_one<W: Write>(sample: i16, writer: &mut W) {
        hound::Sample::write(sample, writer, 16).unwrap()
    }

    #[inline(always)]
    fn write_batches<W: Write + Seek>(writer: Result<WavWriter<W>>, length: usize) {
        let mut writer = writer.unwrap();
        for first in (0..SAMPLES).step_by(length) {
            let mut batch = writer.get_i16_writer(length as u32);
            (first..first + length).for_each(|i| batch.write_sample(black_box(i as i16)));
            batch.flush().unwrap();
        }
        writer.finalize().unwrap();
    }

    #[inline(always)]
    fn write_slices<W: Write + Seek>(
        writer: Result<WavWriter<W>>,
        samples: &[i16],
        write: impl Fn(&mut hound::SampleWriter16<W>, i16),
    ) {
        let mut writer = writer.unwrap();
        for _ in 0..SAMPLES / samples.len() {
            let mut batch = writer.get_i16_writer(samples.len() as u32);
            black_box(samples).iter().for_each(|sample| write(&mut batch, *sample));
            batch.flush().unwrap();
        }
        writer.finalize().unwrap();
    }

    #[inline(always)]
    fn flush_each<W: Write + Seek>(writer: Result<WavWriter<W>>, calls: usize, count: usize) {
        let mut writer = writer.unwrap();
        for _ in 0..calls {
            (0..count).for_each(|i| writer.write_sample(black_box(i as i16)).unwrap());
            writer.flush().unwrap();
        }
    }

    pub fn cases<const SKIP: usize>(files: &Rc<Files>) -> Vec<Case> {
        let mut cases = Cases::<SKIP>(files.clone(), Vec::new());
        cases.reads::<i8>("i8", &files.i8);
        cases.reads::<i16>("i16", &files.i16);
        cases.reads::<i32>("i24", &files.i24);
        cases.reads::<i32>("i32", &files.i32);
        cases.reads::<f32>("f32", &files.f32);
        cases.reads::<i32>("i24in4", &files.i24_in_4);
        cases.reads::<i32>("i16 as i32", &files.i16);
        cases.reads::<i32>("i8 as i32", &files.i8);
        cases.reads::<i16>("i8 as i16", &files.i8);
        cases.reads::<Own>("own i16", &files.i16);
        cases.blocks::<i8>("i8", &files.i8);
        cases.blocks::<i16>("i16", &files.i16);
        cases.blocks::<i32>("i24", &files.i24);
        cases.blocks::<i32>("i32", &files.i32);
        cases.blocks::<f32>("f32", &files.f32);
        cases.writes("i8", spec(2, 8, false), |i| i as i8);
        cases.writes("i16", spec(2, 16, false), |i| i as i16);
        cases.writes("i24", spec(2, 24, false), |i| i as i32 & 0x7f_ffff);
        cases.writes("i32", spec(2, 32, false), |i| i as i32);
        cases.writes("f32", spec(2, 32, true), |i| i as f32);
        cases.writes("i32 to 16", spec(2, 16, false), |i| i32::from(i as i16));
        cases.writes("i32 to 8", spec(2, 8, false), |i| i32::from(i as i8));
        cases.writes("i16 to 8", spec(2, 8, false), |i| i16::from(i as i8));
        cases.writes("i16 to 24", spec(2, 24, false), |i| i as i16);
        cases.writes("own i16", spec(2, 16, false), |i| Own(i as i16));
        cases.batches(spec(2, 16, false));
        cases.flushes(spec(2, 16, false));
        cases.seeks();
        cases.headers(spec(2, 16, false));
        cases.short_files(spec(1, 16, false));
        cases.others(spec(2, 24, false), spec(2, 16, false));
        cases.1
    }
}

/// The file of the first samples of a mono one of 16 bits.
fn header_of(file: &[u8], count: usize) -> Vec<u8> {
    let mut bytes = file[..44 + 2 * count].to_vec();
    bytes[4..8].copy_from_slice(&(36 + 2 * count as u32).to_le_bytes());
    bytes[40..44].copy_from_slice(&(2 * count as u32).to_le_bytes());
    bytes
}

/// How many instructions this program takes in a case of one of the crates.
fn instructions(folder: &str, side: usize, case: &Case) -> String {
    let ran = Command::new("valgrind")
        .args(["--tool=callgrind", "--toggle-collect=measured"])
        .arg(format!("--callgrind-out-file={folder}/callgrind"))
        .arg(std::env::current_exe().unwrap())
        .args([&format!("once-{side}"), &case.name, folder])
        .output()
        .expect("valgrind is there");
    let said = String::from_utf8_lossy(&ran.stderr);
    let count = said.split("Collected : ").nth(1).and_then(|rest| rest.split_whitespace().next());
    let count: f64 = count.and_then(|count| count.parse().ok()).unwrap_or_else(|| panic!("{said}"));
    format!("{:.0}", count / case.units as f64)
}

/// The least times of each case, by both.
fn times(cases: &mut [Vec<Case>; 4], rounds: u32) -> Vec<[f64; 2]> {
    let mut least = vec![[f64::INFINITY; 2]; cases[0].len()];
    for _ in 0..rounds {
        for (i, least) in least.iter_mut().enumerate() {
            for (turn, cases) in cases.iter_mut().enumerate() {
                let case = &mut cases[i];
                let time = measured(&mut case.call) / case.units as f64;
                least[turn % 2] = least[turn % 2].min(time);
            }
        }
    }
    least
}

/// The reason that slower.tsv has for a case.
fn reason(case: &Case) -> &'static str {
    let mut lines = SLOWER.lines().map(|line| line.split('\t'));
    let listed = lines.find(|words| words.clone().next() == Some(&case.name));
    listed.and_then(|mut words| words.nth(4)).unwrap_or("not in slower.tsv")
}

fn print(cases: &[Case], times: &[[f64; 2]], count: impl Fn(usize, &Case) -> String) {
    println!("case\thound 3.5.1\tpackage\tratio");
    for (case, [original, package]) in cases.iter().zip(times) {
        println!("{}\t{original:.2}\t{package:.2}\t{:.2}", case.name, package / original);
    }
    println!("\ncase\tratio\tinstructions of hound 3.5.1\tof the package\treason");
    let ratios = cases.iter().zip(times).map(|(case, [original, package])| (case, package / original));
    let slow: Vec<_> = ratios.clone().filter(|(case, ratio)| *ratio > case.limit()).collect();
    for (case, ratio) in &slow {
        println!("{}\t{ratio:.2}\t{}\t{}\t{}", case.name, count(0, case), count(1, case), reason(case));
    }
    let of_files = slow.iter().filter(|(case, _)| case.limit() == OF_FILES).count();
    println!(
        "\n{} cases: {} above 1.00; over a file {of_files} above {OF_FILES}, in memory {} above {IN_MEMORY}",
        cases.len(),
        ratios.filter(|(_, ratio)| *ratio > 1.0).count(),
        slow.len() - of_files
    );
}

fn main() {
    let mut words: Vec<_> = std::env::args().skip(1).filter(|word| word != "--instructions").collect();
    let counts = words.len() + 1 < std::env::args().len();
    words.resize(3, String::new());
    let root = if fs::metadata("/dev/shm").is_ok() { "/dev/shm".into() } else { std::env::temp_dir() };
    let made = root.join(format!("dropin-speed-{}", std::process::id()));
    let folder = if words[2].is_empty() { made.to_str().unwrap() } else { &words[2] };
    fs::create_dir_all(folder).unwrap();
    let files = Files::new(folder);
    let mut cases = [
        by_original::cases::<0>(&files),
        by_package::cases::<0>(&files),
        by_original::cases::<16>(&files),
        by_package::cases::<16>(&files),
    ];
    if let Some(side) = words[0].strip_prefix("once-") {
        let side: usize = side.parse().unwrap();
        let case = cases[side].iter_mut().find(|case| case.name == words[1]).unwrap();
        measured(&mut case.call);
        return;
    }
    cases.iter_mut().for_each(|cases| cases.retain(|case| case.name.contains(&words[1])));
    let least = times(&mut cases, words[0].parse().expect("ROUNDS is a number"));
    print(&cases[0], &least, |side, case| if counts { instructions(folder, side, case) } else { String::new() });
    fs::remove_dir_all(folder).unwrap();
}
