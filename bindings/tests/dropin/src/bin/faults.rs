//! A writer of which each call fails in turn, once or from there on, a write after half of its bytes: after an Ok
//! `finalize` the original reads the accepted samples, exactly; after an error those of the last `flush` that was Ok,
//! and maybe more of the accepted. The package keeps this; of the original it is counted. Where the header counts a
//! part of a frame, which a later `flush` was to finish, the frames before it are read. (An append that can't begin
//! leaves the file as it was.) And writers that are full at each length: the package counts no fewer samples than the
//! original, but for those since the last `flush`.   faults
use dropin::{both, Tally};
use std::cell::RefCell;
use std::collections::BTreeMap;
use std::io::{self, BufWriter, Cursor, Read, Seek, SeekFrom, Write};
use std::rc::Rc;

/// A file in memory, the calls up to now, which of them fails first, and whether all after it do, or how many bytes
/// there may be.
#[derive(Default)]
struct Disk {
    file: Cursor<Vec<u8>>,
    room: Option<usize>,
    calls: u32,
    fails: u32,
    goes_on: bool,
}

#[derive(Clone)]
struct Faulty(Rc<RefCell<Disk>>);

impl Faulty {
    fn call(&self) -> io::Result<()> {
        let mut disk = self.0.borrow_mut();
        disk.calls += 1;
        if disk.calls == disk.fails || disk.goes_on && disk.calls > disk.fails {
            return Err(io::Error::new(io::ErrorKind::Other, "fault"));
        }
        Ok(())
    }
}

impl Write for Faulty {
    fn write(&mut self, bytes: &[u8]) -> io::Result<usize> {
        self.call()?;
        let mut disk = self.0.borrow_mut();
        let count = if bytes.len() > 3 { bytes.len() / 2 } else { bytes.len() };
        let room = disk.room.map_or(count, |room| room.saturating_sub(disk.file.position() as usize));
        match count.min(room) {
            0 => Err(io::Error::new(io::ErrorKind::Other, "full")),
            count => disk.file.write(&bytes[..count]),
        }
    }
    fn flush(&mut self) -> io::Result<()> {
        self.call()
    }
}

impl Seek for Faulty {
    fn seek(&mut self, to: SeekFrom) -> io::Result<u64> {
        self.call()?;
        self.0.borrow_mut().file.seek(to)
    }
}

impl Read for Faulty {
    fn read(&mut self, bytes: &mut [u8]) -> io::Result<usize> {
        self.call()?;
        self.0.borrow_mut().file.read(bytes)
    }
}

#[derive(Clone, Copy)]
struct Plan {
    channels: u16,
    bits: u16,
    is_float: bool,
    burst: i32,
    appends: bool,
    is_buffered: bool,
}

/// What a run accepted, how much of it was flushed, and whether the end was Ok.
#[derive(Default)]
struct Record {
    accepted: Vec<i32>,
    flushed: usize,
    ended: bool,
}

both! {
    use hound::{SampleFormat, WavSpec, WavWriter};

    fn write<W: Write + Seek>(writer: hound::Result<WavWriter<W>>, plan: Plan, record: &mut Record) {
        let Ok(mut writer) = writer else { return };
        for i in 0..40i32 {
            for j in 0..if i % 20 == 0 { plan.burst } else { 3 } {
                let sample = (i * 7 + j) % 128;
                let result =
                    if plan.is_float { writer.write_sample(sample as f32) } else { writer.write_sample(sample) };
                record.accepted.extend(result.ok().map(|()| sample));
            }
            if plan.bits == 16 && i % 5 == 4 {
                let mut batch = writer.get_i16_writer(4);
                (0..4).for_each(|sample| batch.write_sample(sample as i16));
                record.accepted.extend(batch.flush().ok().map_or(0..0, |()| 0..4));
            }
            if i % 7 == 6 && writer.flush().is_ok() {
                record.flushed = record.accepted.len();
            }
        }
        // The last frame is finished.
        while record.accepted.len() % usize::from(plan.channels) > 0 {
            let result = if plan.is_float { writer.write_sample(1.0) } else { writer.write_sample(1) };
            let Ok(()) = result else { break };
            record.accepted.push(1);
        }
        record.ended = writer.finalize().is_ok();
    }

    pub fn run(disk: &Faulty, plan: Plan) -> Record {
        let mut record = Record::default();
        let sample_format = if plan.is_float { SampleFormat::Float } else { SampleFormat::Int };
        let spec = WavSpec { channels: plan.channels, sample_rate: 8000, bits_per_sample: plan.bits, sample_format };
        match plan.is_buffered {
            false => write(WavWriter::new(disk.clone(), spec), plan, &mut record),
            true => write(WavWriter::new(BufWriter::new(disk.clone()), spec), plan, &mut record),
        }
        if plan.appends && record.ended {
            disk.0.borrow_mut().file.set_position(0);
            record.flushed = record.accepted.len();
            write(WavWriter::new_append(disk.clone()), plan, &mut record);
        }
        record
    }
}

/// What the original reads, of a file whose header counts no part of a frame, if it isn't `as_it_is`.
fn read(file: &[u8], as_it_is: bool) -> Option<Vec<i32>> {
    let (mut file, start) = (file.to_vec(), if file.get(16) == Some(&16) { 44 } else { 68 });
    if !as_it_is && file.len() >= start {
        let length = counted(&file, start) as u32;
        let frame = u32::from(u16::from_le_bytes([file[32], file[33]]));
        file[start - 4..start].copy_from_slice(&(length / frame * frame).to_le_bytes());
    }
    original::WavReader::new(&file[..]).ok().map(|mut reader| match reader.spec().sample_format {
        original::SampleFormat::Int => reader.samples::<i32>().map_while(|sample| sample.ok()).collect(),
        original::SampleFormat::Float => {
            reader.samples::<f32>().map_while(|sample| sample.ok()).map(|sample| sample as i32).collect()
        }
    })
}

fn outcome(record: &Record, file: &[u8]) -> (bool, &'static str) {
    match (record.ended, read(file, true)) {
        (true, None) => (false, "Ok, unreadable"),
        (true, Some(read)) if read == record.accepted => (true, "Ok, exactly the accepted samples"),
        (true, Some(_)) => (false, "Ok, OTHER samples"),
        (false, None) if record.flushed == 0 => (true, "an error, unreadable, and nothing was flushed"),
        (false, None) => match read(file, false) {
            Some(read) if read.len() >= record.flushed && record.accepted.starts_with(&read) => {
                (true, "an error, at least the flushed samples, and a part of a frame")
            }
            _ => (false, "an error, unreadable"),
        },
        (false, Some(read)) if read.len() >= record.flushed && record.accepted.starts_with(&read) => {
            (true, "an error, at least the flushed samples")
        }
        (false, Some(_)) => (false, "an error, OTHER samples"),
    }
}

/// How many bytes of samples the header counts.
fn counted(file: &[u8], start: usize) -> usize {
    file.get(start - 4..start).map_or(0, |length| u32::from_le_bytes(length.try_into().unwrap()) as usize)
}

fn full(tally: &mut Tally) {
    for (bits, is_float) in [(8, false), (16, false), (24, false), (32, false), (32, true)] {
        let plan = Plan { channels: 1, bits, is_float, burst: 50, appends: false, is_buffered: false };
        let (start, width) = (if bits > 16 { 68 } else { 44 }, usize::from(bits / 8));
        for room in 0..1000 {
            let [(original, _), (package, flushed)] =
                [by_original::run as fn(&Faulty, Plan) -> Record, by_package::run].map(|run| {
                    let disk = Faulty(Rc::new(RefCell::new(Disk { room: Some(room), ..Disk::default() })));
                    let record = run(&disk, plan);
                    let disk = disk.0.borrow();
                    (counted(disk.file.get_ref(), start), record.flushed * width)
                });
            if package >= original {
                tally.same();
            } else if package >= flushed {
                tally.listed("a full file: the block that has no room isn't counted");
            } else {
                tally
                    .unexplained(|| format!("{bits} bits {is_float}, full at {room}: {original} bytes, and {package}"));
            }
        }
    }
}

fn main() {
    let mut tally = Tally::default();
    full(&mut tally);
    for (name, run) in [("original", by_original::run as fn(&Faulty, Plan) -> Record), ("package", by_package::run)] {
        let mut outcomes = BTreeMap::new();
        let formats = [
            (1, 8, false),
            (1, 16, false),
            (1, 24, false),
            (1, 32, true),
            (2, 16, false),
            (3, 8, false),
            (5, 24, false),
        ];
        for (channels, bits, is_float) in formats {
            for (burst, appends, is_buffered, goes_on) in [
                (50, false, false, false),
                (50, true, false, false),
                (50, false, true, false),
                (50, true, true, true),
                (4500, false, false, false),
                (4500, true, true, true),
            ] {
                if burst > 50 && (name == "original" || bits == 32) || channels > 1 && name == "original" {
                    continue; // Too many calls, sizes of more than 16 bits, which half a write tears, and torn frames.
                }
                let plan = Plan { channels, bits, is_float, burst, appends, is_buffered };
                for fails in 1.. {
                    let disk = Faulty(Rc::new(RefCell::new(Disk { fails, goes_on, ..Disk::default() })));
                    let record = run(&disk, plan);
                    let disk = disk.0.borrow();
                    let (is_kept, what) = outcome(&record, disk.file.get_ref());
                    *outcomes.entry(what).or_insert(0) += 1;
                    match is_kept {
                        _ if name == "original" => {}
                        true => tally.same(),
                        false => tally.unexplained(|| {
                            format!(
                                "call {fails} of {channels} channels, {bits} bits, {burst} {appends} {is_buffered} \
                                 {goes_on}: {what}"
                            )
                        }),
                    }
                    if disk.calls < fails {
                        break;
                    }
                }
            }
        }
        println!("faults: {name}: {outcomes:?}");
    }
    tally.end("faults")
}
