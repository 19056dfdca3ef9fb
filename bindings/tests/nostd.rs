//! Records into memory, cuts the file off, repairs, walks and decodes it, many times, by the machines and slices of the
//! Cargo package hound, without `std` and without an allocator. `hound_answer` returns a number that is made of all
//! bytes: the same on each processor.
#![no_std]
use core::panic::PanicInfo;
use hound::machines::{
    beginning_effect, count_samples, header_of, part_from, repair_next, take_part, Action, BeginningEffect, Effect,
    HeadWalk, Part, Recorder, RepairStep, Repairing, Report, Stage, Step, Task,
};
use hound::slices::{decode_block, encode_block, encode_with_noise, write_sizes, CallError, UnitDouble};
use hound::{SampleFormat, WavSpec, WavSpecEx};

/// A panic, after which a test waits in vain.
#[panic_handler]
fn panic(_: &PanicInfo) -> ! {
    loop {}
}

struct Storage {
    bytes: [u8; 2000],
    length: usize,
    calls: u64, // One of so many fails.
    chooser: u64,
}

impl Storage {
    fn below(&mut self, limit: u64) -> u64 {
        self.chooser ^= self.chooser << 13;
        self.chooser ^= self.chooser >> 7;
        self.chooser ^= self.chooser << 17;
        (self.chooser >> 11) % limit
    }

    fn write(&mut self, place: u64, bytes: &[u8]) {
        let (place, end) = (place as usize, place as usize + bytes.len());
        self.bytes[place..end].copy_from_slice(bytes);
        self.length = self.length.max(end);
    }

    fn read(&self, place: u64, count: usize) -> &[u8] {
        let rest = &self.bytes[self.length.min(place as usize)..self.length];
        &rest[..count.min(rest.len())]
    }

    fn perform(&mut self, action: Action, block: &[u8]) -> Report {
        if self.calls > 0 && self.below(self.calls) == 0 {
            return if self.below(2) == 0 { Report::Failed } else { Report::Pending };
        }
        match action {
            Action::Perform(Effect::Sync) | Action::Read(..) => {}
            Action::Perform(Effect::Pad(place)) => self.write(place, &[0]),
            Action::Perform(Effect::Size(place, size)) => self.write(place, &size.to_le_bytes()),
            Action::WriteBlock(place, _) => self.write(place, block),
            Action::Shorten(place) => self.length = self.length.min(place as usize),
        }
        Report::Done
    }

    fn perform_all(&mut self, recorder: &mut Recorder, block: &[u8]) -> Result<(), CallError> {
        let mut report = Report::Pending;
        while let Some(action) = recorder.next(report).map_err(CallError::Recorder)? {
            report = self.perform(action, block);
        }
        Ok(())
    }

    fn record(&mut self, spec: WavSpecEx) -> Result<(), CallError> {
        for number in 0.. {
            match beginning_effect(spec, number).map_err(CallError::Recorder)? {
                Some(BeginningEffect::Header(first)) => {
                    self.write(first.into(), part_from(header_of(spec, 0, 0).as_slice(), first))
                }
                Some(_) => self.length = 0,
                None => break,
            }
        }
        let mut recorder = Recorder::begin(spec).map_err(CallError::Recorder)?;
        let (mut state, mut clipped, mut block) = (self.chooser, 0, [0; 48]);
        for _ in 0..8 {
            let wide = self.below(1 << 32) as u32 as i32 >> self.below(31);
            let samples = [wide, wide >> 1, -(wide >> 2), 7, 0, 1];
            let floats = samples.map(|sample| f64::from(sample) / 1e9);
            let length = match spec.spec.sample_format {
                SampleFormat::Float => {
                    encode_block(spec, SampleFormat::Float, &floats.map(|float| float as f32), &mut block)
                }
                SampleFormat::Int if wide % 2 == 0 => {
                    encode_with_noise(spec, &floats, &mut state, &mut block, &mut clipped)
                }
                SampleFormat::Int => encode_block(spec, SampleFormat::Int, &samples, &mut block),
            };
            if let Ok(length) = length {
                recorder.write(Report::Pending, 6).map_err(CallError::Recorder)?;
                let _ = self.perform_all(&mut recorder, &block[..length]);
            }
            if self.below(3) == 0 {
                recorder.checkpoint(Report::Pending);
                let _ = self.perform_all(&mut recorder, &[]);
            }
        }
        Ok(())
    }

    fn repair(&mut self, task: Task) -> Result<u32, CallError> {
        let (mut state, mut report, length) = (Repairing::Looks(Stage::first()), Report::Pending, self.length as u64);
        let (mut bytes, mut count) = ([0; 40], 0);
        loop {
            match repair_next(&mut state, length, task, &bytes[..count], report) {
                Ok(RepairStep::Asks(action)) => {
                    report = self.perform(action, &[]);
                    if let Action::Read(place, most) = action {
                        let read = self.read(place, most as usize);
                        count = read.len();
                        bytes[..count].copy_from_slice(read);
                    }
                }
                Ok(RepairStep::Found(damage)) => return Ok(damage.repair().frames),
                Err(_) => return Err(CallError::NotPerformed),
            }
        }
    }

    fn decode(&self, answer: &mut Answer) -> Result<(), CallError> {
        let mut walk = HeadWalk { found: None, taken: 0, part: Part::Front };
        let head = loop {
            match take_part(walk, self.read(walk.start(), walk.length()))? {
                Step::Next(next) => walk = next,
                Step::Data(head) => break head,
            }
        };
        let (samples, data, mut sizes) = (count_samples(head)?, self.read(head.data_start, self.length), [0; 8]);
        answer.add(&write_sizes(head.spec_ex, head.data_start, samples.into(), &mut sizes)?.to_le_bytes()[..4]);
        answer.add(&sizes);
        let mut doubles = [UnitDouble(0.0); 60];
        let decoded = decode_block(head.spec_ex, data, &mut doubles);
        answer.add(&[decoded.is_ok().into(), decoded.unwrap_or(0) as u8]);
        doubles.iter().for_each(|double| answer.add(&double.0.to_bits().to_le_bytes()));
        Ok(())
    }
}

/// FNV-1a.
struct Answer(u64);

impl Answer {
    fn add(&mut self, bytes: &[u8]) {
        for byte in bytes {
            self.0 = (self.0 ^ u64::from(*byte)).wrapping_mul(0x100_0000_01b3);
        }
    }
}

#[no_mangle]
pub extern "C" fn hound_answer() -> u64 {
    let mut answer = Answer(0xcbf2_9ce4_8422_2325);
    let mut storage = Storage { bytes: [0; 2000], length: 0, calls: 0, chooser: 88_172_645_463_325_252 };
    let (int, float) = (SampleFormat::Int, SampleFormat::Float);
    for (bits_per_sample, bytes_per_sample, sample_format) in
        [(8, 1, int), (16, 2, int), (24, 3, int), (24, 4, int), (32, 4, int), (32, 4, float), (12, 2, int)]
    {
        for turn in 0..300 {
            let spec = WavSpec { channels: 1 + turn % 3, sample_rate: 8000, bits_per_sample, sample_format };
            storage.calls = [0, 0, 9][usize::from(turn % 3)];
            let recorded = storage.record(WavSpecEx { spec, bytes_per_sample });
            storage.length -= storage.below(20).min(storage.length as u64) as usize;
            let task = [Task::FindDamage, Task::Repair, Task::RepairToEnd, Task::MakeCanonical][usize::from(turn % 4)];
            answer.add(&[recorded.is_ok().into(), storage.repair(task).map_or(255, |frames| frames as u8)]);
            answer.add(storage.read(0, storage.length));
            let decoded = storage.decode(&mut answer);
            answer.add(&[decoded.is_ok().into()]);
        }
    }
    answer.0
}
