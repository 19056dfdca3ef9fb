//! Writes, appends to, seeks in and reads files in memory by each call of the Cargo package hound, and prints a number
//! that is made of all answers and all files: it is the same on a system whose `usize` has 32 bits.
use hound::blocks::{ReadSamples, WriteSamples};
use hound::{Result, SampleFormat, WavReader, WavSpec, WavSpecEx, WavWriter};
use std::fmt::Debug;
use std::io::Cursor;

/// Numbers that look random, by xorshift.
struct Chooser(u64);

impl Chooser {
    fn below(&mut self, limit: u64) -> u64 {
        self.0 ^= self.0 << 13;
        self.0 ^= self.0 >> 7;
        self.0 ^= self.0 << 17;
        (self.0 >> 11) % limit
    }
}

/// FNV-1a of what was answered.
struct Answers(u64);

impl Answers {
    fn add(&mut self, bytes: &[u8]) {
        for byte in bytes {
            self.0 = (self.0 ^ u64::from(*byte)).wrapping_mul(0x100_0000_01b3);
        }
    }

    fn show(&mut self, answer: impl Debug) {
        self.add(format!("{answer:?} ").as_bytes());
    }
}

fn write(writer: &mut WavWriter<&mut Cursor<Vec<u8>>>, chooser: &mut Chooser, answers: &mut Answers) -> Result<()> {
    let bits = chooser.below(31);
    let sample = (chooser.below(1 << 32) as u32 as i32) >> bits;
    match chooser.below(7) {
        0 => writer.write_sample(sample as i8),
        1 => writer.write_sample(sample as i16),
        2 => writer.write_sample(sample),
        3 => writer.write_sample(sample as f32),
        4 => writer.write_samples(&vec![sample; chooser.below(3000) as usize]),
        5 => writer
            .write_scaled(&vec![sample as f32 / 1e9; chooser.below(30) as usize])
            .map(|clipped| answers.show(clipped)),
        _ => writer.flush(),
    }
}

fn read(reader: &mut WavReader<Cursor<&[u8]>>, chooser: &mut Chooser, answers: &mut Answers) {
    let duration = u64::from(reader.duration());
    answers.show(reader.seek(chooser.below(duration + 2) as u32).is_ok());
    match reader.spec().sample_format {
        SampleFormat::Int => reader.samples::<i32>().take(5).for_each(|sample| answers.show(sample)),
        SampleFormat::Float => reader.samples::<f32>().take(5).for_each(|sample| answers.show(sample)),
    }
    let mut block = [0f64; 33];
    answers.show(reader.read_scaled(&mut block));
    answers.show((block, reader.samples::<i32>().size_hint()));
}

fn history(spec_ex: WavSpecEx, chooser: &mut Chooser, answers: &mut Answers) -> Result<()> {
    let (mut file, channels) = (Cursor::new(Vec::new()), u32::from(spec_ex.spec.channels));
    for session in 0..3 {
        file.set_position(0);
        let mut writer = match session {
            0 => WavWriter::new_with_spec_ex(&mut file, spec_ex)?,
            _ => WavWriter::new_append(&mut file)?,
        };
        for _ in 0..chooser.below(12) {
            let result = write(&mut writer, chooser, answers);
            answers.show((result, writer.len()));
        }
        while writer.len() % channels > 0 {
            writer.write_sample(0i32)?;
        }
        writer.finalize()?;
    }
    answers.add(file.get_ref());
    let mut reader = WavReader::new(Cursor::new(&file.get_ref()[..]))?;
    (0..10).for_each(|_| read(&mut reader, chooser, answers));
    Ok(())
}

fn main() -> Result<()> {
    let (mut chooser, mut answers) = (Chooser(88_172_645_463_325_252), Answers(0xcbf2_9ce4_8422_2325));
    let (int, float) = (SampleFormat::Int, SampleFormat::Float);
    for sample_rate in 8000..8200 {
        for (bits_per_sample, bytes_per_sample, sample_format) in
            [(8, 1, int), (16, 2, int), (24, 3, int), (24, 4, int), (32, 4, int), (32, 4, float)]
        {
            for channels in 1..4 {
                let spec = WavSpec { channels, sample_rate, bits_per_sample, sample_format };
                history(WavSpecEx { spec, bytes_per_sample }, &mut chooser, &mut answers)?;
            }
        }
    }
    println!("{:016x}", answers.0);
    Ok(())
}
