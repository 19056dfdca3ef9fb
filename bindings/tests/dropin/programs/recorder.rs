//! Records unsigned bytes of standard input as samples of 8, 16, 24 or 32 bits or as floats; goes on with a file that
//! is there, and makes it whole after each 100 samples.   recorder FILE BITS|float
use hound::{SampleFormat, WavSpec, WavWriter};
use std::env;
use std::io::{self, Read};
use std::path::Path;

fn main() -> hound::Result<()> {
    let words: Vec<String> = env::args().collect();
    let is_float = words[2] == "float";
    let bits = if is_float { 32 } else { words[2].parse().unwrap() };
    let sample_format = if is_float { SampleFormat::Float } else { SampleFormat::Int };
    let spec = WavSpec { channels: 1, sample_rate: 8000, bits_per_sample: bits, sample_format };
    let mut writer =
        if Path::new(&words[1]).exists() { WavWriter::append(&words[1])? } else { WavWriter::create(&words[1], spec)? };
    assert_eq!(writer.spec(), spec);
    for byte in io::stdin().lock().bytes() {
        let sample = i32::from(byte?) - 128;
        if is_float {
            writer.write_sample(sample as f32 / 128.0)?;
        } else {
            writer.write_sample(sample << (bits - 8))?;
        }
        if writer.len() % 100 == 0 {
            writer.flush()?;
        }
    }
    writer.finalize()
}
