//! Converts a WAV file to raw samples of 32 bits, and writes the greatest one out.   to_raw FILE RAW [FROM]
use hound::{SampleFormat, WavReader};
use std::env;
use std::fs::File;
use std::io::{BufWriter, Write};

fn run() -> Result<(), Box<dyn std::error::Error>> {
    let words: Vec<String> = env::args().collect();
    let mut reader = WavReader::open(&words[1])?;
    let mut raw = BufWriter::new(File::create(&words[2])?);
    if let Some(from) = words.get(3) {
        reader.seek(from.parse()?)?;
    }
    let spec = reader.spec();
    println!("{:?}, {} frames, {} samples left", spec, reader.duration(), reader.samples::<i32>().len());
    match spec.sample_format {
        SampleFormat::Float => {
            let mut peak = 0f32;
            for sample in reader.samples::<f32>() {
                let sample = sample?;
                peak = peak.max(sample.abs());
                raw.write_all(&sample.to_le_bytes())?;
            }
            println!("peak {peak}");
        }
        SampleFormat::Int => {
            let samples = reader.into_samples::<i32>().collect::<Result<Vec<_>, _>>()?;
            println!("peak {:?}", samples.iter().map(|sample| sample.unsigned_abs()).max());
            for sample in samples {
                raw.write_all(&sample.to_le_bytes())?;
            }
        }
    }
    raw.flush()?;
    Ok(())
}

fn main() {
    if let Err(error) = run() {
        println!("error: {error}");
        std::process::exit(1);
    }
}
