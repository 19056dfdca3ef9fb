//! Records the frames of standard input, whose samples are integers as a WAV file has them, little-endian. After every
//! so many samples, rounded up to whole frames, a checkpoint makes the file's header count all, and prints how many
//! these are. After an error the program continues, and prints how many samples were lost. With `append` it repairs the
//! file, where a recording was cut off, and continues after all that it holds; without it an existing file is emptied.
//! With `durable` the checkpoints survive a power failure.
//!
//!     arecord -t raw -f S16_LE -c 2 -r 44100 | record FILE 44100 2 16 SAMPLES [append] [durable]
use hound::blocks::WriteSamples;
use hound::{RepairState, Sample, SampleFormat, WavSpec, WavWriter};
use std::io::{self, Read};
use std::{env, process};

fn stop(why: &str) -> ! {
    eprintln!("record: {why}");
    process::exit(1)
}

/// The spec, and after how many samples a checkpoint is made, that the words say.
fn parsed(words: &[String]) -> Option<(WavSpec, u32)> {
    let number = |at: usize| words.get(at)?.parse::<u32>().ok().filter(|number| *number > 0);
    let (sample_rate, channels) = (number(2)?, u16::try_from(number(3)?).ok()?);
    let bits_per_sample = u16::try_from(number(4)?).ok()?;
    let are_known = words.get(6..)?.iter().all(|word| word == "append" || word == "durable");
    let spec = WavSpec { channels, sample_rate, bits_per_sample, sample_format: SampleFormat::Int };
    Some((spec, number(5)?)).filter(|_| are_known && [8, 16, 24, 32].contains(&bits_per_sample))
}

/// Repairs the file, after which all that it holds counts, or stops if other samples can't follow that.
fn prepare_to_append(path: &str, spec: WavSpec) -> hound::Result<()> {
    let found = hound::repair_file(path)?;
    if found.state == RepairState::HasChunksAfterData {
        stop("chunks or a tag follow the samples, and appending would overwrite them")
    }
    if found.spec_ex.spec != spec {
        stop("the file has samples of another kind")
    }
    Ok(())
}

fn main() -> hound::Result<()> {
    let words: Vec<String> = env::args().collect();
    let usage = "usage: record FILE RATE CHANNELS BITS SAMPLES [append] [durable]";
    let (spec, every) = parsed(&words).unwrap_or_else(|| stop(usage));
    let has = |word: &str| words[6..].iter().any(|other| other == word);
    if has("append") {
        prepare_to_append(&words[1], spec)?;
    }
    let mut writer = match (has("append"), has("durable")) {
        (false, false) => WavWriter::create(&words[1], spec)?,
        (false, true) => WavWriter::create_durable(&words[1], spec)?,
        (true, false) => WavWriter::append(&words[1])?,
        (true, true) => WavWriter::append_durable(&words[1])?,
    };

    let (mut errors, width, channels) = (0, usize::from(spec.bits_per_sample / 8), usize::from(spec.channels));
    let most = (every as usize + channels - 1) / channels * channels * width;
    loop {
        let mut bytes = Vec::new();
        if io::stdin().lock().take(most as u64).read_to_end(&mut bytes)? < channels * width {
            break;
        }
        let integer = |mut container| {
            i32::read(&mut container, spec.sample_format, spec.bits_per_sample / 8, spec.bits_per_sample)
        };
        let frames = bytes.chunks_exact(channels * width).flat_map(|frame| frame.chunks(width));
        let samples = frames.map(integer).collect::<hound::Result<Vec<_>>>()?;
        // Half of the frames one by one, and the others at once: all or none, so that an error tears no frame.
        let (single, block) = samples.split_at(samples.len() / channels / 2 * channels);
        for frame in single.chunks(channels).chain([block]) {
            let result = match frame {
                [sample] => writer.write_sample(*sample),
                frame => writer.write_samples(frame),
            };
            if result.is_err() {
                println!("lost {} samples after {}", frame.len(), writer.len());
                errors += 1;
            }
        }
        match writer.flush() {
            Ok(()) => println!("{}", writer.len()),
            Err(_) => errors += 1,
        }
    }
    let count = writer.len();
    errors += i32::from(writer.finalize().is_err());
    println!("recorded {count} samples");
    process::exit(i32::from(errors > 0))
}
