// The program's `pack` and `show` over the original crate, in plain Rust: the text is read into a
// `String`, parsed by std's `parse`, and written by `writeln!`.
use std::io::{self, BufWriter, Cursor, Read, Write};

fn pack(channels: u16, rate: u32, bits: u16) -> hound::Result<()> {
    let spec = hound::WavSpec {
        channels,
        sample_rate: rate,
        bits_per_sample: bits,
        sample_format: hound::SampleFormat::Int,
    };
    let mut text = String::new();
    io::stdin().read_to_string(&mut text)?;
    let mut bytes = Cursor::new(Vec::new());
    let mut writer = hound::WavWriter::new(&mut bytes, spec)?;
    for word in text.split_ascii_whitespace() {
        writer.write_sample(word.parse::<i32>().unwrap())?;
    }
    writer.finalize()?;
    Ok(io::stdout().write_all(bytes.get_ref())?)
}

fn show() -> hound::Result<()> {
    let mut bytes = Vec::new();
    io::stdin().read_to_end(&mut bytes)?;
    let mut reader = hound::WavReader::new(&bytes[..])?;
    let mut output = BufWriter::new(io::stdout().lock());
    let spec = reader.spec();
    let (channels, rate, bits) = (spec.channels, spec.sample_rate, spec.bits_per_sample);
    writeln!(output, "channels {channels} rate {rate} bits {bits} format int samples {}", reader.len())?;
    for sample in reader.samples::<i32>() {
        writeln!(output, "{}", sample?)?;
    }
    Ok(output.flush()?)
}

fn main() {
    let words: Vec<String> = std::env::args().collect();
    match words[1].as_str() {
        "pack" => pack(words[2].parse().unwrap(), words[3].parse().unwrap(), words[4].parse().unwrap()),
        _ => show(),
    }
    .unwrap();
}
