//! A metronome: clicks at a tempo.   metronome FILE BEATS_PER_MINUTE BEATS
use std::env;
use std::f32::consts::PI;

fn main() {
    let words: Vec<String> = env::args().collect();
    let (tempo, beats): (u32, u32) = (words[2].parse().unwrap(), words[3].parse().unwrap());
    let spec = hound::WavSpec {
        channels: 2,
        sample_rate: 44100,
        bits_per_sample: 16,
        sample_format: hound::SampleFormat::Int,
    };
    let mut writer = hound::WavWriter::create(&words[1], spec).unwrap();
    let beat = spec.sample_rate * 60 / tempo;
    for number in 0..beats {
        let pitch = if number % 4 == 0 { 1760.0 } else { 880.0 };
        for time in 0..beat {
            let seconds = time as f32 / spec.sample_rate as f32;
            let click = (seconds * pitch * 2.0 * PI).sin() * (-seconds * 60.0).exp();
            let amplitude = (click * i16::MAX as f32) as i16;
            writer.write_sample(amplitude).unwrap();
            writer.write_sample(amplitude / 2).unwrap();
        }
    }
    println!("{} seconds", writer.duration() / spec.sample_rate);
    writer.finalize().unwrap();
}
