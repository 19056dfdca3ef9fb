//! Writes the samples of a recording to standard output while another program makes it, as 16-bit integers,
//! little-endian. It ends once nothing new was counted for so many milliseconds and no program has the file locked,
//! after one more look: only in this order it writes what the last checkpoint counts, too.
//!
//!     follow FILE MILLISECONDS | aplay -t raw -f S16_LE -c 2 -r 44100
use hound::Follower;
use std::fs::File;
use std::io::{self, Write};
use std::time::{Duration, Instant};
use std::{env, process, thread};

const PAUSE: Duration = Duration::from_millis(5);

/// The words of the command: the file, and for how long nothing new is counted at its end.
fn parsed(mut words: impl Iterator<Item = String>) -> Option<(String, Duration)> {
    let (path, idle) = (words.next()?, words.next()?.parse().ok()?);
    Some((path, Duration::from_millis(idle))).filter(|_| words.next().is_none())
}

fn main() -> hound::Result<()> {
    let (path, idle) = parsed(env::args().skip(1)).unwrap_or_else(|| {
        eprintln!("usage: follow FILE MILLISECONDS");
        process::exit(2)
    });
    let mut follower = Follower::new(File::open(&path)?);
    let mut samples = [0i16; 4096];
    let (mut since, mut is_last) = (Instant::now(), false);
    loop {
        let count = follower.read_samples(&mut samples)?;
        if count > 0 {
            let bytes: Vec<u8> = samples[..count].iter().flat_map(|sample| sample.to_le_bytes()).collect();
            io::stdout().write_all(&bytes)?;
            io::stdout().flush()?;
            since = Instant::now();
            is_last = false;
        } else if is_last {
            return Ok(());
        } else {
            thread::sleep(PAUSE);
            is_last = since.elapsed() >= idle && hound::lock(&File::open(&path)?).is_ok();
        }
    }
}
