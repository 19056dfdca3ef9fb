//! Recordings that are read while they are made. What kills leave is tried in bindings/tests/follow.py.
#![cfg(feature = "std")]
#[allow(dead_code)]
mod common;

use common::{Path, MONO};
use hound::{Error, Follower, SampleFormat, WavSpec, WavWriter};
use std::fs::{self, File};
use std::io::{Cursor, ErrorKind};

const STEREO: WavSpec =
    WavSpec { channels: 2, sample_rate: 48000, bits_per_sample: 24, sample_format: SampleFormat::Int };

/// All that a follower reads by now, by pieces of so many samples.
fn read(follower: &mut Follower<File>, piece: usize) -> hound::Result<Vec<i32>> {
    let (mut all, mut samples) = (Vec::new(), vec![0; piece]);
    loop {
        match follower.read_samples(&mut samples)? {
            0 => return Ok(all),
            count => all.extend_from_slice(&samples[..count]),
        }
    }
}

fn is_eof<T>(result: hound::Result<T>) -> bool {
    matches!(result, Err(Error::IoError(error)) if error.kind() == ErrorKind::UnexpectedEof)
}

#[test]
fn what_each_flush_publishes_is_read() {
    let path = Path::new("follow");
    let mut writer = WavWriter::create(&path, STEREO).unwrap();
    writer.flush().unwrap();
    let mut follower = Follower::new(File::open(&path).unwrap());
    let (mut written, mut given) = (0, Vec::new());
    for count in [2, 6, 0, 1, 1, 4000, 2, 30000] {
        for _ in 0..count {
            writer.write_sample(written).unwrap();
            written += 1;
        }
        let before = given.len();
        given.extend(read(&mut follower, 1000).unwrap());
        assert_eq!(given.len(), before, "nothing is counted before the flush");
        let is_whole = written % 2 == 0;
        assert_eq!(writer.flush().is_ok(), is_whole);
        given.extend(read(&mut follower, 1001).unwrap());
        assert_eq!(given, (0..written - written % 2).collect::<Vec<i32>>());
    }
    assert_eq!(follower.spec_ex().unwrap().spec, STEREO);
    writer.finalize().unwrap();
    assert!(read(&mut follower, 64).unwrap().is_empty());
}

#[test]
fn a_header_that_is_written_is_waited_for() {
    let path = Path::new("follow-header");
    let whole = common::written(MONO, &[2i16, -3, 5, -7]);
    let mut follower = Follower::new({
        fs::write(&path, b"").unwrap();
        File::open(&path).unwrap()
    });
    for count in 0..44 {
        fs::write(&path, &whole[..count]).unwrap();
        assert_eq!(read(&mut follower, 8).unwrap(), []);
        assert!(follower.spec_ex().is_none());
    }
    fs::write(&path, &whole).unwrap();
    assert_eq!(read(&mut follower, 3).unwrap(), [2, -3, 5, -7]);
}

#[test]
fn a_length_that_counts_less_changes_nothing() {
    let path = Path::new("follow-less");
    let mut whole = common::written(MONO, &[1i16; 300]);
    fs::write(&path, &whole).unwrap();
    let mut follower = Follower::new(File::open(&path).unwrap());
    assert_eq!(read(&mut follower, 500).unwrap().len(), 300);
    whole[41] = 0; // The length's second byte: a checkpoint was cut off.
    fs::write(&path, &whole).unwrap();
    assert_eq!(read(&mut follower, 500).unwrap(), []);
}

#[test]
fn what_is_no_longer_there_is_an_error() {
    let path = Path::new("follow-replaced");
    let whole = common::written(MONO, &[1i16, 2, 3, 4]);
    for other in [&whole[..44], &whole[..20], &[], &common::written(MONO, &[1i16, 2, 3, 5, 6])[..]] {
        fs::write(&path, &whole).unwrap();
        let mut follower = Follower::new(File::open(&path).unwrap());
        assert_eq!(read(&mut follower, 8).unwrap(), [1, 2, 3, 4]);
        fs::write(&path, other).unwrap();
        assert!(is_eof(read(&mut follower, 8)), "{} bytes", other.len());
    }
}

#[test]
fn what_is_no_recording_is_named() {
    let path = Path::new("follow-none");
    let whole = common::written(MONO, &[1i16, 2]);
    let follow = |bytes: &[u8]| {
        fs::write(&path, bytes).unwrap();
        read(&mut Follower::new(File::open(&path).unwrap()), 8)
    };
    assert!(matches!(follow(b"RIFX\0\0\0\0WAVE"), Err(Error::FormatError("no RIFF tag found"))));
    let stream = [&whole[..40], &[255; 4], &whole[44..]].concat(); // Its writer didn't know the length.
    assert!(follow(&stream).is_err());
    let lacks = [&whole[..40], &[8, 0, 0, 0], &whole[44..]].concat();
    assert!(is_eof(follow(&lacks)));
}

#[test]
fn a_slice_has_room_for_a_frame() {
    let path = Path::new("follow-room");
    fs::write(&path, common::written(STEREO, &[1i32, 2])).unwrap();
    let mut follower = Follower::new(File::open(&path).unwrap());
    assert!(follower.read_samples(&mut [0i32]).is_err());
    assert!(matches!(follower.read_samples(&mut [0i16; 2]), Err(Error::TooWide)));
    let mut floats = [0f32; 2];
    assert!(matches!(follower.read_samples(&mut floats), Err(Error::InvalidSampleFormat)));
    assert_eq!(read(&mut follower, 2).unwrap(), [1, 2]);
    assert_eq!(Follower::new(Cursor::new(Vec::new())).read_samples(&mut [0i8]).unwrap(), 0);
}
