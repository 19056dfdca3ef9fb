//! Recordings in parts, whose kills bindings/tests/parts.py tries.
#![cfg(feature = "std")]
use hound::blocks::ReadSamples;
use hound::parts::PartsWriter;
use hound::{Error, Result, SampleFormat, WavReader, WavSpec};
use std::io::ErrorKind;
use std::path::{Path, PathBuf};
use std::{env, fs, process};

const STEREO: WavSpec =
    WavSpec { channels: 2, sample_rate: 44100, bits_per_sample: 24, sample_format: SampleFormat::Int };

/// A folder of this test's own, which is removed afterwards.
struct Folder(PathBuf);

impl Folder {
    fn new(name: &str) -> Folder {
        let folder = env::temp_dir().join(format!("hound-parts-{}-{name}", process::id()));
        fs::create_dir(&folder).unwrap();
        Folder(folder)
    }

    fn file(&self, name: &str) -> PathBuf {
        self.0.join(name)
    }

    fn names(&self) -> Vec<String> {
        let names = fs::read_dir(&self.0).unwrap().map(|entry| entry.unwrap().file_name().into_string().unwrap());
        let mut names: Vec<String> = names.collect();
        names.sort();
        names
    }
}

impl Drop for Folder {
    fn drop(&mut self) {
        let _ = fs::remove_dir_all(&self.0);
    }
}

/// Both samples of each of so many frames, from a number on.
fn frames(first: i32, count: i32) -> Vec<i32> {
    (first..first + count).flat_map(|number| [number, -number]).collect()
}

fn samples_of(path: &Path) -> Vec<i32> {
    let (mut samples, mut reader) = ([0; 100], WavReader::open(path).unwrap());
    let (count, result) = reader.read_samples(&mut samples);
    assert!(result.is_ok() && count == reader.len() as usize);
    samples[..count].to_vec()
}

fn kind_of<T>(result: Result<T>) -> ErrorKind {
    match result {
        Err(Error::IoError(error)) => error.kind(),
        _ => panic!("it is no IoError"),
    }
}

#[test]
fn a_block_that_has_no_room_goes_whole_into_the_next_file() {
    for is_durable in [false, true] {
        let folder = Folder::new(if is_durable { "durable" } else { "seams" });
        let create = if is_durable { PartsWriter::create_durable } else { PartsWriter::create };
        let mut writer = create(folder.file("take.one.wav"), STEREO, 5).unwrap();
        for (first, count) in [(0, 3), (3, 2), (5, 4), (9, 2), (11, 13)] {
            writer.write_samples(&frames(first, count)).unwrap();
            assert_eq!(writer.len(), 2 * (first + count) as u64);
        }
        writer.flush().unwrap();
        assert_eq!(samples_of(&folder.file("take.one-006.wav")), frames(21, 3));
        writer.write_samples(&frames(24, 1)).unwrap();
        writer.finalize().unwrap();
        let ends = [(0, 5), (5, 4), (9, 2), (11, 5), (16, 5), (21, 4)];
        let names = ["", "-002", "-003", "-004", "-005", "-006"].map(|part| format!("take.one{part}.wav"));
        for ((first, count), name) in ends.iter().zip(&names) {
            assert_eq!(samples_of(&folder.file(name)), frames(*first, *count), "{name}");
        }
        assert_eq!(folder.names().len(), 6);
    }
}

#[test]
fn a_next_file_that_is_there_is_an_error_and_stays() {
    let folder = Folder::new("there");
    fs::write(folder.file("take-002"), "mine").unwrap();
    assert_eq!(kind_of(PartsWriter::create(folder.file("take"), STEREO, 5)), ErrorKind::AlreadyExists);
    assert_eq!(folder.names(), ["take-002"]);
    assert_eq!(fs::read(folder.file("take-002")).unwrap(), b"mine");
    fs::rename(folder.file("take-002"), folder.file("take-003")).unwrap();

    let mut writer = PartsWriter::create(folder.file("take"), STEREO, 5).unwrap();
    writer.write_samples(&frames(0, 8)).unwrap();
    // After the error all that was accepted is in the file, and the recording goes on in it.
    assert_eq!(kind_of(writer.write_samples(&frames(8, 4))), ErrorKind::AlreadyExists);
    assert_eq!((writer.len(), fs::read(folder.file("take-003")).unwrap()), (16, b"mine".to_vec()));
    writer.write_samples(&frames(8, 1)).unwrap();
    writer.flush().unwrap();
    assert_eq!(samples_of(&folder.file("take-002")), frames(5, 4));
    fs::remove_file(folder.file("take-003")).unwrap();
    writer.write_samples(&frames(9, 4)).unwrap();
    writer.finalize().unwrap();
    assert_eq!(samples_of(&folder.file("take-002")), frames(5, 4));
    assert_eq!(samples_of(&folder.file("take-003")), frames(9, 4));
}

#[test]
fn what_can_not_be_recorded_leaves_no_file() {
    let folder = Folder::new("nothing");
    let long = "a".repeat(250) + ".wav";
    // Windows doesn't say whether a name is too long before a file gets it.
    assert!(cfg!(windows) || PartsWriter::create(folder.file(&long), STEREO, 5).is_err());
    let strange = WavSpec { bits_per_sample: 12, ..STEREO };
    assert!(matches!(PartsWriter::create(folder.file("take.wav"), strange, 5), Err(Error::Unsupported)));
    assert!(matches!(PartsWriter::create_durable(folder.file("take.wav"), strange, 5), Err(Error::Unsupported)));
    assert_eq!(folder.names(), [""; 0]);
    let mut writer = PartsWriter::create(folder.file("take.wav"), STEREO, 5).unwrap();
    assert!(matches!(writer.write_samples(&[1i32; 13]), Err(Error::UnfinishedSample)));
    assert!(matches!(writer.write_samples(&[1 << 24; 12]), Err(Error::TooWide)));
    assert_eq!((writer.len(), folder.names()), (0, vec!["take.wav".into()]));
}

// A pipe takes the samples of the first file, but no sizes at its beginning, so it can't be ended.
#[cfg(unix)]
#[test]
fn a_next_file_is_removed_where_the_file_before_can_not_be_ended() {
    let folder = Folder::new("pipe");
    let pipe = folder.file("take.wav");
    assert!(process::Command::new("mkfifo").arg(&pipe).status().unwrap().success());
    let reader = std::thread::spawn(move || fs::read(pipe).unwrap());
    let mut writer = PartsWriter::create(folder.file("take.wav"), STEREO, 5).unwrap();
    writer.write_samples(&frames(0, 5)).unwrap();
    for _ in 0..2 {
        assert!(writer.write_samples(&frames(5, 5)).is_err());
        assert_eq!((folder.names(), writer.len()), (vec!["take.wav".into()], 10));
    }
    drop(writer);
    assert_eq!(reader.join().unwrap().len(), 68 + 5 * 6);
}

#[test]
#[should_panic(expected = "a file has at least one frame")]
fn a_file_of_no_frames_panics() {
    let _ = PartsWriter::create("never made", STEREO, 0);
}
