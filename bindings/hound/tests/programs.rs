//! Tests that start programs. Each of these has for a moment the files that this one has locked, so that tests which
//! lock one anew are in another file.
#![cfg(feature = "std")]
#![cfg(unix)]
mod common;

use common::{numbers, write_by, written, Path, MONO, WAYS};
use hound::blocks::WriteSamples;
use hound::{WavReader, WavSpec, WavWriter};
use std::io::Write;
use std::{env, fs, process, thread, time};

/// Whether this is a program whose files have at most 32 or 64 KiB, as if the disk were full then. Else the test runs
/// once more, as such a program.
fn files_are_short(test: &str) -> bool {
    if env::var_os("FILES_ARE_SHORT").is_none() {
        let limited = "trap '' XFSZ; ulimit -f 64; FILES_ARE_SHORT=1 exec \"$0\" --exact \"$1\"";
        let mut shell = process::Command::new("sh");
        shell.arg("-c").arg(limited).arg(env::current_exe().unwrap());
        assert!(shell.arg(test).status().unwrap().success());
        return false;
    }
    true
}

#[test]
fn a_full_disk_leaves_the_blocks_that_fit_and_all_that_it_holds_to_a_repair() {
    if !files_are_short("a_full_disk_leaves_the_blocks_that_fit_and_all_that_it_holds_to_a_repair") {
        return;
    }
    let path = Path::new("full");
    let room = fs::File::create(&path).unwrap().write(&[0; 100_000]).unwrap();
    for (form, way) in (0..4).flat_map(|form| (0..WAYS).map(move |way| (form, way))) {
        fs::write(&path, written::<i16>(MONO, &[])).unwrap();
        let mut writer = match form {
            0 => WavWriter::create(&path, MONO),
            1 => WavWriter::create_durable(&path, MONO),
            2 => WavWriter::append(&path),
            _ => WavWriter::append_durable(&path),
        }
        .unwrap();
        write_by(way, &mut writer, 0, 8).unwrap();
        writer.flush().unwrap();
        let more = (8..40_000).step_by(4).take_while(|first| write_by(way, &mut writer, *first, 4).is_ok()).count();
        assert!(writer.flush().is_err() && writer.finalize().is_err());
        let held = (room - 44) / 2;
        assert!(held <= 8 + 4 * more + 4);
        let counted = WavReader::open(&path).unwrap().len() as usize;
        assert!(counted <= held && counted + 2048 > held);
        assert_eq!(hound::repair_file(&path).unwrap().frames as usize, held);
        assert!(fs::read(&path).unwrap() == written(MONO, &numbers(held)));
    }
}

#[test]
fn a_block_that_failed_is_counted_by_nothing_and_written_over() {
    if !files_are_short("a_block_that_failed_is_counted_by_nothing_and_written_over") {
        return;
    }
    let path = Path::new("short");
    for (form, channels) in (0..4).flat_map(|form| [1, 2].map(|channels| (form, channels))) {
        let spec = WavSpec { channels, ..MONO };
        fs::write(&path, written(spec, &[1i16, 2])).unwrap();
        let mut writer = match form {
            0 => WavWriter::create(&path, spec).unwrap(),
            1 => WavWriter::create_durable(&path, spec).unwrap(),
            2 => WavWriter::append(&path).unwrap(),
            _ => WavWriter::append_durable(&path).unwrap(),
        };
        let begins_with = |samples: &[i16]| {
            let (file, wanted) = (fs::read(&path).unwrap(), written(spec, samples));
            file.starts_with(&wanted) && file[wanted.len()..].iter().all(|byte| *byte == 5 || *byte == 0)
        };
        let before: &[i16] = if form > 1 { &[1, 2] } else { &[] };
        writer.write_samples(&[3i16, 4]).unwrap();
        writer.flush().unwrap();
        assert!(writer.write_samples(&[5i16; 100_000]).is_err());
        assert!(begins_with(&[before, &[3, 4]].concat()));
        assert!(writer.write_samples(&[6i16; 3]).is_ok() && writer.write_samples(&[5i16; 100_000]).is_err());
        assert!(writer.write_samples(&[8i16]).is_ok() && writer.finalize().is_ok());
        assert!(begins_with(&[before, &[3, 4, 6, 6, 6, 8]].concat()));
    }
}

#[test]
fn a_pipe_gets_all_samples_but_no_sizes() {
    let path = Path::new("pipe-for-samples");
    assert!(process::Command::new("mkfifo").arg(&path.0).status().unwrap().success());
    for way in 0..WAYS {
        let pipe = path.0.clone();
        let reader = thread::spawn(move || fs::read(pipe).unwrap());
        let mut writer = WavWriter::create(&path, MONO).unwrap();
        (0..9000).step_by(4).for_each(|first| write_by(way, &mut writer, first, 4).unwrap());
        assert!(writer.finalize().is_err());
        let (bytes, mut file) = (reader.join().unwrap(), written(MONO, &numbers(9000)));
        // Both sizes stay 0, as they are in the first header, since a pipe has no place to go back to.
        file[4..8].fill(0);
        file[40..44].fill(0);
        assert!(bytes == file);
    }
}

#[test]
fn a_file_that_is_replaced_before_it_is_locked_is_opened_anew() {
    let (path, other) = (Path::new("replaced"), Path::new("pipe"));
    // To open a pipe takes until another one opens it, too.
    assert!(process::Command::new("mkfifo").arg(&path.0).status().unwrap().success());
    fs::hard_link(&path, &other).unwrap();
    let new = Path::new("new");
    fs::write(&new, "another file").unwrap();
    let (new_path, at, pipe) = (new.0.clone(), path.0.clone(), other.0.clone());
    let replace = thread::spawn(move || {
        thread::sleep(time::Duration::from_millis(300));
        fs::rename(new_path, at).unwrap();
        fs::File::open(pipe).map(drop)
    });
    let mut writer = WavWriter::create_durable(&path, MONO).unwrap();
    writer.write_sample(7i16).unwrap();
    writer.finalize().unwrap();
    assert_eq!(fs::read(&path).unwrap(), written(MONO, &[7i16]));
    replace.join().unwrap().unwrap();
}
