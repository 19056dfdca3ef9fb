//! Machines over a file in memory, which need no `std`. What they ask for at each step, after kills, faults and losses
//! of power, bindings/tests/disk.c tries over the same text (bindings/tests/erased.py).
use hound::machines::{
    beginning_effect, count_samples, header_of, part_from, repair_next, take_part, Action, BeginningEffect, Cause,
    Damage, Effect, FailedAction, HeadWalk, Part, Reason, Recorder, RecorderError, RepairError, RepairState,
    RepairStep, Repairing, Report, Stage, Step, Task, Unrepairable,
};
use hound::{SampleFormat, WavSpec, WavSpecEx};

const BYTES: WavSpecEx = WavSpecEx {
    spec: WavSpec { channels: 1, sample_rate: 8000, bits_per_sample: 8, sample_format: SampleFormat::Int },
    bytes_per_sample: 1,
};

/// The file of samples of 8 bits with these containers, by the words of RIFF: a pad byte follows odd data.
fn file_of(containers: &[u8]) -> Vec<u8> {
    let length = containers.len() as u8;
    let head = b"RIFF\0\0\0\0WAVEfmt \x10\0\0\0\x01\0\x01\0\x40\x1f\0\0\x40\x1f\0\0\x01\0\x08\0data\0\0\0\0";
    let mut file = [head, containers, &[0][..containers.len() % 2]].concat();
    (file[4], file[40]) = (36 + length + length % 2, length);
    file
}

fn put(file: &mut Vec<u8>, place: u64, bytes: &[u8]) {
    let (place, end) = (place as usize, place as usize + bytes.len());
    file.resize(file.len().max(end), 0);
    file[place..end].copy_from_slice(bytes);
}

/// Performs an action, and says what was done; what was read is in the bytes.
fn perform(file: &mut Vec<u8>, action: Action, block: &[u8], read: &mut Vec<u8>) -> String {
    match action {
        Action::Read(place, count) => {
            *read = file.iter().copied().skip(place as usize).take(count as usize).collect();
            format!("read {count} at {place}")
        }
        Action::Perform(Effect::Sync) => "sync".into(),
        Action::Perform(Effect::Pad(place)) => {
            put(file, place, &[0]);
            format!("pad at {place}")
        }
        Action::Perform(Effect::Size(place, size)) => {
            put(file, place, &size.to_le_bytes());
            format!("{size} at {place}")
        }
        Action::WriteBlock(place, length) => {
            assert_eq!(length as usize, block.len());
            put(file, place, block);
            format!("block at {place}")
        }
        Action::Shorten(place) => {
            file.truncate(place as usize);
            format!("cut at {place}")
        }
    }
}

/// Performs all that a recorder asks for. The report of each action is lost, and it comes again, that has its number in
/// these bits.
fn record(file: &mut Vec<u8>, recorder: &mut Recorder, block: &[u8], lost: u32, number: &mut u32) -> Vec<String> {
    let (mut report, mut said) = (Report::Pending, Vec::new());
    while let Some(action) = recorder.next(report).unwrap() {
        said.push(perform(file, action, block, &mut Vec::new()));
        report = if lost >> *number & 1 == 1 { Report::Pending } else { Report::Done };
        *number += 1;
    }
    said
}

fn repaired(file: &mut Vec<u8>, task: Task, lost: u32) -> (Result<Damage, RepairError>, Vec<String>) {
    let (mut state, length) = (Repairing::Looks(Stage::first()), file.len() as u64);
    let (mut read, mut report, mut said) = (Vec::new(), Report::Pending, Vec::new());
    for number in 0.. {
        match repair_next(&mut state, length, task, &read, report) {
            Ok(RepairStep::Asks(action)) => said.push(perform(file, action, &[], &mut read)),
            Ok(RepairStep::Found(damage)) => return (Ok(damage), said),
            Err(error) => return (Err(error), said),
        }
        report = if lost.checked_shr(number).unwrap_or(0) & 1 == 1 { Report::Pending } else { Report::Done };
    }
    unreachable!()
}

fn found(file: &[u8]) -> Damage {
    repaired(&mut file.to_vec(), Task::FindDamage, 0).0.unwrap()
}

#[test]
fn a_new_file_is_recorded_also_where_reports_are_lost() {
    for lost in 0..1 << 13 {
        let (mut file, mut number) = (vec![9; 3], 0);
        for number in 0.. {
            match beginning_effect(BYTES, number).unwrap() {
                Some(BeginningEffect::Header(first)) => {
                    put(&mut file, first.into(), part_from(header_of(BYTES, 0, 0).as_slice(), first))
                }
                Some(BeginningEffect::Empty) => file.clear(),
                Some(BeginningEffect::SyncFolder | BeginningEffect::Sync) => {}
                None => break,
            }
        }
        let mut recorder = Recorder::begin(BYTES).unwrap();
        for block in [&[129, 130, 131][..], &[132, 133]] {
            recorder.write(Report::Pending, block.len() as u64).unwrap();
            record(&mut file, &mut recorder, block, lost, &mut number);
            recorder.checkpoint(Report::Pending);
            record(&mut file, &mut recorder, &[], lost, &mut number);
        }
        assert_eq!(file, file_of(&[129, 130, 131, 132, 133]));
    }
}

#[test]
fn a_file_that_was_cut_off_is_repaired_also_where_reports_are_lost() {
    let cut = &file_of(&[1, 2, 3])[..46];
    for lost in 0..1 << 13 {
        let mut file = cut.to_vec();
        let damage = repaired(&mut file, Task::Repair, lost).0.unwrap();
        assert_eq!((damage.repair().state, damage.repair().frames), (RepairState::CutOff, 2));
        assert_eq!(file, file_of(&[1, 2]));
    }
    let said = repaired(&mut cut.to_vec(), Task::Repair, 0).1;
    assert_eq!(said[said.len() - 5..], ["sync", "38 at 4", "sync", "2 at 40", "sync"]);
    assert!(repaired(&mut cut.to_vec(), Task::FindDamage, 0).1.iter().all(|action| action.starts_with("read")));
    // The head that was found stays, and an action that failed ends the repair.
    let mut state = Repairing::Mends(found(cut).head, 0);
    for _ in 0..2 {
        let failed = repair_next(&mut state, 46, Task::Repair, &[], Report::Failed);
        assert_eq!(failed.err(), Some(RepairError::Failed(FailedAction::Sync)));
    }
    let rejected = repaired(&mut b"RIFX and more bytes".to_vec(), Task::Repair, 0).0;
    let no_tag = Unrepairable::Head(Cause::Format(Reason::NoRiffTag));
    assert_eq!(rejected.err(), Some(RepairError::Rejected(no_tag)));
}

#[test]
fn a_file_whose_frames_are_all_counted_is_made_canonical_where_that_is_wanted() {
    let canonical = file_of(&[1, 2, 3]);
    let mut odd = canonical[..47].to_vec(); // As of a program that writes no pad byte.
    odd[4] = 39;
    for (task, wanted) in [
        (Task::FindDamage, &odd),
        (Task::Repair, &odd),
        (Task::MakeCanonical, &canonical),
        (Task::RepairToEnd, &canonical),
    ] {
        let mut file = odd.clone();
        let damage = repaired(&mut file, task, 0).0.unwrap();
        assert_eq!((damage.repair().state, damage.repair().frames), (RepairState::AllCounted, 3));
        assert_eq!(&file, wanted);
    }
}

#[test]
fn a_recorder_continues_a_file_as_it_is_allowed_to() {
    let resumed = |file: &[u8], mends, overwrites| {
        Recorder::resume(found(file).in_file(file.len() as u64), mends, overwrites).map(|recorder| recorder.data_length)
    };
    let file = file_of(&[1, 2, 3]);
    assert_eq!((resumed(&file, false, false), resumed(&file[..47], false, false)), (Ok(3), Ok(3)));
    assert_eq!(resumed(&file[..46], false, true), Err(RecorderError::Truncated));
    // A byte that isn't 0 is no pad byte, but a sample, which nobody counted.
    let longer = [&file[..47], &[130]].concat();
    assert_eq!((resumed(&longer, false, false), resumed(&longer, true, false)), (Err(RecorderError::NeedsMend), Ok(4)));
    let mut with_chunk = [&file[..], b"LIST\x04\0\0\0INFO"].concat();
    assert_eq!(resumed(&with_chunk, true, false), Err(RecorderError::NeedsOverwrite));
    // What is overwritten is cut off first, and then a checkpoint comes.
    let of_chunk = found(&with_chunk).in_file(with_chunk.len() as u64);
    let mut recorder = Recorder::resume(of_chunk, false, true).unwrap();
    recorder.write(Report::Pending, 1).unwrap();
    let said = record(&mut with_chunk, &mut recorder, &[4], 0, &mut 0);
    // What is in doubt is synced before it is counted.
    let wanted = ["cut at 47", "sync", "pad at 47", "sync", "40 at 4", "3 at 40", "sync", "block at 47"];
    assert_eq!(said, wanted);
    recorder.checkpoint(Report::Pending);
    record(&mut with_chunk, &mut recorder, &[], 0, &mut 0);
    assert_eq!(with_chunk, file_of(&[1, 2, 3, 4]));
}

#[test]
fn a_block_that_failed_is_cut_off_and_a_sync_that_failed_is_the_end() {
    let (mut file, mut recorder) = (file_of(&[]), Recorder::begin(BYTES).unwrap());
    recorder.write(Report::Pending, 2).unwrap();
    assert!(matches!(recorder.next(Report::Pending), Ok(Some(Action::WriteBlock(44, 2)))));
    file.push(1); // A part of the block.
    assert!(matches!(recorder.next(Report::Failed), Ok(Some(Action::Shorten(44)))));
    assert_eq!(recorder.next(Report::Failed).err(), Some(RecorderError::NeedsCheckpoint));
    recorder.write(Report::Pending, 1).unwrap();
    let said = record(&mut file, &mut recorder, &[5], 0, &mut 0);
    assert_eq!(said, ["sync", "sync", "36 at 4", "0 at 40", "sync", "block at 44"]);
    recorder.checkpoint(Report::Pending);
    assert!(matches!(recorder.next(Report::Pending), Ok(Some(Action::Perform(Effect::Pad(45))))));
    assert!(matches!(recorder.next(Report::Done), Ok(Some(Action::Perform(Effect::Sync)))));
    assert_eq!(recorder.next(Report::Failed).err(), Some(RecorderError::SyncFailed));
    assert_eq!(recorder.write(Report::Pending, 1), Err(RecorderError::SyncFailed));
    recorder.checkpoint(Report::Pending);
    assert_eq!(recorder.next(Report::Pending).err(), Some(RecorderError::SyncFailed));
}

#[test]
fn a_walk_asks_for_few_parts() {
    // A chunk of three bytes and its pad byte before the fmt chunk.
    let mut file = file_of(&[7]);
    file.splice(12..12, *b"LIST\x03\0\0\0abc\0");
    let (mut walk, mut parts) = (HeadWalk { found: None, taken: 0, part: Part::Front }, Vec::new());
    let head = loop {
        parts.push((walk.start(), walk.length()));
        let bytes = &file[walk.start() as usize..][..walk.length()];
        match take_part(walk, bytes).unwrap() {
            Step::Next(next) => walk = next,
            Step::Data(head) => break head,
        }
    };
    assert_eq!(parts, [(0, 12), (12, 8), (23, 9), (32, 16), (48, 8)]);
    assert_eq!((head.spec_ex, head.data_start, count_samples(head)), (BYTES, 56, Ok(1)));
    assert_eq!(take_part(walk, b"dat").err(), Some(Cause::Ended));
    let early = HeadWalk { found: None, taken: 0, part: Part::Header };
    assert_eq!(take_part(early, b"data\0\0\0\0").err(), Some(Cause::Format(Reason::NoFmtChunk)));
}

#[test]
fn a_recorder_says_how_many_frames_have_room() {
    // The RIFF size counts all but 8 of 4,294,967,303 bytes, of which the header has 44; a pad byte follows odd data.
    let stereo = WavSpecEx { spec: WavSpec { channels: 2, bits_per_sample: 16, ..BYTES.spec }, bytes_per_sample: 2 };
    let (most, mut recorder) = (4_294_967_258 / 4, Recorder::begin(stereo).unwrap());
    assert_eq!((recorder.frames_left(), Recorder::begin(BYTES).unwrap().frames_left()), (most, 4_294_967_258));
    assert_eq!(recorder.write(Report::Pending, 2 * u64::from(most) + 2), Err(RecorderError::TooLong));
    assert_eq!(recorder.write(Report::Pending, 3), Err(RecorderError::UnfinishedFrame));
    recorder.write(Report::Pending, 2 * u64::from(most)).unwrap();
}
