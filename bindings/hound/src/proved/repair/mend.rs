// Made from crates/hound_repair by scripts/erase.py: change that, and not this.
// Repairs of files in media: what is read at places, and the effects that are performed.

use crate::proved::repair::look::{Damage, Repair};
use crate::proved::repair::stages::{LookStep, Stage, Task, Unrepairable, take_asked};
use crate::proved::medium::{Medium, Source};
use crate::proved::number::le_u32;
use crate::proved::spec::Error;
use crate::proved::walk::{HeadError, error_of};
use crate::proved::writer::{Effect, put_all_at};
use std::io;

/// Repairs a file in a medium that is at its beginning, whose recording was cut off: every whole frame that it holds is
/// read again.
///
/// Where both sizes are right, nothing is written. Where chunks or a tag follow the data, by the data length, it wasn't
/// cut off ([`RepairState::HasChunksAfterData`]), nor where the data length counts all whole frames
/// ([`RepairState::AllCounted`]): that is reported, and nothing is written ([`repair_to_end`] repairs it all the same).
/// Else the two sizes become those of the whole frames from the data on: the medium is flushed, the RIFF size is
/// written, then the data length, and last the pad byte where data of an odd length end with the file, each flushed. No
/// other byte changes. All other bytes after the data are taken for samples.
///
/// The errors, in their order: those of a reader's walk to the data, by the bytes; `Unsupported`, for samples that are
/// not written with these bits, bytes and format; `TooLong`, where the RIFF size would pass 4294967295; at these
/// nothing is written. `IoError`, where the medium failed; a size may be torn then, and another call mends it.
///
/// ```text
/// match repair(tape) {
///     Ok((tape, found)) => {
///         let samples = WavReader::new(tape.bytes())?.len(); // As many as were found.
///         Ok((found.state, samples))
///     }
///     Err((_, error)) => Err(error.into()),
/// }
/// ```
pub fn repair<M: Source + Medium>(medium: M) -> Result<(M, Repair), (M, Error)> {
    repair_by_effects(medium, Task::Repair)
}

/// Repairs a file as [`repair`] does, and takes all bytes from the data on for samples, also where they look like
/// chunks. Errors are the same.
pub fn repair_to_end<M: Source + Medium>(medium: M) -> Result<(M, Repair), (M, Error)> {
    repair_by_effects(medium, Task::RepairToEnd)
}

// The error that callers get.
fn error_for(why: Unrepairable) -> Error {
    match why {
        Unrepairable::Head(cause) => error_of(HeadError::Rejected(cause)),
        Unrepairable::Unsupported => Error::Unsupported,
        Unrepairable::TooLong => crate::rattle::too_long(),
    }
}

/// Looks at a file from its beginning, one part after the other.
pub(crate) fn look_by_parts<S: Source>(source: &mut S, task: Task) -> Result<Damage, Error> {
    let length = length_of(source)?;
    let mut stage = Stage::first();
    'parts: loop {
        let mut buf = [0; 40];
        let asked = stage.count();
        let count = part_at(source, stage.place(length), &mut buf[..asked])?;
        match take_asked(length, task, stage, &buf[..count]) {
            Ok(LookStep::Next(next)) => stage = next,
            Ok(LookStep::Found(damage)) => return Ok(damage),
            Err(why) => return Err(error_for(why)),
        }
    }
}

// Performs an effect.
fn perform<M: Medium>(medium: &mut M, effect: Effect) -> io::Result<()> {
    match effect {
        Effect::Sync => medium.flush(),
        Effect::Pad(place) => put_all_at(medium, place, &[0]),
        Effect::Size(place, size) => put_all_at(medium, place, &le_u32(size)),
    }
}

/// Performs the effects that the task has for a file, up to one that fails.
pub(crate) fn perform_all<M: Medium>(medium: &mut M, task: Task, damage: Damage) -> io::Result<()> {
    let mut number = 0;
    while let Some(effect) = damage.effect(task, number) {
        perform(medium, effect)?;
        number += 1;
    }
    Ok(())
}

// Repairs a file by its effects.
fn repair_by_effects<M: Source + Medium>(medium: M, task: Task) -> Result<(M, Repair), (M, Error)> {
    let mut medium = medium;
    let damage = match look_by_parts(&mut medium, task) {
        Ok(damage) => damage,
        Err(error) => return Err((medium, error)),
    };
    match perform_all(&mut medium, task, damage) {
        Ok(()) => Ok((medium, damage.repair())),
        Err(error) => Err((medium, Error::IoError(error))),
    }
}

/// More than any RIFF size says: bytes are counted up to here.
pub(crate) const LIMIT: u64 = 8_589_934_592;

/// Fills a buffer with the bytes at a place, fewer only at their end, and returns how many.
pub fn part_at<S: Source>(source: &mut S, place: u64, buf: &mut [u8]) -> io::Result<usize> {
    source.go(place)?;
    let mut at = 0;
    while at < buf.len() {
        match source.get(&mut buf[at..]) {
            Ok(0) => return Ok(at),
            Ok(count) => at += count,
            Err(error) => return Err(error),
        }
    }
    Ok(at)
}

// How many bytes there are, up to `LIMIT`. It halves the range that the end is in, so it reads a byte some thirty
// times.
fn length_of<S: Source>(source: &mut S) -> io::Result<u64> {
    let mut low = 0;
    let mut high = LIMIT;
    while low < high {
        let middle = low + (high - low) / 2;
        source.go(middle)?;
        let mut byte = [0; 1];
        if source.get(&mut byte)? > 0 {
            low = middle + 1;
        } else {
            high = middle;
        }
    }
    Ok(low)
}
