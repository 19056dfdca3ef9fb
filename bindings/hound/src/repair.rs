use crate::lock::open_locked;
use crate::machines::{self, FoundFile, RepairState, Task};
use crate::medium::{Input, Output, SyncBy};
use crate::proved::repair::mend::{look_by_parts, perform_all};
use crate::{Error, Result, WavSpecEx};
use std::io::{self, Seek};
use std::{fs, path};

/// What a file holds (own).
#[derive(Clone, Copy, Debug, PartialEq, Eq)]
pub struct Repair {
    /// The spec, and the width of the containers.
    pub spec_ex: WavSpecEx,
    /// How many whole frames there are.
    pub frames: u32,
    /// How many bytes of a torn frame follow them.
    pub left_over: u32,
    /// How the file was found.
    pub state: RepairState,
    /// How many whole frames its header counted before.
    pub counted: u32,
}

/// Gives a file whose recording was cut off the sizes of the whole frames that it holds, and a pad byte where one is
/// missing (own), unless chunks or a tag follow the data. What it does to a file, and what an error leaves, is on the
/// [page of the crate](crate#recordings-that-survive-a-power-failure).
pub fn repair_file<P: AsRef<path::Path>>(filename: P) -> Result<Repair> {
    repair_by(Task::Repair, filename.as_ref())
}

/// The same, but all that follows the header of the data is taken for samples (own): for a file that [`repair_file`]
/// reports as `HasChunksAfterData`, and whose header counts too few. Copy it first.
pub fn repair_file_to_end<P: AsRef<path::Path>>(filename: P) -> Result<Repair> {
    repair_by(Task::RepairToEnd, filename.as_ref())
}

fn repair_by(task: Task, filename: &path::Path) -> Result<Repair> {
    let denied = match open_locked(fs::OpenOptions::new().read(true).write(true), filename) {
        Ok(file) => return repair_in(task, &file),
        Err(error) if error.kind() == io::ErrorKind::PermissionDenied => error,
        Err(error) => return Err(error.into()),
    };
    // A file that stays as it is needs no more than to be read. Of another one the first write fails.
    let file = open_locked(fs::OpenOptions::new().read(true), filename)?;
    repair_in(task, &file).map_err(|error| if let Error::IoError(_) = error { denied.into() } else { error })
}

fn repair_in(task: Task, mut file: &fs::File) -> Result<Repair> {
    file.stream_position()?; // A pipe has no places.
    let damage = look_by_parts(&mut Input(file), task)?;
    let disk = (file.try_clone()?, fs::File::sync_all as SyncBy);
    perform_all(&mut Output::new(file, Some(disk), Some(true)), task, damage)?;
    let machines::Repair { spec_ex, frames, left_over, state } = damage.repair();
    let frame = u32::from(spec_ex.spec.channels) * u32::from(spec_ex.bytes_per_sample);
    Ok(Repair { spec_ex, frames, left_over, state, counted: damage.head.data_length / frame })
}

/// A file that is to be appended to, as a look finds it.
pub(crate) fn find(mut file: &fs::File) -> Result<FoundFile> {
    let length = file.seek(io::SeekFrom::End(0))?;
    Ok(look_by_parts(&mut Input(file), Task::FindDamage)?.in_file(length))
}
