// Made from crates/hound_repair by scripts/erase.py: change that, and not this.
// Files in memory, repaired where they are.

use crate::proved::repair::look::Damage;
use crate::proved::repair::stages::{LookStep, Stage, Task, Unrepairable, take_asked};
use crate::proved::number::le_u32;
use crate::proved::walk::bytes_at;

/// Puts two sizes into a file in memory: the RIFF size, and the data length at a place.
pub fn set_sizes(bytes: &mut [u8], place: usize, riff_size: u32, data_length: u32) {
    bytes[4..8].copy_from_slice(&le_u32(riff_size));
    bytes[place..place + 4].copy_from_slice(&le_u32(data_length));
}

/// Looks at the file that takes all of these bytes, as [`find_damage`](super::find_damage) does at one in a source; no
/// chunks are looked for where the task is to repair it to its end.
pub fn find_damage_in_bytes(bytes: &[u8], task: Task) -> Result<Damage, Unrepairable> {
    let length = bytes.len() as u64;
    let mut stage = Stage::first();
    'parts: loop {
        let part = bytes_at(bytes, stage.place(length), stage.count());
        match take_asked(length, task, stage, part)? {
            LookStep::Next(next) => stage = next,
            LookStep::Found(damage) => return Ok(damage),
        }
    }
}

/// Repairs the file in the first `used` bytes, in which the task found this, as [`repair`](super::repair) does one in a
/// medium, and returns its new length: one more where a pad byte was missing. If there is no room for that, nothing is
/// written.
pub fn repair_bytes(bytes: &mut [u8], used: usize, task: Task, damage: Damage) -> Option<usize> {
    if !task.mends(damage.state) {
        return Some(used);
    }
    let lacks_pad = damage.lacks_pad();
    if lacks_pad && used == bytes.len() {
        return None;
    }
    let place = damage.head.data_start as usize - 4;
    let (riff_size, data_length) = (damage.sizes.riff_size, damage.sizes.data_length);
    set_sizes(&mut bytes[..used], place, riff_size, data_length);
    if !lacks_pad {
        return Some(used);
    }
    bytes[used] = 0;
    Some(used + 1)
}
