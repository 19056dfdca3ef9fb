// Made from crates/hound_repair by scripts/erase.py: change that, and not this.
//! Repair of WAV files whose recording was cut off.
//!
//! The two sizes of such a file say less than it holds, nothing, or are torn, and half a frame may be at its end, so no
//! reader takes it. [`repair`] gives back every whole frame that the file holds; [`find_damage`] says what it would do
//! and writes nothing.

mod bytes;
mod look;
mod machine;
pub(crate) mod mend;
mod stages;

pub use bytes::{find_damage_in_bytes, repair_bytes, set_sizes};
pub use crate::proved::writer::RepairState;
pub use look::{Damage, Repair, SeenHead, find_damage};
pub use machine::{FailedAction, RepairError, RepairStep, Repairing, repair_next};
pub use mend::{part_at, repair, repair_to_end};
pub use stages::{Stage, Task, Unrepairable};
