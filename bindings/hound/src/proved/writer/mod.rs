// Made from crates/hound_writer by scripts/erase.py: change that, and not this.
//! Writing WAV files: a [`WavWriter`] accepts samples, one by one or in batches, and publishes them by writing the two
//! sizes into the header.

pub(crate) mod append;
mod block;
mod effects;
mod end;
mod machine;
mod output;
mod recorder;
mod resuming;
mod write;
pub use effects::{Action, BeginningEffect, Effect, Report, beginning_effect, part_from};
pub use end::{patch as patch_sizes, put_all_at};
pub use recorder::{Health, Phase, Recorder, RecorderError};
pub use resuming::{FoundFile, RepairState};
pub use write::WavWriter;
