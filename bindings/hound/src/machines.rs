#![cfg_attr(feature = "std", doc = include_str!("../MACHINES.md"))]
#![cfg_attr(not(feature = "std"), doc = "A walk, a repair and a recorder, whose caller reads and writes the file.")]
pub use crate::proved::follow::{FollowError, FollowStep, Follower, Look, Recording};
pub use crate::proved::repair::{
    repair_next, Damage, FailedAction, Repair, RepairError, RepairState, RepairStep, Repairing, SeenHead, Stage, Task,
    Unrepairable,
};
pub use crate::proved::spec::header_of;
pub use crate::proved::walk::{count_samples, take_part, Cause, FileHead, HeadWalk, Part, Reason, Step};
pub use crate::proved::writer::{
    beginning_effect, part_from, Action, BeginningEffect, Effect, FoundFile, Health, Phase, Recorder, RecorderError,
    Report,
};
