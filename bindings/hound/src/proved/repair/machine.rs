// Made from crates/hound_repair by scripts/erase.py: change that, and not this.
// A repair whose caller reads and writes the file: it asks for one part after the other, and then says what is to be
// done.

use crate::proved::repair::look::{Damage, SeenHead};
use crate::proved::repair::stages::{LookStep, Stage, Task, Unrepairable, measured, take_asked};
use crate::proved::writer::{Action, Effect, RepairState, Report};

impl Damage {
    /// The effect with this number, from 0, that the task has for a file like this; none after the last.
    pub fn effect(&self, task: Task, number: u32) -> Option<Effect> {
        if !task.mends(self.state) {
            return None;
        }
        let start = self.head.data_start;
        match (number, self.lacks_pad()) {
            (1, _) => Some(Effect::Size(4, self.sizes.riff_size)),
            (3, _) => Some(Effect::Size(start - 4, self.sizes.data_length)),
            (5, true) => Some(Effect::Pad(start + self.held)),
            (0 | 2 | 4, _) | (6, true) => Some(Effect::Sync),
            _ => None,
        }
    }
}

/// What failed, so that the repair has ended.
#[derive(Clone, Copy, Debug, PartialEq, Eq)]
pub enum FailedAction {
    /// A sync: nobody knows what is stored.
    Sync,
    /// A read or a write.
    Call,
}

/// A repair whose caller reads and writes the file, between two calls.
#[derive(Clone, Copy)]
pub enum Repairing {
    /// It looks at the file, and asks for this part.
    Looks(Stage),
    /// It mends a file with this head, and asks for the effect with this number.
    Mends(SeenHead, u32),
    /// It is done: a file with this head was found so, and is mended if that is to be.
    Found(SeenHead, RepairState),
    /// It has ended, since this failed.
    Failed(FailedAction),
}

/// What its caller does next.
#[derive(Clone, Copy)]
pub enum RepairStep {
    /// This.
    Asks(Action),
    /// Nothing: this was found, and is mended if that is to be.
    Found(Damage),
}

/// Why a repair has ended.
#[derive(Clone, Copy, Debug, PartialEq, Eq)]
pub enum RepairError {
    /// The bytes decide it, and nothing was written.
    Rejected(Unrepairable),
    /// An effect failed: another repair, from the beginning, finds the same frames.
    Failed(FailedAction),
}

// What it means that an effect failed.
fn failure_of(effect: Effect) -> FailedAction {
    match effect {
        Effect::Sync => FailedAction::Sync,
        Effect::Pad(_) | Effect::Size(..) => FailedAction::Call,
    }
}

// Asks for the effect with this number, if there is one.
fn ask_for(state: &mut Repairing, task: Task, damage: Damage, number: u32) -> RepairStep {
    match damage.effect(task, number) {
        Some(effect) => {
            *state = Repairing::Mends(damage.head, number);
            RepairStep::Asks(Action::Perform(effect))
        }
        None => {
            *state = Repairing::Found(damage.head, damage.state);
            RepairStep::Found(damage)
        }
    }
}

// What comes of an effect.
fn after_effect(
    state: &mut Repairing,
    task: Task,
    damage: Damage,
    number: u32,
    report: Report,
) -> Result<RepairStep, RepairError> {
    match (report, damage.effect(task, number)) {
        (Report::Done, Some(_)) => Ok(ask_for(state, task, damage, number + 1)),
        (Report::Failed, Some(effect)) => {
            let failure = failure_of(effect);
            *state = Repairing::Failed(failure);
            Err(RepairError::Failed(failure))
        }
        _ => Ok(ask_for(state, task, damage, number)),
    }
}

// What comes of a part that was read.
fn after_part(
    state: &mut Repairing,
    length: u64,
    task: Task,
    stage: Stage,
    bytes: &[u8],
) -> Result<RepairStep, RepairError> {
    match take_asked(length, task, stage, bytes).map_err(RepairError::Rejected)? {
        LookStep::Next(next) => {
            *state = Repairing::Looks(next);
            Ok(RepairStep::Asks(next.action(length)))
        }
        LookStep::Found(damage) => Ok(ask_for(state, task, damage, 0)),
    }
}

/// What the caller of a repair of a file of so many bytes does next, by how it reports what was requested last. `bytes`
/// are those of the part that was read.
///
/// What is pending is requested again. Where something failed, each later call returns that error. After each report of
/// `Done` fewer effects are left ([`a_repair_ends`](super::a_repair_ends)). A caller who does what is requested repairs
/// the file ([`a_repairer_repairs`](super::a_repairer_repairs)).
pub fn repair_next(
    state: &mut Repairing,
    length: u64,
    task: Task,
    bytes: &[u8],
    report: Report,
) -> Result<RepairStep, RepairError> {
    match *state {
        Repairing::Looks(stage) => match report {
            Report::Pending => Ok(RepairStep::Asks(stage.action(length))),
            Report::Done => after_part(state, length, task, stage, bytes),
            Report::Failed => {
                *state = Repairing::Failed(FailedAction::Call);
                Err(RepairError::Failed(FailedAction::Call))
            }
        },
        Repairing::Mends(head, number) => {
            let damage = measured(length, head).map_err(RepairError::Rejected)?;
            after_effect(state, task, damage, number, report)
        }
        Repairing::Found(head, found) => {
            let damage = measured(length, head).map_err(RepairError::Rejected)?;
            Ok(RepairStep::Found(Damage { state: found, ..damage }))
        }
        Repairing::Failed(failure) => Err(RepairError::Failed(failure)),
    }
}
