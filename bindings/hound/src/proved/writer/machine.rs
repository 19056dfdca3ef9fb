// Made from crates/hound_writer by scripts/erase.py: change that, and not this.
// What a recorder's caller asks for, and is to do.

use crate::proved::writer::effects::{Action, Effect, Report};
use crate::proved::writer::recorder::{Health, Phase, Recorder, RecorderError};

// The health of a recorder one of whose effects has failed.
fn health_after(effect: Effect) -> Health {
    match effect {
        Effect::Sync => Health::Dead,
        Effect::Pad(_) | Effect::Size(..) => Health::Suspect,
    }
}

impl Recorder {
    // After a write that failed a checkpoint comes first, unless nothing comes any more.
    fn doubt(&mut self) {
        if self.health == Health::Sound {
            self.health = Health::Suspect;
        }
    }

    // A block that was handed out and isn't reported counts as failed.
    fn give_up(&mut self) {
        match self.phase {
            Phase::Writing(_) => {
                self.doubt();
                self.has_rest = true;
            }
            Phase::Cleaning => self.has_rest = true,
            Phase::Idle | Phase::Saving | Phase::Requested(_) => {}
        }
        self.phase = Phase::Idle;
    }

    // The data length with a block of so many samples, if it is taken.
    fn check_block(&self, samples: u64) -> Result<u32, RecorderError> {
        if self.health == Health::Dead {
            return Err(RecorderError::SyncFailed);
        }
        if self.channels == 0 || samples % self.channels as u64 != 0 {
            return Err(RecorderError::UnfinishedFrame);
        }
        self.length_with(samples)
    }

    /// Asks for a block of so many samples after the others, and before that for the checkpoint that is needed. What
    /// was under way is reported, and a block is given up. A checkpoint continues: before a block that is taken only
    /// where one is needed, and in any case where the block is rejected.
    pub fn write(&mut self, report: Report, samples: u64) -> Result<(), RecorderError> {
        let _ = self.settle(report);
        let is_saving = self.phase == Phase::Saving;
        self.give_up();
        let taken = self.check_block(samples);
        self.phase = match taken {
            Ok(length) => Phase::Requested(length),
            Err(_) if is_saving => Phase::Saving,
            Err(_) => Phase::Idle,
        };
        taken?;
        Ok(())
    }

    /// Asks for a checkpoint of all that is written. What was under way is reported; a checkpoint continues, and a
    /// block is given up.
    pub fn checkpoint(&mut self, report: Report) {
        let _ = self.settle(report);
        self.give_up();
        self.phase = Phase::Saving;
    }

    // Takes in how the effect of a checkpoint ended that was next.
    fn end_effect(&mut self, ok: bool) -> Result<(), RecorderError> {
        match self.next_effect() {
            Ok(None) => Ok(()),
            Ok(Some(_)) if ok => {
                self.number += 1;
                Ok(())
            }
            Ok(Some(effect)) => {
                self.stop();
                self.health = health_after(effect);
                Err(self.health.error())
            }
            Err(error) => {
                self.stop();
                Err(error)
            }
        }
    }

    // Takes in how the write of a block ended, after which the data have so many bytes.
    fn end_block(&mut self, ok: bool, length: u32) {
        if ok {
            self.data_length = length;
            self.phase = Phase::Idle;
        } else {
            self.doubt();
            self.phase = Phase::Cleaning;
        }
    }

    // Takes in how ended what was to do.
    fn settle(&mut self, report: Report) -> Result<(), RecorderError> {
        let ok = match report {
            Report::Pending => return Ok(()),
            Report::Done => true,
            Report::Failed => false,
        };
        match self.phase {
            Phase::Idle => Ok(()),
            Phase::Cleaning => {
                self.phase = Phase::Idle;
                Err(self.health.error())
            }
            Phase::Saving | Phase::Requested(_) | Phase::Writing(_) if self.has_rest => {
                self.has_rest = false;
                Ok(())
            }
            Phase::Saving | Phase::Requested(_) => self.end_effect(ok),
            Phase::Writing(length) => {
                self.end_block(ok, length);
                Ok(())
            }
        }
    }

    // Where the data end, as far as 64 bits count.
    fn end(&self) -> u64 {
        self.data_start.saturating_add(self.data_length as u64)
    }

    // Whether no checkpoint comes before a block.
    fn is_clear(&self) -> bool {
        self.health == Health::Sound && self.number == 0
    }

    // Hands a block out, after which the data have so many bytes.
    fn hand_out(&mut self, length: u32) -> Action {
        self.phase = Phase::Writing(length);
        Action::WriteBlock(self.end(), length.saturating_sub(self.data_length))
    }

    // The next effect of a checkpoint. Once all are done, the block is next that was requested, if one was.
    fn save(&mut self) -> Result<Option<Action>, RecorderError> {
        match self.next_effect() {
            Ok(Some(effect)) => return Ok(Some(Action::Perform(effect))),
            Ok(None) => {}
            Err(error) => {
                self.stop();
                return Err(error);
            }
        }
        self.number = 0;
        self.health = Health::Sound;
        if let Phase::Requested(length) = self.phase {
            return Ok(Some(self.hand_out(length)));
        }
        self.phase = Phase::Idle;
        Ok(None)
    }

    // What there is to do; nothing if all is done.
    fn go_on(&mut self) -> Result<Option<Action>, RecorderError> {
        match self.phase {
            Phase::Idle => Ok(None),
            Phase::Cleaning => Ok(Some(Action::Shorten(self.end()))),
            Phase::Saving | Phase::Requested(_) | Phase::Writing(_) if self.has_rest => {
                Ok(Some(Action::Shorten(self.end())))
            }
            Phase::Writing(length) => Ok(Some(self.hand_out(length))),
            Phase::Requested(length) if self.is_clear() => Ok(Some(self.hand_out(length))),
            Phase::Saving | Phase::Requested(_) => self.save(),
        }
    }

    /// What the caller does next; nothing if all is done. The report is of what the last call returned: if that hasn't
    /// ended, it is returned again. Once a sync has failed, each call returns that error.
    pub fn next(&mut self, report: Report) -> Result<Option<Action>, RecorderError> {
        self.settle(report)?;
        if self.health == Health::Dead {
            return Err(RecorderError::SyncFailed);
        }
        self.go_on()
    }
}
