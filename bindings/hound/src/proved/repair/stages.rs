// Made from crates/hound_repair by scripts/erase.py: change that, and not this.
// Which parts of a file a look at it asks for, and where each leads.

use crate::proved::repair::look::{
    Damage, ID3_LENGTH, ID3_TAG, Repair, SeenHead, chunk_content, has_known_tag, right_sizes,
};
use crate::proved::repair::mend::LIMIT;
use crate::proved::number::u32_at;
use crate::proved::spec::is_pair;
use crate::proved::walk::{Cause, FileHead, HeadWalk, Part, Step, take_part};
use crate::proved::writer::{Action, RepairState};

/// What a caller requests of a file.
#[derive(Clone, Copy, Debug, PartialEq, Eq)]
pub enum Task {
    /// What [`find_damage`](super::find_damage) does.
    FindDamage,
    /// What [`repair`](super::repair) does.
    Repair,
    /// What [`repair_to_end`](super::repair_to_end) does.
    RepairToEnd,
    /// What [`repair`](super::repair) does, and the same to a file whose samples are all counted: its RIFF size and its
    /// pad byte become those of the canonical form.
    MakeCanonical,
}

impl Task {
    /// Whether it mends a file that was found so.
    pub(crate) fn mends(self, state: RepairState) -> bool {
        match state {
            RepairState::CutOff => self != Task::FindDamage,
            RepairState::AllCounted => self == Task::RepairToEnd || self == Task::MakeCanonical,
            RepairState::Whole | RepairState::HasChunksAfterData => false,
        }
    }
}

/// Why a file isn't repaired, by its bytes.
#[derive(Clone, Copy, Debug, PartialEq, Eq)]
pub enum Unrepairable {
    /// It has no head.
    Head(Cause),
    /// Its samples are not written with these bits, bytes and format.
    Unsupported,
    /// The RIFF size of its frames would pass 4294967295.
    TooLong,
}

/// Which part of a file a look at it asks for.
#[derive(Clone, Copy)]
pub enum Stage {
    /// A part of the header.
    Head(HeadWalk),
    /// The single byte after the data, of a file with this head.
    Last(SeenHead),
    /// What may be a chunk's header at this place; `true` if those after the pad byte come first.
    Chunk(SeenHead, u64, bool),
    /// What may be an ID3v1 tag at the end.
    Tag(SeenHead),
    /// The RIFF size, once nothing was found that follows the data.
    Size(SeenHead),
}

// Where one part leads.
#[derive(Clone, Copy)]
pub(crate) enum LookStep {
    // To another part.
    Next(Stage),
    // To what was found.
    Found(Damage),
}

impl Stage {
    /// What a look at a file asks for first.
    pub fn first() -> Stage {
        Stage::Head(HeadWalk { found: None, taken: 0, part: Part::Front })
    }

    /// The place of the part that a look at a file of so many bytes asks for.
    pub fn place(self, length: u64) -> u64 {
        match self {
            Stage::Head(walk) => walk.start(),
            Stage::Last(head) => head.data_start + head.data_length as u64,
            Stage::Size(_) => 4,
            Stage::Chunk(_, place, _) => place,
            Stage::Tag(_) => length.saturating_sub(ID3_LENGTH),
        }
    }

    /// How many bytes it has; fewer only at the end of the file.
    pub fn count(self) -> usize {
        match self {
            Stage::Head(walk) => walk.length(),
            Stage::Last(_) => 1,
            Stage::Size(_) => 4,
            Stage::Chunk(..) => 8,
            Stage::Tag(_) => 3,
        }
    }

    /// What its caller does.
    pub fn action(self, length: u64) -> Action {
        Action::Read(self.place(length), self.count() as u32)
    }
}

// How a file is found that isn't whole, and whose data nothing follows.
fn unfollowed_state(counts_all: bool) -> RepairState {
    if counts_all {
        RepairState::AllCounted
    } else {
        RepairState::CutOff
    }
}

// What is found of a file of so many bytes with this head that isn't whole, and whose data nothing follows.
pub(crate) fn measured(size: u64, head: SeenHead) -> Result<Damage, Unrepairable> {
    let spec = head.spec_ex.spec;
    let width = head.spec_ex.bytes_per_sample;
    if !is_pair(spec.sample_format, spec.bits_per_sample, width) {
        return Err(Unrepairable::Unsupported);
    }
    let size = size.min(LIMIT);
    if head.data_start > size {
        return Err(Unrepairable::Head(Cause::Ended));
    }
    let held = size - head.data_start;
    let sizes = right_sizes(head, head.shown(), held).ok_or(Unrepairable::TooLong)?;
    let state = unfollowed_state(head.data_length == sizes.data_length);
    Ok(Damage { head, held, sizes, state })
}

// A file that is found as this.
fn found_as(damage: Damage, state: RepairState) -> LookStep {
    LookStep::Found(Damage { state, ..damage })
}

// On, where no chunk begins after the data.
fn at_end(damage: Damage) -> LookStep {
    let length = damage.head.data_length as u64;
    if length + ID3_LENGTH <= damage.held {
        return LookStep::Next(Stage::Tag(damage.head));
    }
    LookStep::Next(Stage::Size(damage.head))
}

// On, where no chunk begins at a place, which was that after the pad byte.
fn at_no_chunk(damage: Damage, padded: bool) -> LookStep {
    let length = damage.head.data_length as u64;
    if padded && length < damage.held {
        let place = damage.head.data_start + length;
        return LookStep::Next(Stage::Chunk(damage.head, place, false));
    }
    at_end(damage)
}

// Takes the RIFF size, where nothing that follows the data was found or looked for.
fn take_size(damage: Damage, bytes: &[u8]) -> LookStep {
    let sizes = damage.sizes;
    let are_right = u32_at(bytes, 0) == sizes.riff_size && damage.head.data_length == sizes.data_length;
    if are_right && !damage.lacks_pad() {
        return found_as(damage, RepairState::Whole);
    }
    LookStep::Found(damage)
}

// Takes what may be the header of a chunk at this place.
fn take_chunk(damage: Damage, place: u64, padded: bool, bytes: &[u8]) -> LookStep {
    let end = damage.head.data_start + damage.held;
    if place >= end || has_known_tag(bytes) {
        return found_as(damage, RepairState::HasChunksAfterData);
    }
    if bytes.len() < 8 {
        return at_no_chunk(damage, padded);
    }
    match chunk_content(bytes, end - place) {
        Some(content) => LookStep::Next(Stage::Chunk(damage.head, place + 8 + content, padded)),
        None => at_no_chunk(damage, padded),
    }
}

// Takes what may be an ID3v1 tag.
fn take_tag(damage: Damage, bytes: &[u8]) -> LookStep {
    if bytes == ID3_TAG.as_slice() {
        return found_as(damage, RepairState::HasChunksAfterData);
    }
    LookStep::Next(Stage::Size(damage.head))
}

// What is requested once it is known which data length the file shows: what may be a chunk after the data, where chunks
// are looked for and more than a pad byte follows; else the RIFF size.
fn after_data(length: u64, task: Task, head: SeenHead) -> Stage {
    let data_length = head.data_length as u64;
    let place = head.data_start + data_length + data_length % 2;
    if task != Task::RepairToEnd && place < length.min(LIMIT) {
        return Stage::Chunk(head, place, true);
    }
    Stage::Size(head)
}

// What is requested once the head is found: the byte after the data, if it is the only one, or what comes after that.
fn after_head(length: u64, task: Task, head: FileHead) -> Stage {
    let seen =
        SeenHead { spec_ex: head.spec_ex, data_length: head.data_length, data_start: head.data_start, has_more: false };
    if length == head.data_start + head.data_length as u64 + 1 {
        return Stage::Last(seen);
    }
    after_data(length, task, seen)
}

// Whether a single byte after the data, which is this if there is one, is a sample.
fn is_sample(bytes: &[u8]) -> bool {
    bytes.len() == 1 && bytes[0] != 0
}

// Takes the byte after the data.
fn take_last(length: u64, task: Task, head: SeenHead, bytes: &[u8]) -> LookStep {
    let seen = SeenHead { has_more: is_sample(bytes), ..head };
    LookStep::Next(after_data(length, task, seen))
}

// Takes a part of the header.
fn take_header(length: u64, task: Task, walk: HeadWalk, bytes: &[u8]) -> Result<LookStep, Unrepairable> {
    // No file of so many bytes has more there.
    if bytes.len() as u64 > length.saturating_sub(walk.start()) {
        return Err(Unrepairable::Head(Cause::Ended));
    }
    match take_part(walk, bytes) {
        Ok(Step::Next(next)) => Ok(LookStep::Next(Stage::Head(next))),
        Ok(Step::Data(head)) => Ok(LookStep::Next(after_head(length, task, head))),
        Err(cause) => Err(Unrepairable::Head(cause)),
    }
}

// Whether these are all bytes that a file of so many has of the part that was requested.
fn are_enough(size: u64, stage: Stage, bytes: &[u8]) -> bool {
    let left = size.min(LIMIT).saturating_sub(stage.place(size));
    bytes.len() as u64 >= left.min(stage.count() as u64)
}

// Takes the bytes that a look asks for, fewer only at the end of the file, and returns where they lead: to another
// part, or to what `repair` finds. At an error the look has ended.
pub(crate) fn take_asked(length: u64, task: Task, stage: Stage, bytes: &[u8]) -> Result<LookStep, Unrepairable> {
    if !are_enough(length, stage, bytes) {
        return Err(Unrepairable::Head(Cause::Ended));
    }
    match stage {
        Stage::Head(walk) => take_header(length, task, walk, bytes),
        Stage::Last(head) => Ok(take_last(length, task, head, bytes)),
        Stage::Chunk(head, place, padded) => {
            let damage = measured(length, head)?;
            Ok(take_chunk(damage, place, padded, bytes))
        }
        Stage::Tag(head) => Ok(take_tag(measured(length, head)?, bytes)),
        Stage::Size(head) => Ok(take_size(measured(length, head)?, bytes)),
    }
}
