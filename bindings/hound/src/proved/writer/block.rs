// Made from crates/hound_writer by scripts/erase.py: change that, and not this.
// A block of buffered samples.

use crate::proved::sample::{Sample, store_containers};

/// How many bytes a block holds.
pub(crate) const BLOCK_LENGTH: usize = 4096;

/// Accepted containers that are buffered, one after the other.
pub(crate) struct Block {
    // Their bytes; those after these mean nothing.
    bytes: crate::rattle::Boxed<[u8; BLOCK_LENGTH]>,
    // How many bytes they have.
    length: usize,
}

impl Block {
    /// An empty block.
    pub(crate) fn new() -> Block {
        Block { bytes: crate::rattle::boxed([0; BLOCK_LENGTH]), length: 0 }
    }

    /// How many bytes are buffered.
    #[inline(always)]
    pub(crate) fn len(&self) -> usize {
        self.length
    }

    /// The buffered bytes.
    pub(crate) fn as_slice(&self) -> &[u8] {
        &self.bytes[..self.length]
    }

    /// Appends a container of this many bytes, if there is room for four.
    #[inline(always)]
    pub(crate) fn push(&mut self, container: [u8; 4], width: usize) {
        let at = self.length;
        let end = at + container.len();
        self.bytes[at..end].copy_from_slice(&container);
        self.length = at + width;
    }

    /// Appends containers, if there is room.
    pub(crate) fn extend(&mut self, containers: &[u8]) {
        let at = self.length;
        let end = at + containers.len();
        self.bytes[at..end].copy_from_slice(containers);
        self.length = end;
    }

    /// Appends the containers of samples, each of which has one, if there is room.
    #[inline(always)]
    pub(crate) fn extend_by<S: Sample + Copy>(&mut self, samples: &[S], bits: u16, width: u16) {
        let at = self.length;
        let end = at + width as usize * samples.len();
        store_containers(&mut self.bytes[at..end], samples, bits, width);
        self.length = end;
    }

    /// Empties the block.
    pub(crate) fn clear(&mut self) {
        self.length = 0;
    }
}
