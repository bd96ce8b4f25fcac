//! What a list holds, by number, and its numbers.

use crate::error::Error;
use crate::raw::{self, BLOCK};
use crate::{Area, Confirmation, Hint, List, word, zeros};
use std::fmt;

/// A checkpoint.
#[derive(Clone, Copy, Debug, PartialEq, Eq)]
pub struct Checkpoint {
    /// Its sector.
    pub lsn: u64,
    /// The first frame that a reader has not yet been given there.
    pub threshold: u32,
    /// The sectors back to the one in which the frame under assembly starts, or 0.
    pub back: u32,
    /// How many malformed sectors lie before it.
    pub malformed: u64,
    /// The sum of its sector.
    pub digest: u64,
}

/// A held part of a frame, without its bytes ([`List::plan`] gives them).
#[derive(Clone, Copy, Debug, PartialEq, Eq)]
pub struct Held {
    /// The number of the checkpoint that it is held for.
    pub checkpoint: u32,
    /// The sector in which the frame starts.
    pub start: u32,
    /// How many bytes it has.
    pub length: u32,
    /// The frame's number.
    pub number: u32,
    /// The sectors that are still to come, as the player's assembler counts them.
    pub remaining: i32,
    /// DSD, or else DST.
    pub dsd: bool,
}

fn four(b: &[u8], at: usize) -> u32 {
    u32::from_le_bytes([b[at], b[at + 1], b[at + 2], b[at + 3]])
}

fn eight(b: &[u8], at: usize) -> u64 {
    u64::from(four(b, at)) | u64::from(four(b, at + 4)) << 32
}

impl List {
    /// Record number i of `width` bytes in table t, if the list counts so many.
    fn record(&self, t: usize, count: u64, i: u64, width: usize) -> Option<&[u8]> {
        let at = usize::try_from(i).ok().filter(|_| i < count)?.checked_mul(width)?;
        self.tables()[t].get(at..)?.get(..width)
    }

    /// Its area.
    pub fn area(&self) -> Area {
        Area::from_block(&self.head)
    }

    /// The sectors from one checkpoint to the next.
    pub fn interval(&self) -> u64 {
        word(&self.head, 7)
    }

    /// The most bytes of held parts.
    pub fn budget(&self) -> u64 {
        word(&self.head, 8)
    }

    /// The frames between two hints that are recorded.
    pub fn spacing(&self) -> u64 {
        word(&self.head, 9)
    }

    /// The most hints, and confirmations.
    pub fn hint_limit(&self) -> u64 {
        word(&self.head, 10)
    }

    /// How many checkpoints the list holds.
    pub fn checkpoints(&self) -> u64 {
        word(&self.head, 11)
    }

    /// How many held parts.
    pub fn parts(&self) -> u64 {
        word(&self.head, 13)
    }

    /// How many malformed sectors are listed.
    pub fn malformed(&self) -> u64 {
        word(&self.head, 14)
    }

    /// How many hints the list holds.
    pub fn hints(&self) -> u64 {
        word(&self.head, 15)
    }

    /// How many confirmations.
    pub fn confirmations(&self) -> u64 {
        word(&self.head, 16)
    }

    /// Has the list the end state?
    pub fn is_complete(&self) -> bool {
        word(&self.head, 17) != 0
    }

    /// The end state, if the list has it: threshold and malformed count at the end of the area.
    pub fn end(&self) -> Option<(u32, u64)> {
        self.is_complete().then(|| (word(&self.head, 18) as u32, word(&self.head, 19)))
    }

    /// The fingerprint, if one is held.
    pub fn fingerprint(&self) -> Option<u64> {
        (word(&self.head, 20) != 0).then(|| word(&self.head, 21))
    }

    /// Was the fingerprint stated since the list was loaded or made?
    pub fn is_fingerprint_checked(&self) -> bool {
        word(&self.head, 20) > 1
    }

    /// The image id, if it is known.
    pub fn image(&self) -> Option<u64> {
        (word(&self.head, 22) != 0).then(|| word(&self.head, 23))
    }

    /// The sector of checkpoint number j, held or not; none where the area has no such boundary.
    pub fn boundary(&self, j: u32) -> Option<u64> {
        let mut b = [0; BLOCK];
        // Safety: head and block are arrays of this length, and the block overlaps nothing.
        let n = unsafe { raw::seek_raw_boundary(self.head.as_ptr(), BLOCK, j, b.as_mut_ptr(), BLOCK) };
        (n == 0 && word(&b, 0) != 0).then(|| word(&b, 1))
    }

    /// How far the list reaches: the end of its area where it is complete, else its last checkpoint's sector, else the area's start.
    pub fn frontier(&self) -> u64 {
        let mut b = [0; BLOCK];
        // Safety: head and block are arrays of this length, and the block overlaps nothing.
        let n = unsafe { raw::seek_raw_frontier(self.head.as_ptr(), BLOCK, b.as_mut_ptr(), BLOCK) };
        if n == 0 { word(&b, 1) } else { 0 }
    }

    /// Checkpoint number j.
    pub fn checkpoint(&self, j: u64) -> Option<Checkpoint> {
        let b = self.record(0, self.checkpoints(), j, 24)?;
        let lsn = self.boundary(j as u32)?;
        Some(Checkpoint { lsn, threshold: four(b, 0), back: four(b, 4), malformed: eight(b, 8), digest: eight(b, 16) })
    }

    /// Held part number i.
    pub fn held(&self, i: u64) -> Option<Held> {
        let b = self.record(3, self.parts(), i, 24)?;
        let f = self.record(1, word(&self.head, 12), u64::from(four(b, 4)), 8)?;
        Some(Held {
            checkpoint: four(b, 0),
            start: four(f, 0),
            length: four(b, 8),
            number: four(b, 12),
            remaining: four(b, 16) as i32,
            dsd: four(b, 20) != 0,
        })
    }

    /// Malformed sector number i.
    pub fn malformed_at(&self, i: u64) -> Option<u32> {
        Some(four(self.record(4, self.malformed(), i, 4)?, 0))
    }

    /// Hint number i.
    pub fn hint_at(&self, i: u64) -> Option<Hint> {
        let b = self.record(5, self.hints(), i, 8)?;
        Some(Hint { lsn: four(b, 0), number: four(b, 4) & 0xff_ffff })
    }

    /// Is hint number i kept? Its record's last byte says it.
    pub fn is_hint_kept(&self, i: u64) -> bool {
        self.record(5, self.hints(), i, 8).is_some_and(|b| b[7] == 1)
    }

    /// How many hints are kept. It looks at each hint.
    pub fn kept_hints(&self) -> u64 {
        (0..self.hints()).filter(|&i| self.is_hint_kept(i)).count() as u64
    }

    /// Confirmation number i.
    pub fn confirmation(&self, i: u64) -> Option<Confirmation> {
        let b = self.record(6, self.confirmations(), i, 16)?;
        Some(Confirmation { lsn: four(b, 0), threshold: four(b, 4), digest: eight(b, 8) })
    }

    /// A copy, or [`Error::Memory`] where there is no memory for it.
    pub fn try_clone(&self) -> Result<List, Error> {
        let mut memory = zeros(self.memory.len())?;
        memory.copy_from_slice(&self.memory);
        Ok(List { head: self.head, memory, sizes: self.sizes })
    }
}

impl fmt::Debug for List {
    fn fmt(&self, f: &mut fmt::Formatter<'_>) -> fmt::Result {
        f.debug_struct("List")
            .field("area", &self.area())
            .field("interval", &self.interval())
            .field("checkpoints", &self.checkpoints())
            .field("parts", &self.parts())
            .field("hints", &self.hints())
            .field("complete", &self.is_complete())
            .finish_non_exhaustive()
    }
}
