//! Recorders: a pass over the disc, absorbed by a list.

use crate::error::{Error, answer};
use crate::raw::{self, BLOCK};
use crate::{List, word, zeros};
use std::fmt;

/// A frame under assembly where a checkpoint is recorded.
#[derive(Clone, Copy, Debug)]
pub struct Frame<'a> {
    /// The sector that it starts in.
    pub start: u64,
    /// Its number.
    pub number: u32,
    /// DSD, or else DST.
    pub dsd: bool,
    /// The sectors that are still to come, as the player's assembler counts them.
    pub remaining: i32,
    /// Its bytes so far.
    pub bytes: &'a [u8],
}

/// A recorder: the numbers in its block, and its four tables one behind the other in one block of memory.
#[derive(Clone)]
pub struct Recorder {
    block: [u8; BLOCK],
    memory: Vec<u8>,
    sizes: [usize; 4],
}

impl Recorder {
    fn tables(&self) -> [&[u8]; 4] {
        let mut rest = &self.memory[..];
        self.sizes.map(|n| {
            let (t, behind) = rest.split_at(n);
            rest = behind;
            t
        })
    }

    fn tables_mut(&mut self) -> (&mut [u8; BLOCK], [&mut [u8]; 4]) {
        let mut rest = &mut self.memory[..];
        let tables = self.sizes.map(|n| {
            let (t, behind) = std::mem::take(&mut rest).split_at_mut(n);
            rest = behind;
            t
        });
        (&mut self.block, tables)
    }

    /// Records the checkpoint at the due sector, of 2,048 bytes: its threshold, how many malformed sectors lie before it, and the frame under assembly.
    pub fn record(&mut self, lsn: u64, threshold: u32, malformed: u64, frame: Option<Frame<'_>>, sector: &[u8]) -> Result<(), Error> {
        let mark = u8::from(frame.is_some());
        let f = frame.unwrap_or(Frame { start: 0, number: 0, dsd: false, remaining: 0, bytes: &[] });
        let (block, [t0, t1, t2, t3]) = self.tables_mut();
        // Safety: each pointer is that of a slice of the length behind it, and no two overlap.
        answer(unsafe {
            raw::seek_raw_record(
                block.as_mut_ptr(), BLOCK, lsn, threshold, malformed, mark, f.start, f.number, u8::from(f.dsd), f.remaining, f.bytes.as_ptr(),
                f.bytes.len(), sector.as_ptr(), sector.len(), t0.as_mut_ptr(), t0.len(), t1.as_mut_ptr(), t1.len(), t2.as_mut_ptr(), t2.len(),
                t3.as_mut_ptr(), t3.len(),
            )
        })
    }

    /// States the end of the area, where every checkpoint is recorded: its threshold, and how many malformed sectors there are.
    pub fn finish(&mut self, threshold: u32, malformed: u64) -> Result<(), Error> {
        let (block, [t0, t1, t2, t3]) = self.tables_mut();
        // Safety: each pointer is that of a slice of the length behind it, and no two overlap.
        answer(unsafe {
            raw::seek_raw_finish(
                block.as_mut_ptr(), BLOCK, threshold, malformed, t0.as_ptr(), t0.len(), t1.as_ptr(), t1.len(), t2.as_ptr(), t2.len(), t3.as_ptr(),
                t3.len(),
            )
        })
    }

    /// The sector that [`Recorder::record`] wants next; none where every boundary is recorded and [`Recorder::finish`] is next, or where it is finished or stopped.
    ///
    /// ```
    /// # use seek::{Area, List};
    /// # fn main() -> Result<(), seek::Error> {
    /// # let area = Area { slot: 0, channels: 2, key_start: 1000, key_end: 1399, sectors: 1550, start: 1000, end: 1400 };
    /// let list = List::new(area, 200, 1 << 20, 8, 2048)?;
    /// let mut recorder = list.recorder(1000)?;
    /// assert_eq!(recorder.due(), Some(1000));
    /// recorder.record(1000, 0, 0, None, &[0; 2048])?;
    /// assert_eq!(recorder.due(), Some(1200));
    /// recorder.record(1200, 200, 0, None, &[0; 2048])?;
    /// assert_eq!(recorder.due(), None);
    /// # Ok(())
    /// # }
    /// ```
    pub fn due(&self) -> Option<u64> {
        let mut b = [0; BLOCK];
        // Safety: both are arrays of this length, and the answer overlaps nothing.
        let n = unsafe { raw::seek_raw_due(self.block.as_ptr(), BLOCK, b.as_mut_ptr(), BLOCK) };
        (n == 0 && word(&b, 0) != 0).then(|| word(&b, 1))
    }

    /// How many checkpoints are recorded and not yet absorbed.
    pub fn checkpoints(&self) -> u64 {
        word(&self.block, 11)
    }

    /// Does it record no more?
    pub fn is_stopped(&self) -> bool {
        word(&self.block, 14) > 1
    }
}

impl fmt::Debug for Recorder {
    fn fmt(&self, f: &mut fmt::Formatter<'_>) -> fmt::Result {
        f.debug_struct("Recorder").field("due", &self.due()).field("checkpoints", &self.checkpoints()).field("stopped", &self.is_stopped()).finish_non_exhaustive()
    }
}

impl List {
    /// A recorder for a pass that has read every sector from sector `from` on. `from` does not choose where recording begins: the first sector that is due is the
    /// list's next boundary ([`Recorder::due`]). Above the list's frontier the recorder does not join it ([`Error::AbsorbJoins`]). A complete list gives a stopped one.
    pub fn recorder(&self, from: u64) -> Result<Recorder, Error> {
        let [t0, t1, t2, t3, t4, t5, t6] = self.tables();
        let sizes = [t0.len(), t1.len(), t2.len(), t3.len()];
        let mut r = Recorder { block: [0; BLOCK], memory: zeros(sizes.iter().sum())?, sizes };
        // Safety: each pointer is that of a slice of the length behind it, and the block overlaps nothing.
        answer(unsafe {
            raw::seek_raw_recorder(
                self.head.as_ptr(), BLOCK, from, r.block.as_mut_ptr(), BLOCK, t0.as_ptr(), t0.len(), t1.as_ptr(), t1.len(), t2.as_ptr(), t2.len(),
                t3.as_ptr(), t3.len(), t4.as_ptr(), t4.len(), t5.as_ptr(), t5.len(), t6.as_ptr(), t6.len(),
            )
        })?;
        Ok(r)
    }

    /// Absorbs what a recorder read: the image id of the reading, if known, and its malformed sectors so far, rising. The recorder is then empty, and
    /// stopped if it was finished. [`Error::AbsorbImage`] stops the recorder too; another error changed nothing.
    pub fn absorb(&mut self, r: &mut Recorder, image: Option<u64>, malformed: &[u32]) -> Result<(), Error> {
        let mut given = Vec::new();
        given.try_reserve_exact(4 * malformed.len()).map_err(|_| Error::Memory)?;
        given.extend(malformed.iter().flat_map(|l| l.to_le_bytes()));
        let mut block = r.block;
        let [u0, u1, u2, u3] = r.tables();
        let (head, [t0, t1, t2, t3, t4, t5, t6]) = self.tables_mut();
        // Safety: each pointer is that of a slice of the length behind it, no two overlap, and the block is a copy of its own.
        let n = unsafe {
            raw::seek_raw_absorb(
                head.as_mut_ptr(), BLOCK, block.as_mut_ptr(), BLOCK, u8::from(image.is_some()), image.unwrap_or(0), given.as_ptr(), given.len(),
                t0.as_mut_ptr(), t0.len(), t1.as_mut_ptr(), t1.len(), t2.as_mut_ptr(), t2.len(), t3.as_mut_ptr(), t3.len(), t4.as_mut_ptr(),
                t4.len(), t5.as_ptr(), t5.len(), t6.as_ptr(), t6.len(), u0.as_ptr(), u0.len(), u1.as_ptr(), u1.len(), u2.as_ptr(), u2.len(),
                u3.as_ptr(), u3.len(),
            )
        };
        r.block = block;
        answer(n)
    }
}
