//! Hints and confirmations of a list, and hint recorders.

use crate::error::{Error, answer};
use crate::raw::{self, BLOCK};
use crate::{First, List, word, zeros};
use std::fmt;

/// The bytes of a hint recorder's list: 65,536 hints.
const LIST: usize = 524_288;

/// A hint: a sector, and the number of the frame that starts there.
#[derive(Clone, Copy, Debug, PartialEq, Eq)]
pub struct Hint {
    /// The sector.
    pub lsn: u32,
    /// The frame's number.
    pub number: u32,
}

/// A hint's sector that a player has checked.
#[derive(Clone, Copy, Debug, PartialEq, Eq)]
pub struct Confirmation {
    /// The sector.
    pub lsn: u32,
    /// Its threshold.
    pub threshold: u32,
    /// Its sum.
    pub digest: u64,
}

/// How a hint was chosen.
#[derive(Clone, Copy, Debug, PartialEq, Eq)]
pub enum HintStart {
    /// A near hint is confirmed for the first frame.
    Confirmed,
    /// The nearest one.
    Nearest,
}

/// Where the end of the read came from; `AreaEnd` where it is the area's end, whatever gave it.
#[derive(Clone, Copy, Debug, PartialEq, Eq)]
pub enum HintEnd {
    /// A later hint.
    Later,
    /// Local spacing.
    Local,
    /// The area's average.
    Average,
    /// The area's end.
    AreaEnd,
}

/// Where to begin reading for a range of frames.
#[derive(Clone, Copy, Debug, PartialEq, Eq)]
pub struct Hinted {
    /// The hint's sector.
    pub lsn: u64,
    /// The number of the frame that starts there.
    pub number: u32,
    /// The end of the read, excluded.
    pub upper: u64,
    /// A later hint gave the end.
    pub later: bool,
    /// How it was chosen.
    pub start: HintStart,
    /// Where the end came from.
    pub end: HintEnd,
}

/// A hint recorder: the numbers in its block, and its list.
#[derive(Clone)]
pub struct HintRecorder {
    block: [u8; BLOCK],
    list: Vec<u8>,
}

impl HintRecorder {
    /// Shows it a sector that was read, and tells the sector's first record, also where it is passed over.
    pub fn see(&mut self, lsn: u64, sector: &[u8]) -> Result<First, Error> {
        let (b, l) = (&mut self.block, &mut self.list);
        // Safety: each pointer is that of a slice of the length behind it, and no two overlap.
        answer(unsafe { raw::seek_raw_see(b.as_mut_ptr(), BLOCK, lsn, sector.as_ptr(), sector.len(), l.as_mut_ptr(), l.len()) })?;
        Ok(First::from_block(b, 7))
    }

    /// Lists the last frame start that was seen and not listed.
    pub fn flush(&mut self) -> Result<(), Error> {
        let (b, l) = (&mut self.block, &mut self.list);
        // Safety: each pointer is that of a slice of the length behind it, and the two do not overlap.
        answer(unsafe { raw::seek_raw_flush(b.as_mut_ptr(), BLOCK, l.as_mut_ptr(), l.len()) })
    }

    /// Takes its hints.
    pub fn take(&mut self) -> Result<Vec<Hint>, Error> {
        let mut a = [0; BLOCK];
        let (b, l) = (&mut self.block, &self.list);
        // Safety: each pointer is that of a slice of the length behind it, and no two overlap.
        answer(unsafe { raw::seek_raw_take(b.as_mut_ptr(), BLOCK, a.as_mut_ptr(), BLOCK, l.as_ptr(), l.len()) })?;
        let four = |c: &[u8]| u32::from_le_bytes([c[0], c[1], c[2], c[3]]);
        let bytes = &l[..8 * word(&a, 0) as usize];
        let mut taken = Vec::new();
        taken.try_reserve_exact(bytes.len() / 8).map_err(|_| Error::Memory)?;
        taken.extend(bytes.chunks_exact(8).map(|c| Hint { lsn: four(c), number: four(&c[4..]) }));
        Ok(taken)
    }

    /// How many hints it has listed that were not taken.
    pub fn hints(&self) -> u64 {
        word(&self.block, 6)
    }
}

impl fmt::Debug for HintRecorder {
    fn fmt(&self, f: &mut fmt::Formatter<'_>) -> fmt::Result {
        f.debug_struct("HintRecorder").field("hints", &self.hints()).finish_non_exhaustive()
    }
}

impl List {
    /// A hint recorder; none where the list's spacing or hint limit is 0.
    pub fn hint_recorder(&self) -> Result<Option<HintRecorder>, Error> {
        let mut block = [0; BLOCK];
        let [t0, t1, t2, t3, t4, t5, t6] = self.tables();
        // Safety: each pointer is that of a slice of the length behind it, and the block overlaps nothing.
        answer(unsafe {
            raw::seek_raw_hint_recorder(
                self.head.as_ptr(), BLOCK, block.as_mut_ptr(), BLOCK, t0.as_ptr(), t0.len(), t1.as_ptr(), t1.len(), t2.as_ptr(), t2.len(),
                t3.as_ptr(), t3.len(), t4.as_ptr(), t4.len(), t5.as_ptr(), t5.len(), t6.as_ptr(), t6.len(),
            )
        })?;
        if word(&block, 0) == 0 {
            return Ok(None);
        }
        Ok(Some(HintRecorder { block, list: zeros(LIST)? }))
    }

    /// Adds hints by their rules: of a sector that is held, or given more than once, the last number given stays.
    pub fn add_hints(&mut self, hints: &[Hint]) -> Result<(), Error> {
        let mut list = Vec::new();
        list.try_reserve_exact(8 * hints.len()).map_err(|_| Error::Memory)?;
        list.extend(hints.iter().flat_map(|h| [h.lsn.to_le_bytes(), h.number.to_le_bytes()]).flatten());
        let (head, [t0, t1, t2, t3, t4, t5, t6]) = self.tables_mut();
        // Safety: each pointer is that of a slice of the length behind it, and no two overlap.
        answer(unsafe {
            raw::seek_raw_add_hints(
                head.as_mut_ptr(), BLOCK, list.as_ptr(), list.len(), t0.as_ptr(), t0.len(), t1.as_ptr(), t1.len(), t2.as_ptr(), t2.len(),
                t3.as_ptr(), t3.len(), t4.as_ptr(), t4.len(), t5.as_mut_ptr(), t5.len(), t6.as_ptr(), t6.len(),
            )
        })
    }

    /// Marks the hint of a sector as kept: no call drops it while the list is held. At most a quarter of the hint limit can be kept. Marks are not saved, so a
    /// list that is loaded has none, and a merge takes none of the other list. [`Error::Keep`] where no hint has this sector, or the quarter is used up; marking
    /// a kept hint again changes nothing.
    ///
    /// ```
    /// use seek::{Area, Error, Hint, List};
    ///
    /// # fn main() -> Result<(), Error> {
    /// let area = Area { slot: 0, channels: 2, key_start: 1000, key_end: 1399, sectors: 1550, start: 1000, end: 1400 };
    /// let mut list = List::new(area, 64, 1 << 20, 8, 4)?;
    /// list.add_hints(&[1000, 1010, 1020].map(|lsn| Hint { lsn, number: lsn - 1000 }))?;
    /// list.keep_hint(1010)?;
    /// assert_eq!(list.keep_hint(1020), Err(Error::Keep)); // a quarter of 4 is kept
    /// list.add_hints(&[1030, 1040].map(|lsn| Hint { lsn, number: lsn - 1000 }))?; // thinned to 3
    /// assert_eq!((list.hints(), list.kept_hints(), list.hint_at(1).unwrap().lsn), (3, 1, 1010));
    /// # Ok(())
    /// # }
    /// ```
    pub fn keep_hint(&mut self, lsn: u64) -> Result<(), Error> {
        let (head, [t0, t1, t2, t3, t4, t5, t6]) = self.tables_mut();
        // Safety: each pointer is that of a slice of the length behind it, and no two overlap.
        answer(unsafe {
            raw::seek_raw_keep_hint(
                head.as_ptr(), BLOCK, lsn, t0.as_ptr(), t0.len(), t1.as_ptr(), t1.len(), t2.as_ptr(), t2.len(), t3.as_ptr(), t3.len(), t4.as_ptr(),
                t4.len(), t5.as_mut_ptr(), t5.len(), t6.as_ptr(), t6.len(),
            )
        })
    }

    /// Keeps a confirmation by its rule: a sector, its threshold and its digest. False where nothing is kept, since the fingerprint is unchecked or the hint
    /// limit 0.
    pub fn keep_confirmation(&mut self, lsn: u64, threshold: u32, digest: u64) -> Result<bool, Error> {
        let mut a = [0; BLOCK];
        let (head, [t0, t1, t2, t3, t4, t5, t6]) = self.tables_mut();
        // Safety: each pointer is that of a slice of the length behind it, and no two overlap.
        answer(unsafe {
            raw::seek_raw_keep_confirmation(
                head.as_mut_ptr(), BLOCK, lsn, threshold, digest, a.as_mut_ptr(), BLOCK, t0.as_ptr(), t0.len(), t1.as_ptr(), t1.len(), t2.as_ptr(),
                t2.len(), t3.as_ptr(), t3.len(), t4.as_ptr(), t4.len(), t5.as_ptr(), t5.len(), t6.as_mut_ptr(), t6.len(),
            )
        })?;
        Ok(word(&a, 0) != 0)
    }

    /// The hint to begin at for the frames from `first` up to `end`, end excluded, in an area of `playtime` frames.
    pub fn hint(&self, first: u32, end: u32, playtime: u32) -> Result<Option<Hinted>, Error> {
        let mut a = [0; BLOCK];
        let [t0, t1, t2, t3, t4, t5, t6] = self.tables();
        // Safety: each pointer is that of a slice of the length behind it, and the answer overlaps nothing.
        answer(unsafe {
            raw::seek_raw_hint(
                self.head.as_ptr(), BLOCK, first, end, playtime, a.as_mut_ptr(), BLOCK, t0.as_ptr(), t0.len(), t1.as_ptr(), t1.len(), t2.as_ptr(),
                t2.len(), t3.as_ptr(), t3.len(), t4.as_ptr(), t4.len(), t5.as_ptr(), t5.len(), t6.as_ptr(), t6.len(),
            )
        })?;
        Ok((word(&a, 0) != 0).then(|| Hinted {
            lsn: word(&a, 1),
            number: word(&a, 2) as u32,
            upper: word(&a, 3),
            later: word(&a, 4) != 0,
            start: if word(&a, 5) == 1 { HintStart::Confirmed } else { HintStart::Nearest },
            end: match word(&a, 6) {
                1 => HintEnd::Later,
                2 => HintEnd::Local,
                3 => HintEnd::Average,
                _ => HintEnd::AreaEnd,
            },
        }))
    }
}
