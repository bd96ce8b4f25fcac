//! The seek index of Super Audio discs: a safe wrapper of the player's library (include/seek.h), which is proved.
//!
//! A [`List`] owns the memory of its head and its seven tables. Every call answers a result or an [`Error`]; an error changed nothing,
//! but for the one that stops a recorder ([`List::absorb`]). Words such as threshold, back, remaining and budget are explained at the top of seek.h.
//!
//! A reading becomes a list, which is saved, loaded and merged, and plans a jump:
//!
//! ```
//! use seek::{Role, Area, Frame, List, Plan};
//!
//! # fn main() -> Result<(), seek::Error> {
//! let area = Area { slot: 0, channels: 2, key_start: 1000, key_end: 1399, sectors: 1550, start: 1000, end: 1400 };
//! let mut list = List::new(area, 64, 1 << 20, 8, 2048)?;
//! let mut recorder = list.recorder(area.start)?;
//! while let Some(lsn) = recorder.due() {
//!     let sector = [0; 2048]; // as it was read
//!     let part = [7; 100];
//!     let frame = (lsn > 1000).then_some(Frame { start: lsn - 40, number: 0, dsd: false, remaining: 2, bytes: &part });
//!     recorder.record(lsn, (lsn - 1000) as u32, 0, frame, &sector)?;
//! }
//! recorder.finish(400, 0)?;
//! list.absorb(&mut recorder, Some(1), &[])?;
//! let file = list.save(Role::Workshop)?;
//!
//! let mut other = List::new(area, 64, 1 << 20, 8, 2048)?;
//! other.merge(Role::Workshop, &List::load(Role::Workshop, Area::of_file(&file)?, &file, u64::MAX)?)?;
//! assert!(other.is_complete());
//! let Plan::At(at) = other.plan(130)? else { panic!("no checkpoint") };
//! assert_eq!((at.lsn, at.threshold, at.part.unwrap().bytes.len()), (1128, 128, 100));
//! assert_eq!(other.save(Role::Workshop)?, file);
//! # Ok(())
//! # }
//! ```
#![warn(missing_docs, missing_debug_implementations)]

mod disc;
mod error;
mod hints;
mod raw;
mod readers;
mod recorder;
mod shelf;
mod sums;
mod view;

pub use disc::{contents, load_disc, save_disc};
pub use error::Error;
pub use hints::{Confirmation, Hint, HintEnd, HintRecorder, HintStart, Hinted};
pub use readers::{Checkpoint, Held};
pub use recorder::{Frame, Recorder};
pub use shelf::{Shelf, ShelfList};
pub use sums::{fold32, fold64, sum32};
pub use view::{ListenerView, Role, SeenCheckpoint, SeenHint, WorkshopView};

use error::answer;
use raw::BLOCK;
use view::workshop;

/// An area of a disc: its slot (0 two-channel, 1 multichannel), the key of the disc's table of contents, and the range of sectors, its end excluded.
#[derive(Clone, Copy, Debug, PartialEq, Eq)]
pub struct Area {
    /// 0 two-channel, 1 multichannel.
    pub slot: u8,
    /// How many channels.
    pub channels: u8,
    /// The first audio sector, as the disc's table of contents gives it.
    pub key_start: u32,
    /// The last one.
    pub key_end: u32,
    /// The sectors of the image.
    pub sectors: u64,
    /// The first sector of the range.
    pub start: u64,
    /// Its end, excluded.
    pub end: u64,
}

/// Where a jump starts.
#[derive(Clone, Debug, PartialEq, Eq)]
pub enum Plan<'a> {
    /// The area's start.
    Start,
    /// A checkpoint.
    At(Resume<'a>),
    /// The area's end.
    End {
        /// The threshold there.
        threshold: u32,
        /// How many malformed sectors the area has.
        malformed: u64,
    },
}

/// The rule by which a plan gets its answer.
#[derive(Clone, Copy, Debug, PartialEq, Eq)]
pub enum PlanRule {
    /// The area's start.
    AreaStart,
    /// A checkpoint.
    Checkpoint,
    /// A checkpoint with held part.
    HeldPart,
    /// The end state.
    EndState,
}

impl Plan<'_> {
    /// The rule is a function of the answer.
    pub fn rule(&self) -> PlanRule {
        match self {
            Plan::Start => PlanRule::AreaStart,
            Plan::At(Resume { part: None, .. }) => PlanRule::Checkpoint,
            Plan::At(_) => PlanRule::HeldPart,
            Plan::End { .. } => PlanRule::EndState,
        }
    }
}

/// A checkpoint, and the part of a frame that is held for it.
#[derive(Clone, Debug, PartialEq, Eq)]
pub struct Resume<'a> {
    /// The checkpoint's number.
    pub number: u32,
    /// Its sector.
    pub lsn: u64,
    /// The first frame that a reader has not yet been given there.
    pub threshold: u32,
    /// The sectors back to the one in which the frame under assembly starts, or 0.
    pub back: u32,
    /// How many malformed sectors lie before it.
    pub malformed: u64,
    /// The sum of its sector.
    pub digest: u64,
    /// The held part, if there is one.
    pub part: Option<Part<'a>>,
}

/// A held part of a frame.
#[derive(Clone, Debug, PartialEq, Eq)]
pub struct Part<'a> {
    /// DSD, or else DST.
    pub dsd: bool,
    /// The frame's number.
    pub number: u32,
    /// The sectors that are still to come, as the player's assembler counts them.
    pub remaining: i32,
    /// Its bytes.
    pub bytes: &'a [u8],
}

/// What merging another list would change. The other list can hold more than a merge would take: see [`List::lacks`].
#[derive(Clone, Copy, Debug, Default, PartialEq, Eq)]
pub struct Brings {
    /// Further checkpoints.
    pub checkpoints: bool,
    /// The end state.
    pub end: bool,
    /// Held parts.
    pub parts: bool,
    /// Malformed sectors.
    pub malformed: bool,
    /// Hints.
    pub hints: bool,
    /// Confirmations.
    pub confirmations: bool,
    /// The fingerprint.
    pub fingerprint: bool,
    /// The image id, which is not saved.
    pub image: bool,
}

/// What another list holds and this one does not: how many of each, and whether of what there is once at most.
#[derive(Clone, Copy, Debug, Default, PartialEq, Eq)]
pub struct Lacking {
    /// How many checkpoints the other has more.
    pub checkpoints: u64,
    /// The other has an end state.
    pub end_state: bool,
    /// Held parts, by bytes, number, kind and remaining.
    pub parts: u64,
    /// Malformed sectors.
    pub malformed: u64,
    /// Hints, by sector and number.
    pub hints: u64,
    /// Confirmations, by sector and digest, with a threshold not above.
    pub confirmations: u64,
    /// The other states a fingerprint.
    pub fingerprint: bool,
    /// The other has an image id, which is not saved.
    pub image: bool,
    /// The other's budget is larger.
    pub budget: bool,
    /// The other's hint limit is larger.
    pub most: bool,
}

impl Lacking {
    /// Nothing but, at most, the image id and room (budget, hint limit): the other list may be deleted.
    pub fn is_nothing(&self) -> bool {
        Lacking { image: false, budget: false, most: false, ..*self } == Lacking::default()
    }
}

/// A list: the numbers in its head, and its seven tables one behind the other in one block of memory.
#[derive(Clone)]
pub struct List {
    head: [u8; BLOCK],
    memory: Vec<u8>,
    sizes: [usize; 7],
}

/// A vector of zeros, if there is memory for it.
fn zeros(n: usize) -> Result<Vec<u8>, Error> {
    let mut v = Vec::new();
    v.try_reserve_exact(n).map_err(|_| Error::Memory)?;
    v.resize(n, 0);
    Ok(v)
}

fn word(block: &[u8; BLOCK], i: usize) -> u64 {
    let mut bytes = [0; 8];
    bytes.copy_from_slice(&block[8 * i..8 * i + 8]);
    u64::from_le_bytes(bytes)
}

/// The sizes in a block from a word on, where this machine can address them.
fn sizes_in(block: &[u8; BLOCK], from: usize) -> Result<[usize; 7], Error> {
    let mut sizes = [0; 7];
    for (i, s) in sizes.iter_mut().enumerate() {
        *s = usize::try_from(word(block, from + i)).map_err(|_| Error::Memory)?;
    }
    Ok(sizes)
}

/// The sizes of the tables for a file, under an area and a limit.
fn file_sizes(a: Area, file: &[u8], limit: u64) -> Result<[usize; 7], Error> {
    let mut b = [0; BLOCK];
    // Safety: pointers and lengths are those of two slices, and the block overlaps nothing.
    answer(unsafe {
        raw::seek_raw_file_sizes(
            a.slot, a.channels, a.key_start, a.key_end, a.sectors, a.start, a.end, file.as_ptr(), file.len(), limit, b.as_mut_ptr(), BLOCK,
        )
    })?;
    sizes_in(&b, 0)
}

/// 64-bit FNV-1a.
pub fn sum(bytes: &[u8]) -> u64 {
    // Safety: pointer and length are those of one slice.
    unsafe { raw::seek_raw_sum(bytes.as_ptr(), bytes.len()) }
}

/// The first record of a sector, or why there is none.
#[derive(Clone, Copy, Debug, PartialEq, Eq)]
pub enum First {
    /// A frame starts in the sector.
    Record {
        /// Its number.
        number: u32,
        /// Where its three time bytes begin in the sector: odd, 1 to 15.
        offset: u32,
    },
    /// No frame starts in the sector.
    NoFrame,
    /// The sector is empty or ends before the three bytes do.
    Missing,
}

impl First {
    /// What the four words of a block from `at` on tell.
    fn from_block(b: &[u8; BLOCK], at: usize) -> First {
        match (word(b, at), word(b, at + 3)) {
            (0, 1) => First::NoFrame,
            (0, _) => First::Missing,
            _ => First::Record { number: word(b, at + 1) as u32, offset: word(b, at + 2) as u32 },
        }
    }

    /// Its frame number, if there is one.
    pub fn number(self) -> Option<u32> {
        match self {
            First::Record { number, .. } => Some(number),
            First::NoFrame | First::Missing => None,
        }
    }
}

/// The first record of a sector.
pub fn first_record(sector: &[u8]) -> First {
    let mut block = [0; BLOCK];
    // Safety: pointers and lengths are those of two slices, and the block overlaps nothing.
    unsafe { raw::seek_raw_first_record(sector.as_ptr(), sector.len(), block.as_mut_ptr(), BLOCK) };
    First::from_block(&block, 0)
}

impl Area {
    /// The area that a list file says it is of, with the range that its key gives.
    pub fn of_file(file: &[u8]) -> Result<Area, Error> {
        let mut b = [0; BLOCK];
        // Safety: pointers and lengths are those of two slices, and the block overlaps nothing.
        answer(unsafe { raw::seek_raw_file_area(file.as_ptr(), file.len(), b.as_mut_ptr(), BLOCK) })?;
        Ok(Area::from_block(&b))
    }

    fn from_block(b: &[u8; BLOCK]) -> Area {
        Area {
            slot: word(b, 0) as u8,
            channels: word(b, 1) as u8,
            key_start: word(b, 2) as u32,
            key_end: word(b, 3) as u32,
            sectors: word(b, 4),
            start: word(b, 5),
            end: word(b, 6),
        }
    }
}

impl List {
    fn zeroed(sizes: [usize; 7]) -> Result<List, Error> {
        let total = sizes.iter().try_fold(0usize, |a, &b| a.checked_add(b)).ok_or(Error::Memory)?;
        Ok(List { head: [0; BLOCK], memory: zeros(total)?, sizes })
    }

    fn tables(&self) -> [&[u8]; 7] {
        let mut rest = &self.memory[..];
        self.sizes.map(|n| {
            let (t, behind) = rest.split_at(n);
            rest = behind;
            t
        })
    }

    fn tables_mut(&mut self) -> (&mut [u8; BLOCK], [&mut [u8]; 7]) {
        let mut rest = &mut self.memory[..];
        let tables = self.sizes.map(|n| {
            let (t, behind) = std::mem::take(&mut rest).split_at_mut(n);
            rest = behind;
            t
        });
        (&mut self.head, tables)
    }

    /// An empty list: a checkpoint every `interval` sectors, at most `budget` bytes of held parts, a hint every `spacing` frames, and at most `hint_limit` hints and
    /// confirmations, which is lowered to 262,144. Usual are 64, 1,048,576, 8 and 2,048.
    ///
    /// ```
    /// # use seek::{Area, Error, List};
    /// let area = Area { slot: 0, channels: 2, key_start: 1000, key_end: 1399, sectors: 1550, start: 1000, end: 1400 };
    /// assert_eq!(List::new(area, 64, 1 << 20, 8, 2048).unwrap().checkpoints(), 0);
    /// assert_eq!(List::new(area, 0, 1 << 20, 8, 2048).unwrap_err(), Error::Numbers);
    /// ```
    pub fn new(a: Area, interval: u32, budget: u64, spacing: u32, hint_limit: u32) -> Result<List, Error> {
        let mut b = [0; BLOCK];
        // Safety: the block is a slice of its own.
        answer(unsafe {
            raw::seek_raw_sizes(
                a.slot, a.channels, a.key_start, a.key_end, a.sectors, a.start, a.end, interval, budget, hint_limit, b.as_mut_ptr(), BLOCK,
            )
        })?;
        let mut list = List::zeroed(sizes_in(&b, 0)?)?;
        let mut head = list.head;
        let [t0, t1, t2, t3, t4, t5, t6] = list.tables();
        // Safety: each pointer is that of a slice of the length behind it, and the head is a copy of its own.
        answer(unsafe {
            raw::seek_raw_new(
                head.as_mut_ptr(), BLOCK, a.slot, a.channels, a.key_start, a.key_end, a.sectors, a.start, a.end, interval, budget, spacing, hint_limit,
                t0.as_ptr(), t0.len(), t1.as_ptr(), t1.len(), t2.as_ptr(), t2.len(), t3.as_ptr(), t3.len(), t4.as_ptr(), t4.len(), t5.as_ptr(),
                t5.len(), t6.as_ptr(), t6.len(),
            )
        })?;
        list.head = head;
        Ok(list)
    }

    /// The list of a file, under an area, with a limit in bytes for frame bytes, hints and confirmations (`u64::MAX`: all of it).
    ///
    /// ```
    /// # use seek::{Role, Area, Error, List};
    /// # fn main() -> Result<(), Error> {
    /// # let area = Area { slot: 0, channels: 2, key_start: 1000, key_end: 1399, sectors: 1550, start: 1000, end: 1400 };
    /// let file = List::new(area, 64, 1 << 20, 8, 2048)?.save(Role::Workshop)?;
    /// assert_eq!(List::load(Role::Workshop, area, &file, u64::MAX)?.area(), area);
    /// assert_eq!(List::load(Role::Workshop, area, &file[..87], u64::MAX).unwrap_err(), Error::FileMagic);
    /// assert_eq!(List::load(Role::Workshop, Area { slot: 1, ..area }, &file, u64::MAX).unwrap_err(), Error::FileArea);
    /// # Ok(())
    /// # }
    /// ```
    pub fn load(role: Role, a: Area, file: &[u8], limit: u64) -> Result<List, Error> {
        let asked = workshop(role)?;
        let mut list = List::zeroed(file_sizes(a, file, limit)?)?;
        let (head, [t0, t1, t2, t3, t4, t5, t6]) = list.tables_mut();
        // Safety: each pointer is that of a slice of the length behind it, and no two overlap.
        answer(unsafe {
            raw::seek_raw_load(
                asked, head.as_mut_ptr(), BLOCK, a.slot, a.channels, a.key_start, a.key_end, a.sectors, a.start, a.end, file.as_ptr(), file.len(), limit,
                t0.as_mut_ptr(), t0.len(), t1.as_mut_ptr(), t1.len(), t2.as_mut_ptr(), t2.len(), t3.as_mut_ptr(), t3.len(), t4.as_mut_ptr(),
                t4.len(), t5.as_mut_ptr(), t5.len(), t6.as_mut_ptr(), t6.len(),
            )
        })?;
        Ok(list)
    }

    /// The list file.
    pub fn save(&self, role: Role) -> Result<Vec<u8>, Error> {
        let asked = workshop(role)?;
        let [t0, t1, t2, t3, t4, t5, t6] = self.tables();
        // Safety: each pointer is that of a slice of the length behind it.
        let length = unsafe {
            raw::seek_raw_saved_length(
                self.head.as_ptr(), BLOCK, t0.as_ptr(), t0.len(), t1.as_ptr(), t1.len(), t2.as_ptr(), t2.len(), t3.as_ptr(), t3.len(), t4.as_ptr(),
                t4.len(), t5.as_ptr(), t5.len(), t6.as_ptr(), t6.len(),
            )
        };
        let mut out = zeros(saved(length)?)?;
        // Safety: the same, and the output is a slice of its own.
        let written = unsafe {
            raw::seek_raw_save(
                asked, self.head.as_ptr(), BLOCK, t0.as_ptr(), t0.len(), t1.as_ptr(), t1.len(), t2.as_ptr(), t2.len(), t3.as_ptr(), t3.len(), t4.as_ptr(),
                t4.len(), t5.as_ptr(), t5.len(), t6.as_ptr(), t6.len(), out.as_mut_ptr(), out.len(),
            )
        };
        out.truncate(saved(written)?);
        Ok(out)
    }

    /// Where a jump to a frame starts.
    pub fn plan(&self, frame: u32) -> Result<Plan<'_>, Error> {
        let mut b = [0; BLOCK];
        let [t0, t1, t2, t3, t4, t5, t6] = self.tables();
        // Safety: each pointer is that of a slice of the length behind it, and the block overlaps nothing.
        answer(unsafe {
            raw::seek_raw_plan(
                self.head.as_ptr(), BLOCK, frame, b.as_mut_ptr(), BLOCK, t0.as_ptr(), t0.len(), t1.as_ptr(), t1.len(), t2.as_ptr(), t2.len(),
                t3.as_ptr(), t3.len(), t4.as_ptr(), t4.len(), t5.as_ptr(), t5.len(), t6.as_ptr(), t6.len(),
            )
        })?;
        let part = (word(&b, 7) != 0).then(|| Part {
            dsd: word(&b, 8) != 0,
            number: word(&b, 9) as u32,
            remaining: word(&b, 10) as u32 as i32,
            bytes: &t2[word(&b, 11) as usize..][..word(&b, 12) as usize],
        });
        Ok(match word(&b, 0) {
            0 => Plan::Start,
            1 => Plan::At(Resume {
                number: word(&b, 1) as u32,
                lsn: word(&b, 2),
                threshold: word(&b, 3) as u32,
                back: word(&b, 4) as u32,
                malformed: word(&b, 5),
                digest: word(&b, 6),
                part,
            }),
            _ => Plan::End { threshold: word(&b, 3) as u32, malformed: word(&b, 5) },
        })
    }

    /// States the disc's fingerprint: it is stored if none is held, and checked.
    pub fn bind_fingerprint(&mut self, value: u64) -> Result<(), Error> {
        let (head, [t0, t1, t2, t3, t4, t5, t6]) = self.tables_mut();
        // Safety: each pointer is that of a slice of the length behind it, and no two overlap.
        answer(unsafe {
            raw::seek_raw_fingerprint(
                head.as_mut_ptr(), BLOCK, value, t0.as_ptr(), t0.len(), t1.as_ptr(), t1.len(), t2.as_ptr(), t2.len(), t3.as_ptr(), t3.len(),
                t4.as_ptr(), t4.len(), t5.as_ptr(), t5.len(), t6.as_ptr(), t6.len(),
            )
        })
    }

    /// Merges another list into this one. A sector of which both have a hint then has the other list's frame number.
    pub fn merge(&mut self, role: Role, other: &List) -> Result<(), Error> {
        let asked = workshop(role)?;
        let [u0, u1, u2, u3, u4, u5, u6] = other.tables();
        let (head, [t0, t1, t2, t3, t4, t5, t6]) = self.tables_mut();
        // Safety: each pointer is that of a slice of the length behind it, and no two overlap.
        answer(unsafe {
            raw::seek_raw_merge(
                asked, head.as_mut_ptr(), BLOCK, other.head.as_ptr(), BLOCK, t0.as_mut_ptr(), t0.len(), t1.as_mut_ptr(), t1.len(), t2.as_mut_ptr(), t2.len(),
                t3.as_mut_ptr(), t3.len(), t4.as_mut_ptr(), t4.len(), t5.as_mut_ptr(), t5.len(), t6.as_mut_ptr(), t6.len(), u0.as_ptr(), u0.len(),
                u1.as_ptr(), u1.len(), u2.as_ptr(), u2.len(), u3.as_ptr(), u3.len(), u4.as_ptr(), u4.len(), u5.as_ptr(), u5.len(), u6.as_ptr(), u6.len(),
            )
        })
    }

    /// Merges 1 to 16 list files of this list's area into it, each loaded with the limit as by [`List::load`], in their order: all of them or none. The first
    /// file that is refused gives the error, else the first two lists that cannot be merged, this list before all files.
    ///
    /// ```
    /// # use seek::{Role, Area, Error, List};
    /// # fn main() -> Result<(), Error> {
    /// # let area = Area { slot: 0, channels: 2, key_start: 1000, key_end: 1399, sectors: 1550, start: 1000, end: 1400 };
    /// let mut own = List::new(area, 64, 1 << 20, 8, 2048)?;
    /// let file = List::new(area, 64, 1 << 20, 8, 2048)?.save(Role::Workshop)?;
    /// let wider = List::new(area, 128, 1 << 20, 8, 2048)?.save(Role::Workshop)?;
    /// own.merge_all(Role::Workshop, &[&file, &file], u64::MAX)?;
    /// assert_eq!(own.merge_all(Role::Workshop, &[&file, &wider], u64::MAX), Err(Error::MergeArea));
    /// assert_eq!(own.merge_all(Role::Workshop, &[], u64::MAX), Err(Error::Set));
    /// # Ok(())
    /// # }
    /// ```
    pub fn merge_all(&mut self, role: Role, files: &[&[u8]], limit: u64) -> Result<(), Error> {
        let asked = workshop(role)?;
        // 17 files are refused as more are
        let files = &files[..files.len().min(17)];
        let (mut lengths, mut buffer, mut sizes) = (Vec::new(), Vec::new(), [0; 7]);
        let total = files.iter().try_fold(0usize, |n, f| n.checked_add(f.len())).ok_or(Error::Memory)?;
        buffer.try_reserve_exact(total).map_err(|_| Error::Memory)?;
        for f in files {
            lengths.extend_from_slice(&(f.len() as u64).to_le_bytes());
            buffer.extend_from_slice(f);
        }
        for f in files {
            // behind a file that the call refuses no tables are needed
            let Ok(s) = file_sizes(self.area(), f, limit) else { break };
            sizes = std::array::from_fn(|i| s[i].max(sizes[i]));
        }
        let mut work = List::zeroed(sizes)?;
        let (_, [u0, u1, u2, u3, u4, u5, u6]) = work.tables_mut();
        let (head, [t0, t1, t2, t3, t4, t5, t6]) = self.tables_mut();
        // Safety: each pointer is that of a slice of the length behind it, and no two overlap.
        answer(unsafe {
            raw::seek_raw_merge_all(
                asked, head.as_mut_ptr(), BLOCK, lengths.as_ptr(), lengths.len(), buffer.as_ptr(), buffer.len(), limit, t0.as_mut_ptr(), t0.len(),
                t1.as_mut_ptr(), t1.len(), t2.as_mut_ptr(), t2.len(), t3.as_mut_ptr(), t3.len(), t4.as_mut_ptr(), t4.len(), t5.as_mut_ptr(), t5.len(),
                t6.as_mut_ptr(), t6.len(), u0.as_mut_ptr(), u0.len(), u1.as_mut_ptr(), u1.len(), u2.as_mut_ptr(), u2.len(), u3.as_mut_ptr(), u3.len(),
                u4.as_mut_ptr(), u4.len(), u5.as_mut_ptr(), u5.len(), u6.as_mut_ptr(), u6.len(),
            )
        })
    }

    /// What merging another list would change in this one; a hint whose number the other list has otherwise is a change.
    pub fn adds(&self, other: &List) -> Result<Brings, Error> {
        let mut b = [0; BLOCK];
        let [u0, u1, u2, u3, u4, u5, u6] = other.tables();
        let [t0, t1, t2, t3, t4, t5, t6] = self.tables();
        // Safety: each pointer is that of a slice of the length behind it, and the block overlaps nothing.
        answer(unsafe {
            raw::seek_raw_adds(
                self.head.as_ptr(), BLOCK, other.head.as_ptr(), BLOCK, b.as_mut_ptr(), BLOCK, t0.as_ptr(), t0.len(), t1.as_ptr(), t1.len(), t2.as_ptr(),
                t2.len(), t3.as_ptr(), t3.len(), t4.as_ptr(), t4.len(), t5.as_ptr(), t5.len(), t6.as_ptr(), t6.len(), u0.as_ptr(), u0.len(), u1.as_ptr(),
                u1.len(), u2.as_ptr(), u2.len(), u3.as_ptr(), u3.len(), u4.as_ptr(), u4.len(), u5.as_ptr(), u5.len(), u6.as_ptr(), u6.len(),
            )
        })?;
        Ok(Brings {
            checkpoints: word(&b, 0) != 0,
            end: word(&b, 1) != 0,
            parts: word(&b, 2) != 0,
            malformed: word(&b, 3) != 0,
            hints: word(&b, 4) != 0,
            confirmations: word(&b, 5) != 0,
            fingerprint: word(&b, 6) != 0,
            image: word(&b, 7) != 0,
        })
    }

    /// What another list holds and this one does not.
    pub fn lacks(&self, other: &List) -> Result<Lacking, Error> {
        let mut b = [0; BLOCK];
        let [u0, u1, u2, u3, u4, u5, u6] = other.tables();
        let [t0, t1, t2, t3, t4, t5, t6] = self.tables();
        // Safety: each pointer is that of a slice of the length behind it, and the block overlaps nothing.
        answer(unsafe {
            raw::seek_raw_lacks(
                self.head.as_ptr(), BLOCK, other.head.as_ptr(), BLOCK, b.as_mut_ptr(), BLOCK, t0.as_ptr(), t0.len(), t1.as_ptr(), t1.len(), t2.as_ptr(),
                t2.len(), t3.as_ptr(), t3.len(), t4.as_ptr(), t4.len(), t5.as_ptr(), t5.len(), t6.as_ptr(), t6.len(), u0.as_ptr(), u0.len(), u1.as_ptr(),
                u1.len(), u2.as_ptr(), u2.len(), u3.as_ptr(), u3.len(), u4.as_ptr(), u4.len(), u5.as_ptr(), u5.len(), u6.as_ptr(), u6.len(),
            )
        })?;
        Ok(Lacking {
            checkpoints: word(&b, 0),
            end_state: word(&b, 1) != 0,
            parts: word(&b, 2),
            malformed: word(&b, 3),
            hints: word(&b, 4),
            confirmations: word(&b, 5),
            fingerprint: word(&b, 6) != 0,
            image: word(&b, 7) != 0,
            budget: word(&b, 8) != 0,
            most: word(&b, 9) != 0,
        })
    }

    /// The list that the same reading would have given at a wider interval, a multiple of this list's.
    ///
    /// ```
    /// # use seek::{Role, Area, Error, List};
    /// # fn main() -> Result<(), Error> {
    /// # let area = Area { slot: 0, channels: 2, key_start: 1000, key_end: 1399, sectors: 1550, start: 1000, end: 1400 };
    /// let fine = List::new(area, 100, 1 << 20, 8, 2048)?;
    /// let mut other = List::new(area, 400, 1 << 20, 8, 2048)?;
    /// assert_eq!(other.merge(Role::Workshop, &fine), Err(Error::MergeArea));
    /// other.merge(Role::Workshop, &fine.coarse(400)?)?;
    /// assert_eq!(fine.coarse(250).unwrap_err(), Error::CoarseInterval);
    /// # Ok(())
    /// # }
    /// ```
    pub fn coarse(&self, interval: u32) -> Result<List, Error> {
        let a = self.area();
        let mut b = [0; BLOCK];
        // Safety: the block is a slice of its own.
        let sized = unsafe {
            raw::seek_raw_sizes(
                a.slot, a.channels, a.key_start, a.key_end, a.sectors, a.start, a.end, interval, word(&self.head, 8), word(&self.head, 10) as u32,
                b.as_mut_ptr(), BLOCK,
            )
        };
        // an interval for which there are no sizes is refused by the call itself
        let mut list = List::zeroed(if sized == 0 { sizes_in(&b, 0)? } else { [0; 7] })?;
        let [t0, t1, t2, t3, t4, t5, t6] = self.tables();
        let (head, [u0, u1, u2, u3, u4, u5, u6]) = list.tables_mut();
        // Safety: each pointer is that of a slice of the length behind it, and no two overlap.
        answer(unsafe {
            raw::seek_raw_coarse(
                self.head.as_ptr(), BLOCK, interval, head.as_mut_ptr(), BLOCK, t0.as_ptr(), t0.len(), t1.as_ptr(), t1.len(), t2.as_ptr(), t2.len(),
                t3.as_ptr(), t3.len(), t4.as_ptr(), t4.len(), t5.as_ptr(), t5.len(), t6.as_ptr(), t6.len(), u0.as_mut_ptr(), u0.len(), u1.as_mut_ptr(),
                u1.len(), u2.as_mut_ptr(), u2.len(), u3.as_mut_ptr(), u3.len(), u4.as_mut_ptr(), u4.len(), u5.as_mut_ptr(), u5.len(), u6.as_mut_ptr(),
                u6.len(),
            )
        })?;
        Ok(list)
    }
}

/// The length saved, at least 88, or a refusal number.
fn saved(n: u64) -> Result<usize, Error> {
    if n < 88 { Err(Error::from_number(n as u32)) } else { usize::try_from(n).map_err(|_| Error::Memory) }
}

/// The version of the library that is linked: 10,000 times its first number, plus 100 times the second, plus the third.
pub fn version() -> u32 {
    // Safety: it takes nothing.
    unsafe { raw::seek_raw_version() }
}
