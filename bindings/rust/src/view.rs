//! Roles, and views of a list: what a screen shows of it, as bytes (docs/VIEW.md), and their fields read from these bytes alone.

use crate::raw::{self, BLOCK};
use crate::{Area, Confirmation, Error, List, saved, zeros};

/// Who asks. Saving, loading and merging are the workshop's: a listener is refused with [`Error::Role`] before anything else is asked.
#[derive(Clone, Copy, Debug, PartialEq, Eq)]
pub enum Role {
    /// Sees the area, the interval, whether the list is complete, and each checkpoint's sector and threshold.
    Listener = 1,
    /// Sees more, and may save, load and merge.
    Workshop = 2,
}

/// The number of the role, where it may save, load and merge; the library is asked.
pub(crate) fn workshop(role: Role) -> Result<u32, Error> {
    let none: [&[u8]; 8] = [&[]; 8];
    let [b, t0, t1, t2, t3, t4, t5, t6] = none;
    // Safety: each pointer is that of an empty slice.
    let answer = unsafe {
        raw::seek_raw_save(
            role as u32, b.as_ptr(), 0, t0.as_ptr(), 0, t1.as_ptr(), 0, t2.as_ptr(), 0, t3.as_ptr(), 0, t4.as_ptr(), 0, t5.as_ptr(), 0, t6.as_ptr(), 0,
            [].as_mut_ptr(), 0,
        )
    };
    if answer == u64::from(Error::Role.number()) { Err(Error::Role) } else { Ok(role as u32) }
}

/// A checkpoint as both views have it.
#[derive(Clone, Copy, Debug, PartialEq, Eq)]
pub struct SeenCheckpoint {
    /// Its sector.
    pub lsn: u32,
    /// Its threshold.
    pub threshold: u32,
}

/// What a listener sees of a list.
#[derive(Clone, Debug, PartialEq, Eq)]
pub struct ListenerView {
    /// The area.
    pub area: Area,
    /// The sectors from one checkpoint to the next.
    pub interval: u64,
    /// Does the list run to the area's end?
    pub complete: bool,
    /// The checkpoints.
    pub checkpoints: Vec<SeenCheckpoint>,
}

/// A hint of a workshop's view.
#[derive(Clone, Copy, Debug, PartialEq, Eq)]
pub struct SeenHint {
    /// Its sector.
    pub lsn: u32,
    /// The number of the first frame that starts there.
    pub number: u32,
    /// Is it kept?
    pub kept: bool,
}

/// What the workshop sees of a list.
#[derive(Clone, Debug, PartialEq, Eq)]
pub struct WorkshopView {
    /// What a listener sees too.
    pub seen: ListenerView,
    /// For each checkpoint how far back its frame starts, and its digest.
    pub backs: Vec<(u32, u64)>,
    /// The malformed sectors.
    pub malformed: Vec<u32>,
    /// For each held part the number of its checkpoint, and its length.
    pub held: Vec<(u32, u32)>,
    /// The hints.
    pub hints: Vec<SeenHint>,
    /// The fingerprint, where there is one.
    pub fingerprint: Option<u64>,
    /// The confirmations.
    pub confirmations: Vec<Confirmation>,
}

fn four(b: &[u8]) -> u32 {
    u32::from_le_bytes([b[0], b[1], b[2], b[3]])
}

fn eight(b: &[u8]) -> u64 {
    u64::from(four(b)) | u64::from(four(&b[4..])) << 32
}

fn word(b: &[u8], i: usize) -> u64 {
    eight(&b[8 * i..])
}

/// The records of so many bytes at the start of `rest`, n of them, and what is behind; none where there are fewer.
fn records(rest: &[u8], n: u64, size: usize) -> Option<(std::slice::ChunksExact<'_, u8>, &[u8])> {
    let length = usize::try_from(n).ok()?.checked_mul(size)?;
    let (records, behind) = rest.split_at_checked(length)?;
    Some((records.chunks_exact(size), behind))
}

/// The fields of both views, and the bytes behind them.
fn seen(bytes: &[u8], role: Role) -> Option<(ListenerView, &[u8])> {
    if bytes.len() < 88 || word(bytes, 0) != role as u64 {
        return None;
    }
    let area = Area {
        slot: word(bytes, 1) as u8,
        channels: word(bytes, 2) as u8,
        key_start: word(bytes, 3) as u32,
        key_end: word(bytes, 4) as u32,
        sectors: word(bytes, 5),
        start: word(bytes, 6),
        end: word(bytes, 7),
    };
    let (checkpoints, behind) = records(&bytes[88..], word(bytes, 10), 8)?;
    let checkpoints = checkpoints.map(|b| SeenCheckpoint { lsn: four(b), threshold: four(&b[4..]) }).collect();
    Some((ListenerView { area, interval: word(bytes, 8), complete: word(bytes, 9) == 1, checkpoints }, behind))
}

impl ListenerView {
    /// The fields of a listener's view; none where the bytes are no such view.
    pub fn from_bytes(bytes: &[u8]) -> Option<ListenerView> {
        let (view, behind) = seen(bytes, Role::Listener)?;
        behind.is_empty().then_some(view)
    }
}

impl WorkshopView {
    /// The fields of a workshop's view; none where the bytes are no such view.
    pub fn from_bytes(bytes: &[u8]) -> Option<WorkshopView> {
        let (seen, rest) = seen(bytes, Role::Workshop)?;
        let (totals, rest) = rest.split_at_checked(48)?;
        let (backs, rest) = records(rest, seen.checkpoints.len() as u64, 12)?;
        let (malformed, rest) = records(rest, word(totals, 0), 4)?;
        let (held, rest) = records(rest, word(totals, 1), 8)?;
        let (hints, rest) = records(rest, word(totals, 2), 8)?;
        let (marks, rest) = records(rest, word(totals, 2), 1)?;
        let (confirmed, rest) = records(rest, word(totals, 5), 16)?;
        rest.is_empty().then(|| WorkshopView {
            seen,
            backs: backs.map(|b| (four(b), eight(&b[4..]))).collect(),
            malformed: malformed.map(four).collect(),
            held: held.map(|b| (four(b), four(&b[4..]))).collect(),
            hints: hints.zip(marks).map(|(b, m)| SeenHint { lsn: four(b), number: four(&b[4..]), kept: m[0] == 1 }).collect(),
            fingerprint: (word(totals, 3) == 1).then(|| word(totals, 4)),
            confirmations: confirmed.map(|b| Confirmation { lsn: four(b), threshold: four(&b[4..]), digest: eight(&b[8..]) }).collect(),
        })
    }
}

impl List {
    /// The view that the role has of the list, as bytes.
    ///
    /// ```
    /// # use seek::{Area, Error, List, ListenerView, Role, WorkshopView};
    /// # fn main() -> Result<(), Error> {
    /// # let area = Area { slot: 0, channels: 2, key_start: 1000, key_end: 1399, sectors: 1550, start: 1000, end: 1400 };
    /// let list = List::new(area, 64, 1 << 20, 8, 2048)?;
    /// let view = list.view(Role::Listener)?;
    /// assert_eq!(view.len(), 88);
    /// assert_eq!(ListenerView::from_bytes(&view).unwrap().area, area);
    /// assert!(WorkshopView::from_bytes(&view).is_none());
    /// assert_eq!(list.save(Role::Listener), Err(Error::Role));
    /// # Ok(())
    /// # }
    /// ```
    pub fn view(&self, role: Role) -> Result<Vec<u8>, Error> {
        let [t0, t1, t2, t3, t4, t5, t6] = self.tables();
        // Safety: each pointer is that of a slice of the length behind it.
        let length = unsafe {
            raw::seek_raw_view_length(
                role as u32, self.head.as_ptr(), BLOCK, t0.as_ptr(), t0.len(), t1.as_ptr(), t1.len(), t2.as_ptr(), t2.len(), t3.as_ptr(), t3.len(),
                t4.as_ptr(), t4.len(), t5.as_ptr(), t5.len(), t6.as_ptr(), t6.len(),
            )
        };
        let mut out = zeros(saved(length)?)?;
        // Safety: the same, and the output is a slice of its own.
        let written = unsafe {
            raw::seek_raw_view(
                role as u32, self.head.as_ptr(), BLOCK, t0.as_ptr(), t0.len(), t1.as_ptr(), t1.len(), t2.as_ptr(), t2.len(), t3.as_ptr(), t3.len(),
                t4.as_ptr(), t4.len(), t5.as_ptr(), t5.len(), t6.as_ptr(), t6.len(), out.as_mut_ptr(), out.len(),
            )
        };
        out.truncate(saved(written)?);
        Ok(out)
    }
}
