//! Lent tables, and the calls of the player's library on them.

use crate::lists::{Area, List};
use crate::raw::{self, BLOCK};

/// A call over seven tables: what stands before them, the tables, what stands behind.
macro_rules! seven {
    ($f:ident ($($before:expr),*) $tables:expr, ($($after:expr),*)) => {{
        let [t0, t1, t2, t3, t4, t5, t6] = &mut $tables;
        // Safety: each pointer is that of a slice of the length behind it, and no two overlap.
        unsafe {
            raw::$f(
                $($before,)* t0.as_mut_ptr(), t0.len(), t1.as_mut_ptr(), t1.len(), t2.as_mut_ptr(), t2.len(), t3.as_mut_ptr(), t3.len(),
                t4.as_mut_ptr(), t4.len(), t5.as_mut_ptr(), t5.len(), t6.as_mut_ptr(), t6.len() $(, $after)*
            )
        }
    }};
}

/// The same over seven tables and seven more, whose pointers `$pointer` tells.
macro_rules! fourteen {
    ($f:ident ($($before:expr),*) $tables:expr, $more:expr, $pointer:ident, ($($after:expr),*)) => {{
        let [u0, u1, u2, u3, u4, u5, u6] = $more;
        seven!($f($($before),*) $tables, (
            u0.$pointer(), u0.len(), u1.$pointer(), u1.len(), u2.$pointer(), u2.len(), u3.$pointer(), u3.len(), u4.$pointer(), u4.len(),
            u5.$pointer(), u5.len(), u6.$pointer(), u6.len() $(, $after)*))
    }};
}

/// A word of a block.
pub fn word(block: &[u8; BLOCK], i: usize) -> u64 {
    u64::from_le_bytes(std::array::from_fn(|k| block[8 * i + k]))
}

/// A list: its head and its seven tables, as long as question 3 asks.
pub struct Tables {
    pub head: [u8; BLOCK],
    pub tables: [Vec<u8>; 7],
}

/// How many bytes each table of a list needs.
fn sizes(list: &List) -> [usize; 7] {
    let (n, most) = (list.boundaries as usize, list.most as usize);
    [24 * n, 8 * n, list.budget as usize, 24 * n, 4 * 4096, 8 * (most + 262_144), 16 * (most + 1)]
}

impl Tables {
    pub fn new(list: &List) -> Tables {
        Tables { head: [0; BLOCK], tables: sizes(list).map(|s| vec![0; s]) }
    }

    /// No tables, for a list that is not there.
    pub fn absent() -> Tables {
        Tables { head: [0; BLOCK], tables: Default::default() }
    }

    /// A list's file, loaded.
    pub fn loaded(list: &List) -> Tables {
        let mut t = Tables::new(list);
        assert_eq!(t.load(&list.area(), &list.file()), 0, "a file is refused");
        t
    }

    /// How many bytes of each table hold records.
    pub fn used(&self) -> [usize; 7] {
        let count = |i: usize| word(&self.head, i) as usize;
        let frames = &self.tables[1][..8 * count(12)];
        let length = |f: &[u8]| u32::from_le_bytes([f[4], f[5], f[6], f[7]]) as usize;
        let store = frames.chunks_exact(8).map(length).sum();
        [24 * count(11), 8 * count(12), store, 24 * count(13), 4 * count(14), 8 * count(15), 16 * count(16)]
    }

    /// The bytes that question 4 reads.
    pub fn read(&self) -> usize {
        let used = self.used();
        used.iter().sum::<usize>() - used[2]
    }

    /// Makes this list the one of `from`, whose tables are as long.
    pub fn restore(&mut self, from: &Tables) {
        self.head = from.head;
        for ((to, t), n) in self.tables.iter_mut().zip(&from.tables).zip(from.used()) {
            to[..n].copy_from_slice(&t[..n]);
        }
    }

    pub fn copy(&self) -> Tables {
        Tables { head: self.head, tables: self.tables.clone() }
    }

    pub fn create(&mut self, a: &Area, interval: u32, budget: u64, spacing: u32, most: u32) -> u32 {
        let Area { slot, channels, key_start, key_end, sectors, start, end } = *a;
        seven!(seek_raw_new(self.head.as_mut_ptr(), BLOCK, slot, channels, key_start, key_end, sectors, start, end, interval, budget, spacing, most)
            self.tables, ())
    }

    pub fn load(&mut self, a: &Area, file: &[u8]) -> u32 {
        let Area { slot, channels, key_start, key_end, sectors, start, end } = *a;
        seven!(seek_raw_load(2, self.head.as_mut_ptr(), BLOCK, slot, channels, key_start, key_end, sectors, start, end, file.as_ptr(), file.len(), u64::MAX)
            self.tables, ())
    }

    pub fn saved_length(&mut self) -> u64 {
        seven!(seek_raw_saved_length(self.head.as_ptr(), BLOCK) self.tables, ())
    }

    pub fn save(&mut self, out: &mut [u8]) -> u64 {
        seven!(seek_raw_save(2, self.head.as_ptr(), BLOCK) self.tables, (out.as_mut_ptr(), out.len()))
    }

    /// The saved file.
    pub fn file(&mut self) -> Vec<u8> {
        let mut out = vec![0; self.saved_length() as usize];
        assert_eq!(self.save(&mut out), out.len() as u64, "a list is not saved");
        out
    }

    pub fn plan(&mut self, frame: u32, answer: &mut [u8; BLOCK]) -> u32 {
        seven!(seek_raw_plan(self.head.as_ptr(), BLOCK, frame, answer.as_mut_ptr(), BLOCK) self.tables, ())
    }

    /// The questions 1 to 4, as `plan` asks them.
    pub fn four(&mut self) {
        assert_eq!(self.plan(0, &mut [0; BLOCK]), 0, "a list is refused");
    }

    /// Where a jump to a frame starts: an LSN.
    pub fn jump(&mut self, frame: u32) -> u64 {
        let mut answer = [0; BLOCK];
        assert_eq!(self.plan(frame, &mut answer), 0, "a list is refused");
        match word(&answer, 0) {
            0 => word(&self.head, 5),
            1 => word(&answer, 2),
            _ => word(&self.head, 6),
        }
    }

    pub fn fingerprint(&mut self, value: u64) -> u32 {
        seven!(seek_raw_fingerprint(self.head.as_mut_ptr(), BLOCK, value) self.tables, ())
    }

    pub fn merge(&mut self, other: &Tables) -> u32 {
        fourteen!(seek_raw_merge(2, self.head.as_mut_ptr(), BLOCK, other.head.as_ptr(), BLOCK) self.tables, &other.tables, as_ptr, ())
    }

    pub fn adds(&mut self, other: &Tables, answer: &mut [u8; BLOCK]) -> u32 {
        fourteen!(seek_raw_adds(self.head.as_ptr(), BLOCK, other.head.as_ptr(), BLOCK, answer.as_mut_ptr(), BLOCK) self.tables, &other.tables, as_ptr, ())
    }

    pub fn lacks(&mut self, other: &Tables, answer: &mut [u8; BLOCK]) -> u32 {
        fourteen!(seek_raw_lacks(self.head.as_ptr(), BLOCK, other.head.as_ptr(), BLOCK, answer.as_mut_ptr(), BLOCK) self.tables, &other.tables, as_ptr, ())
    }

    /// This list at a wider interval, into the other tables.
    pub fn coarse(&mut self, interval: u32, other: &mut Tables) -> u32 {
        fourteen!(seek_raw_coarse(self.head.as_ptr(), BLOCK, interval, other.head.as_mut_ptr(), BLOCK) self.tables, &mut other.tables, as_mut_ptr, ())
    }

    /// The files, end to end in one buffer, through the working tables.
    pub fn merge_all(&mut self, lengths: &[u8], files: &[u8], work: &mut Tables) -> u32 {
        fourteen!(seek_raw_merge_all(2, self.head.as_mut_ptr(), BLOCK, lengths.as_ptr(), lengths.len(), files.as_ptr(), files.len(), u64::MAX) self.tables,
            &mut work.tables, as_mut_ptr, ())
    }

    pub fn view_length(&mut self, role: u32) -> u64 {
        seven!(seek_raw_view_length(role, self.head.as_ptr(), BLOCK) self.tables, ())
    }

    pub fn view(&mut self, role: u32, out: &mut [u8]) -> u64 {
        seven!(seek_raw_view(role, self.head.as_ptr(), BLOCK) self.tables, (out.as_mut_ptr(), out.len()))
    }

    /// Hints of 8 bytes each.
    pub fn add_hints(&mut self, list: &[u8]) -> u32 {
        seven!(seek_raw_add_hints(self.head.as_mut_ptr(), BLOCK, list.as_ptr(), list.len()) self.tables, ())
    }

    pub fn keep_hint(&mut self, lsn: u64) -> u32 {
        seven!(seek_raw_keep_hint(self.head.as_ptr(), BLOCK, lsn) self.tables, ())
    }

    pub fn keep_confirmation(&mut self, (lsn, threshold, digest): (u32, u32, u64), answer: &mut [u8; BLOCK]) -> u32 {
        seven!(seek_raw_keep_confirmation(self.head.as_mut_ptr(), BLOCK, u64::from(lsn), threshold, digest, answer.as_mut_ptr(), BLOCK) self.tables, ())
    }

    pub fn hint(&mut self, first: u32, end: u32, playtime: u32, answer: &mut [u8; BLOCK]) -> u32 {
        seven!(seek_raw_hint(self.head.as_ptr(), BLOCK, first, end, playtime, answer.as_mut_ptr(), BLOCK) self.tables, ())
    }

    pub fn recorder(&mut self, from: u64, block: &mut [u8; BLOCK]) -> u32 {
        seven!(seek_raw_recorder(self.head.as_ptr(), BLOCK, from, block.as_mut_ptr(), BLOCK) self.tables, ())
    }

    pub fn hint_recorder(&mut self, block: &mut [u8; BLOCK]) -> u32 {
        seven!(seek_raw_hint_recorder(self.head.as_ptr(), BLOCK, block.as_mut_ptr(), BLOCK) self.tables, ())
    }

    pub fn disc_saved_length(&mut self) -> u64 {
        seven!(seek_raw_disc_saved_length(self.head.as_ptr(), BLOCK) self.tables, ())
    }

    pub fn disc_saved_length_both(&mut self, other: &Tables) -> u64 {
        fourteen!(seek_raw_disc_saved_length_both(self.head.as_ptr(), BLOCK, other.head.as_ptr(), BLOCK) self.tables, &other.tables, as_ptr, ())
    }

    pub fn disc_save(&mut self, out: &mut [u8]) -> u64 {
        seven!(seek_raw_disc_save(2, self.head.as_ptr(), BLOCK) self.tables, (out.as_mut_ptr(), out.len()))
    }

    pub fn disc_save_both(&mut self, other: &Tables, out: &mut [u8]) -> u64 {
        fourteen!(seek_raw_disc_save_both(2, self.head.as_ptr(), BLOCK, other.head.as_ptr(), BLOCK) self.tables, &other.tables, as_ptr,
            (out.as_mut_ptr(), out.len()))
    }

    /// A disc file's lists of slots 0 and 1, into these tables and the others.
    pub fn disc_load(&mut self, other: &mut Tables, [a, b]: &[Area; 2], file: &[u8], answer: &mut [u8; BLOCK]) -> u32 {
        fourteen!(seek_raw_disc_load(
            2, self.head.as_mut_ptr(), BLOCK, other.head.as_mut_ptr(), BLOCK, a.slot, a.channels, a.key_start, a.key_end, a.sectors, a.start, a.end, b.slot,
            b.channels, b.key_start, b.key_end, b.sectors, b.start, b.end, file.as_ptr(), file.len(), u64::MAX, answer.as_mut_ptr(), BLOCK)
            self.tables, &mut other.tables, as_mut_ptr, ())
    }

    pub fn absorb(&mut self, r: &mut Recorder, image: u64) -> u32 {
        let [u0, u1, u2, u3] = &r.tables;
        seven!(seek_raw_absorb(self.head.as_mut_ptr(), BLOCK, r.block.as_mut_ptr(), BLOCK, 1, image, [].as_ptr(), 0) self.tables, (
            u0.as_ptr(), u0.len(), u1.as_ptr(), u1.len(), u2.as_ptr(), u2.len(), u3.as_ptr(), u3.len()))
    }
}

/// A recorder: its block and its four tables.
pub struct Recorder {
    pub block: [u8; BLOCK],
    pub tables: [Vec<u8>; 4],
}

impl Recorder {
    pub fn new(list: &List) -> Recorder {
        let [a, b, c, d, ..] = sizes(list);
        Recorder { block: [0; BLOCK], tables: [a, b, c, d].map(|s| vec![0; s]) }
    }

    /// A checkpoint at `lsn`, with the frame under assembly: the sector that it starts in, and its bytes.
    pub fn record(&mut self, lsn: u64, threshold: u32, frame: Option<(u64, &[u8])>, sector: &[u8]) -> u32 {
        let (mark, (start, bytes)) = (u8::from(frame.is_some()), frame.unwrap_or((0, &[])));
        let [t0, t1, t2, t3] = &mut self.tables;
        // Safety: as above.
        unsafe {
            raw::seek_raw_record(
                self.block.as_mut_ptr(), BLOCK, lsn, threshold, 0, mark, start, threshold, 0, 3, bytes.as_ptr(), bytes.len(), sector.as_ptr(),
                sector.len(), t0.as_mut_ptr(), t0.len(), t1.as_mut_ptr(), t1.len(), t2.as_mut_ptr(), t2.len(), t3.as_mut_ptr(), t3.len(),
            )
        }
    }

    /// The questions 1 to 4: a record that is not due, refused with 5.
    pub fn four(&mut self) {
        assert_eq!(self.record(0, 0, None, &[]), 5, "a record that is not due");
    }

    pub fn finish(&mut self, threshold: u32, malformed: u64) -> u32 {
        let [t0, t1, t2, t3] = &mut self.tables;
        // Safety: as above.
        unsafe {
            raw::seek_raw_finish(
                self.block.as_mut_ptr(), BLOCK, threshold, malformed, t0.as_ptr(), t0.len(), t1.as_ptr(), t1.len(), t2.as_ptr(), t2.len(), t3.as_ptr(),
                t3.len(),
            )
        }
    }

    pub fn copy(&self) -> Recorder {
        Recorder { block: self.block, tables: self.tables.clone() }
    }
}

/// A hint recorder: its block and its list.
pub struct Hints {
    pub block: [u8; BLOCK],
    pub list: Vec<u8>,
}

impl Hints {
    pub fn new() -> Hints {
        Hints { block: [0; BLOCK], list: vec![0; 8 * 65_536] }
    }

    pub fn see(&mut self, lsn: u64, sector: &[u8]) -> u32 {
        // Safety: as above.
        unsafe { raw::seek_raw_see(self.block.as_mut_ptr(), BLOCK, lsn, sector.as_ptr(), sector.len(), self.list.as_mut_ptr(), self.list.len()) }
    }

    pub fn flush(&mut self) -> u32 {
        // Safety: as above.
        unsafe { raw::seek_raw_flush(self.block.as_mut_ptr(), BLOCK, self.list.as_mut_ptr(), self.list.len()) }
    }

    pub fn take(&mut self, answer: &mut [u8; BLOCK]) -> u32 {
        // Safety: as above.
        unsafe { raw::seek_raw_take(self.block.as_mut_ptr(), BLOCK, answer.as_mut_ptr(), BLOCK, self.list.as_ptr(), self.list.len()) }
    }
}

/// The sum of bytes.
pub fn sum(bytes: &[u8]) -> u64 {
    // Safety: as above.
    unsafe { raw::seek_raw_sum(bytes.as_ptr(), bytes.len()) }
}

/// The 32-bit sum of bytes.
pub fn sum32(bytes: &[u8]) -> u32 {
    // Safety: as above.
    unsafe { raw::seek_raw_sum32(bytes.as_ptr(), bytes.len()) }
}

/// A 32-bit sum folded to k bits.
pub fn fold32(sum: u32, k: u32) -> Option<u32> {
    let mut answer = [0; BLOCK];
    // Safety: as above.
    let number = unsafe { raw::seek_raw_fold32(sum, k, answer.as_mut_ptr(), BLOCK) };
    (number == 0).then(|| word(&answer, 0) as u32)
}

/// A 64-bit sum folded to k bits.
pub fn fold64(sum: u64, k: u32) -> Option<u64> {
    let mut answer = [0; BLOCK];
    // Safety: as above.
    let number = unsafe { raw::seek_raw_fold64(sum, k, answer.as_mut_ptr(), BLOCK) };
    (number == 0).then(|| word(&answer, 0))
}

/// The frame number of a sector's first record.
pub fn first_record(sector: &[u8]) -> Option<u32> {
    let mut answer = [0; BLOCK];
    // Safety: as above.
    unsafe { raw::seek_raw_first_record(sector.as_ptr(), sector.len(), answer.as_mut_ptr(), BLOCK) };
    (word(&answer, 0) != 0).then(|| word(&answer, 1) as u32)
}

/// The LSN of a list's boundary by its number.
pub fn boundary(head: &[u8; BLOCK], number: u32, answer: &mut [u8; BLOCK]) -> Option<u64> {
    // Safety: as above.
    let refused = unsafe { raw::seek_raw_boundary(head.as_ptr(), BLOCK, number, answer.as_mut_ptr(), BLOCK) };
    (refused == 0 && word(answer, 0) != 0).then(|| word(answer, 1))
}

/// How far a list reaches.
pub fn frontier(head: &[u8; BLOCK], answer: &mut [u8; BLOCK]) -> Option<u64> {
    // Safety: as above.
    let refused = unsafe { raw::seek_raw_frontier(head.as_ptr(), BLOCK, answer.as_mut_ptr(), BLOCK) };
    (refused == 0).then(|| word(answer, 1))
}

/// The LSN that a recorder wants next.
pub fn due(block: &[u8; BLOCK], answer: &mut [u8; BLOCK]) -> Option<u64> {
    // Safety: as above.
    let refused = unsafe { raw::seek_raw_due(block.as_ptr(), BLOCK, answer.as_mut_ptr(), BLOCK) };
    (refused == 0 && word(answer, 0) != 0).then(|| word(answer, 1))
}

/// The library's version.
pub fn version() -> u32 {
    // Safety: it takes nothing.
    unsafe { raw::seek_raw_version() }
}

/// The lengths of the tables of an area, as the library says them.
pub fn area_sizes(a: &Area, interval: u32, budget: u64, most: u32, answer: &mut [u8; BLOCK]) -> u32 {
    let Area { slot, channels, key_start, key_end, sectors, start, end } = *a;
    // Safety: as above.
    unsafe { raw::seek_raw_sizes(slot, channels, key_start, key_end, sectors, start, end, interval, budget, most, answer.as_mut_ptr(), BLOCK) }
}

/// The lengths of the tables of a file.
pub fn file_sizes(a: &Area, file: &[u8], answer: &mut [u8; BLOCK]) -> u32 {
    let Area { slot, channels, key_start, key_end, sectors, start, end } = *a;
    // Safety: as above.
    unsafe {
        raw::seek_raw_file_sizes(slot, channels, key_start, key_end, sectors, start, end, file.as_ptr(), file.len(), u64::MAX, answer.as_mut_ptr(), BLOCK)
    }
}

/// The area that a file says it is of.
pub fn file_area(file: &[u8], answer: &mut [u8; BLOCK]) -> u32 {
    // Safety: as above.
    unsafe { raw::seek_raw_file_area(file.as_ptr(), file.len(), answer.as_mut_ptr(), BLOCK) }
}

/// Where the lists of a disc file lie.
pub fn disc_contents(file: &[u8], answer: &mut [u8; BLOCK]) -> u32 {
    // Safety: as above.
    unsafe { raw::seek_raw_disc_contents(file.as_ptr(), file.len(), answer.as_mut_ptr(), BLOCK) }
}

/// The lengths of the tables of a disc file's lists.
pub fn disc_sizes([a, b]: &[Area; 2], file: &[u8], answer: &mut [u8; BLOCK]) -> u32 {
    // Safety: as above.
    unsafe {
        raw::seek_raw_disc_sizes(
            a.slot, a.channels, a.key_start, a.key_end, a.sectors, a.start, a.end, b.slot, b.channels, b.key_start, b.key_end, b.sectors, b.start, b.end,
            file.as_ptr(), file.len(), u64::MAX, answer.as_mut_ptr(), BLOCK,
        )
    }
}
