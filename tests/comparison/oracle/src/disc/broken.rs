//! Disc files that break the contents table's rules, each in one way, and areas that question 1 refuses.

use super::model::{Entry, MAX32, table_bytes, table_of};
use crate::file::AreaNumbers;
use crate::rng::Rng;

/// A disc file in the making: its table as it is to be written, and what lies behind the table.
#[derive(Clone)]
pub struct Draft {
    pub count: u32,
    pub entries: Vec<Entry>,
    pub rest: Vec<u8>,
    /// The file is cut to this length.
    pub cut: usize,
}

impl Draft {
    /// The disc file of lists in the order of their slots.
    pub fn new(lists: &[(u64, Vec<u8>)]) -> Draft {
        let lengths: Vec<(u64, u64)> = lists.iter().map(|l| (l.0, l.1.len() as u64)).collect();
        let rest = lists.iter().flat_map(|l| l.1.iter().copied()).collect();
        Draft { count: lists.len() as u32, entries: table_of(&lengths).unwrap_or_default(), rest, cut: usize::MAX }
    }

    pub fn bytes(&self) -> Vec<u8> {
        let mut b = table_bytes(self.count, &self.entries);
        b.extend_from_slice(&self.rest);
        b.truncate(self.cut);
        b
    }

    pub fn two(&self) -> bool {
        self.entries.len() == 2
    }

    /// Where the bodies begin.
    pub fn start(&self) -> u64 {
        4 + 12 * self.entries.len() as u64
    }

    pub fn len(&self) -> u64 {
        self.start() + self.rest.len() as u64
    }

    pub fn last(&mut self) -> &mut Entry {
        let i = self.entries.len() - 1;
        &mut self.entries[i]
    }

    /// Puts `n` bytes into the file at `at`, and moves the offsets from there on.
    pub fn insert(&mut self, rng: &mut Rng, at: u64, n: u64) {
        let i = (at - self.start()) as usize;
        let more: Vec<u8> = (0..n).map(|_| rng.below(256) as u8).collect();
        self.rest.splice(i..i, more);
        for e in self.entries.iter_mut().filter(|e| e.offset >= at) {
            e.offset += n;
        }
    }
}

pub type Break = (&'static str, fn(&mut Draft, &mut Rng) -> bool);

/// Each way to break the contents table; false where the file is none for it.
pub const BREAKS: [Break; 45] = [
    ("no bytes", |d, _| {
        d.cut = 0;
        true
    }),
    ("fewer than 4 bytes", |d, r| {
        d.cut = r.range(1, 3) as usize;
        true
    }),
    ("shorter than its table", |d, r| {
        d.cut = r.range(4, d.start() - 1) as usize;
        true
    }),
    ("table without its last byte", |d, _| {
        d.cut = d.start() as usize - 1;
        true
    }),
    ("count 0", |d, _| {
        d.count = 0;
        true
    }),
    ("count 0 in a file of four bytes", |d, _| {
        d.count = 0;
        d.cut = 4;
        true
    }),
    ("count 3", |d, _| {
        d.count = 3;
        true
    }),
    ("count 3 with three entries", |d, _| {
        let (end, more) = (d.len(), 12 * (3 - d.entries.len() as u64));
        while d.entries.len() < 3 {
            d.entries.push(Entry { slot: 2, offset: end, length: 0 });
        }
        for e in &mut d.entries {
            e.offset += more;
        }
        d.count = 3;
        true
    }),
    ("count 2^32 - 1", |d, _| {
        d.count = u32::MAX;
        true
    }),
    ("count with a higher byte", |d, r| {
        d.count |= 1 << r.range(8, 31);
        true
    }),
    ("count with its bytes reversed", |d, _| {
        d.count = d.count.swap_bytes();
        true
    }),
    ("count 1 for two lists", |d, _| {
        d.count = 1;
        d.two()
    }),
    ("count 2 for one list", |d, _| {
        d.count = 2;
        !d.two()
    }),
    ("slot 2, one list", |d, _| {
        d.entries[0].slot = 2;
        !d.two()
    }),
    ("slot 2, second list", |d, _| {
        d.last().slot = 2;
        d.two()
    }),
    ("slot 2^32 - 1", |d, _| {
        d.last().slot = MAX32;
        true
    }),
    ("slot with a higher byte", |d, r| {
        d.last().slot |= 1 << r.range(8, 31);
        true
    }),
    ("slots falling", |d, _| {
        (d.entries[0].slot, d.last().slot) = (1, 0);
        d.two()
    }),
    ("two lists of slot 0", |d, _| {
        d.last().slot = 0;
        d.two()
    }),
    ("two lists of slot 1", |d, _| {
        d.entries[0].slot = 1;
        d.two()
    }),
    ("first offset 0", |d, _| {
        d.entries[0].offset = 0;
        true
    }),
    ("first offset of the other count", |d, _| {
        d.entries[0].offset = 44 - d.start();
        true
    }),
    ("first offset one more", |d, _| {
        d.entries[0].offset += 1;
        true
    }),
    ("first offset one less", |d, _| {
        d.entries[0].offset -= 1;
        true
    }),
    ("first offset with a higher byte", |d, r| {
        d.entries[0].offset |= 1 << r.range(24, 31);
        true
    }),
    ("second offset one more", |d, _| {
        d.last().offset += 1;
        d.two()
    }),
    ("second offset one less", |d, _| {
        d.last().offset -= 1;
        d.two()
    }),
    ("second offset that of the first", |d, _| {
        d.last().offset = d.entries[0].offset;
        d.two()
    }),
    ("offsets from the table's end", |d, _| {
        let start = d.start();
        for e in &mut d.entries {
            e.offset -= start;
        }
        true
    }),
    ("first length one more", |d, _| {
        d.entries[0].length += 1;
        true
    }),
    ("first length one less", |d, _| {
        d.entries[0].length -= 1;
        true
    }),
    ("second length one more", |d, _| {
        d.last().length += 1;
        d.two()
    }),
    ("second length one less", |d, _| {
        d.last().length -= 1;
        d.two()
    }),
    ("last length 2^32 - 1", |d, _| {
        d.last().length = MAX32;
        true
    }),
    ("a gap that the second length makes up for", |d, _| {
        d.last().offset += 1;
        d.last().length -= 1;
        d.two()
    }),
    ("an overlap that the second length makes up for", |d, _| {
        d.last().offset -= 1;
        d.last().length += 1;
        d.two()
    }),
    ("bytes between table and body", |d, r| {
        let (at, n) = (d.start(), r.range(1, 9));
        d.insert(r, at, n);
        true
    }),
    ("bytes between the bodies", |d, r| {
        let (at, n) = (d.last().offset, r.range(1, 9));
        d.insert(r, at, n);
        d.two()
    }),
    ("one byte behind", |d, r| {
        d.rest.push(r.below(256) as u8);
        true
    }),
    ("bytes behind", |d, r| {
        for _ in 0..r.range(2, 40) {
            d.rest.push(r.below(256) as u8);
        }
        true
    }),
    ("last byte missing", |d, _| d.rest.pop().is_some()),
    ("cut in a body", |d, r| {
        d.cut = r.range(d.start(), d.len() - 1) as usize;
        true
    }),
    ("bodies in the other order", |d, _| {
        let (a, b) = (d.entries[0], *d.last());
        d.rest.rotate_left(a.length as usize);
        d.last().offset = d.start();
        d.entries[0].offset = d.start() + b.length;
        d.two()
    }),
    ("second length wraps 32 bits", |d, r| {
        // Its offset lies behind the file, and offset and length together are the file's length and 2^32.
        let offset = d.len() + r.range(1, 1000);
        d.entries[0].length = offset - d.start();
        let length = (1 << 32) + d.len() - offset;
        d.last().offset = offset;
        d.last().length = length;
        d.two()
    }),
    ("first length wraps 32 bits", |d, r| {
        // The second offset lies in the table, 2^32 below the first body's end.
        let offset = r.below(d.start());
        d.entries[0].length = (1 << 32) + offset - d.start();
        let length = d.len() - offset;
        d.last().offset = offset;
        d.last().length = length;
        d.two()
    }),
];

/// Changes that keep the table's rules but give a body other bytes.
pub const MOVES: [Break; 5] = [
    ("boundary one later", |d, _| {
        d.entries[0].length += 1;
        d.last().offset += 1;
        d.last().length -= 1;
        d.two()
    }),
    ("boundary one earlier", |d, _| {
        d.entries[0].length -= 1;
        d.last().offset -= 1;
        d.last().length += 1;
        d.two()
    }),
    ("first body empty", |d, _| {
        let (start, n) = (d.start(), d.rest.len() as u64);
        d.entries[0].length = 0;
        d.last().offset = start;
        d.last().length = n;
        d.two()
    }),
    ("second body empty", |d, _| {
        let len = d.len();
        d.entries[0].length = d.rest.len() as u64;
        d.last().offset = len;
        d.last().length = 0;
        d.two()
    }),
    ("one list, of no bytes", |d, _| {
        d.rest.clear();
        d.entries[0].length = 0;
        !d.two()
    }),
];

pub type Change = (&'static str, fn(&mut [AreaNumbers; 2], &mut Rng));

/// Areas that question 1 refuses.
pub const AREAS: [Change; 9] = [
    ("the first area of slot 1", |a, _| a[0].slot = 1),
    ("the second area of slot 0", |a, _| a[1].slot = 0),
    ("the areas exchanged", |a, _| a.swap(0, 1)),
    ("the first area of slot 2 or more", |a, r| a[0].slot = r.range(2, 255) as u8),
    ("the second area of slot 2 or more", |a, r| a[1].slot = r.range(2, 255) as u8),
    ("the first area starts behind its end", |a, r| a[0].start = a[0].end + r.range(1, 9)),
    ("the second area starts behind its end", |a, r| a[1].start = a[1].end + r.range(1, 9)),
    ("the first area ends above 2^32 - 1", |a, r| a[0].end = MAX32 + r.range(1, 9)),
    ("the second area ends above 2^32 - 1", |a, r| a[1].end = MAX32 + r.range(1, 9)),
];
