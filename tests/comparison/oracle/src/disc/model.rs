//! The calls for disc files in the words of change request 14. The original has none of them: it judges the bodies and gives the bytes of the lists, but for version 4.

use crate::error::Slot;
use crate::file::AreaNumbers;
use crate::seek::{AreaIndex, access};
use crate::text::{put, put_hex, sum_of};
use crate::toc::Area;

pub const MAX32: u64 = u32::MAX as u64;
/// The room of each table of the program, in bytes: checkpoints, frames, frame bytes, parts, malformed LSNs, hints, confirmations.
pub const ROOM: [u64; 7] = [24 * 1024, 8 * 1024, 131_072, 24 * 1024, 4 * 4096, 8 * 524_288, 16 * 262_145];
/// The longest output of the program.
pub const OUTPUT: u64 = 1 << 20;

/// One list of a contents table.
#[derive(Clone, Copy)]
pub struct Entry {
    pub slot: u64,
    pub offset: u64,
    pub length: u64,
}

/// The lists of a disc file; None where its table breaks the request's rules.
pub fn contents(file: &[u8]) -> Option<Vec<Entry>> {
    let word = |i: usize| {
        let w = file.get(4 * i..4 * i + 4)?;
        Some(u64::from(u32::from_le_bytes([w[0], w[1], w[2], w[3]])))
    };
    let count = word(0)?;
    if count != 1 && count != 2 {
        return None;
    }
    let mut entries = Vec::new();
    for i in 0..count as usize {
        entries.push(Entry { slot: word(1 + 3 * i)?, offset: word(2 + 3 * i)?, length: word(3 + 3 * i)? });
    }
    let rising = entries.windows(2).all(|w| w[0].slot < w[1].slot) && entries.iter().all(|e| e.slot <= 1);
    let mut at = 4 + 12 * count;
    for e in &entries {
        if e.offset != at {
            return None;
        }
        at += e.length;
    }
    (rising && at == file.len() as u64).then_some(entries)
}

/// The contents table for lists of these slots and lengths, in any order; None where two share a slot, or one needs an offset or length above four bytes.
pub fn table_of(lists: &[(u64, u64)]) -> Option<Vec<Entry>> {
    let mut lists = lists.to_vec();
    lists.sort_unstable();
    let mut at = 4 + 12 * lists.len() as u64;
    let mut entries = Vec::new();
    for &(slot, length) in &lists {
        entries.push(Entry { slot, offset: at, length });
        at += length;
    }
    let fits = entries.iter().all(|e| e.offset <= MAX32 && e.length <= MAX32);
    (fits && lists.windows(2).all(|w| w[0].0 != w[1].0)).then_some(entries)
}

pub fn table_bytes(count: u32, entries: &[Entry]) -> Vec<u8> {
    let mut out = count.to_le_bytes().to_vec();
    for e in entries {
        for v in [e.slot, e.offset, e.length] {
            out.extend_from_slice(&(v as u32).to_le_bytes());
        }
    }
    out
}

/// What saving lists of these slots and bytes answers, with the output of `out` bytes as it is afterwards. `refused`: 1 to 4 of the lists, or 0.
pub fn put_saved(text: &mut Vec<u8>, refused: u64, lists: &[(u64, &[u8])], out: u64) -> u64 {
    let lengths: Vec<(u64, u64)> = lists.iter().map(|l| (l.0, l.1.len() as u64)).collect();
    let mut output = vec![165; out as usize];
    let (length, answer) = match (refused, table_of(&lengths)) {
        (0, Some(entries)) => {
            let mut file = table_bytes(entries.len() as u32, &entries);
            for e in &entries {
                let body = lists.iter().find(|l| l.0 == e.slot).map_or(&[][..], |l| l.1);
                file.extend_from_slice(body);
            }
            let length = file.len() as u64;
            if length <= out {
                output[..file.len()].copy_from_slice(&file);
            }
            (length, if length <= out { length } else { 40 })
        }
        (0, None) => (54, 54),
        (n, _) => (n, n),
    };
    text.extend_from_slice(b" / save");
    put(text, length);
    put(text, answer);
    put(text, sum_of(&output));
    answer
}

/// Question 1 of the area of a slot.
pub fn area_ok(a: &AreaNumbers, slot: u8) -> bool {
    a.slot == slot && a.start <= a.end && a.end <= MAX32
}

/// A body by the original, or of version 4 by its model: the list, or one of 20 to 38.
pub fn body(a: &AreaNumbers, bytes: &[u8], limit: u64) -> Result<AreaIndex, u32> {
    let slot = if a.slot == 0 { Slot::TwoChannel } else { Slot::Multichannel };
    let area = Area::new(slot, a.key_start, a.key_end, a.channels);
    access::loaded(&area, a.image, bytes, limit)
}

/// The bytes of each table that a list needs, by question 3.
pub fn needs(ix: &AreaIndex) -> [u64; 7] {
    let (boundaries, budget, most) = access::sizes(ix);
    let (b, m) = (boundaries as u64, most as u64);
    [24 * b, 8 * b, budget as u64, 24 * b, 4 * 4096, 8 * (m + 262_144), 16 * (m + 1)]
}

pub fn enough(lent: &[u64; 7], need: &[u64; 7]) -> bool {
    lent.iter().zip(need).all(|(l, n)| l >= n)
}

/// A disc file to be loaded under two areas, into tables of these lengths; the lists are then saved into an output of `out` bytes.
#[derive(Clone)]
pub struct Load {
    pub areas: [AreaNumbers; 2],
    pub limit: u64,
    pub lent: [[u64; 7]; 2],
    pub out: u64,
    pub file: Vec<u8>,
}

/// What a file's table says, and its bodies by the original: slot, and list or number.
pub struct Read {
    pub contents: Option<Vec<Entry>>,
    pub bodies: Vec<(usize, Result<AreaIndex, u32>)>,
}

/// What the model finds of a load.
pub struct Found {
    pub number: u32,
    /// Each body's own number, in the table's order: 20 to 38, then 3; 0 where it passes.
    pub numbers: Vec<u32>,
    pub read: Read,
}

impl Found {
    /// The list of a slot; none where the call refused.
    pub fn list(&self, slot: usize, refused: bool) -> Option<&AreaIndex> {
        let at = self.read.bodies.iter().find(|b| b.0 == slot && !refused);
        at.and_then(|b| b.1.as_ref().ok())
    }

    /// What the contents call answers: 0 or 54, and for each slot whether there is a list, its offset and length.
    fn put_contents(&self, t: &mut Vec<u8>) {
        t.extend_from_slice(b"contents");
        put(t, if self.read.contents.is_some() { 0 } else { 54 });
        for s in 0..2 {
            let e = self.read.contents.iter().flatten().find(|e| e.slot == s);
            for v in e.map_or([0, 0, 0], |e| [1, e.offset, e.length]) {
                put(t, v);
            }
        }
    }

    /// What the sizes call answers: it refuses where loading does, but never with 3; the sizes of a list that is not there are 0.
    fn put_sizes(&self, t: &mut Vec<u8>) {
        let refused = match self.number {
            3 => self.numbers.iter().copied().find(|&n| n != 0 && n != 3).unwrap_or(0),
            n => n,
        };
        t.extend_from_slice(b" / sizes");
        put(t, u64::from(refused));
        for s in 0..2 {
            for v in self.list(s, refused != 0).map_or([0; 7], needs) {
                put(t, v);
            }
        }
    }
}

impl Load {
    pub fn read(&self) -> Read {
        let contents = contents(&self.file);
        let mut bodies = Vec::new();
        for e in contents.iter().flatten() {
            let slot = e.slot as usize;
            let bytes = &self.file[e.offset as usize..(e.offset + e.length) as usize];
            bodies.push((slot, body(&self.areas[slot], bytes, self.limit)));
        }
        Read { contents, bodies }
    }

    /// Question 1 of both areas, 54, then the first failing body's own number.
    pub fn find(&self, read: Read) -> Found {
        let own = |b: &(usize, Result<AreaIndex, u32>)| match &b.1 {
            Ok(ix) if enough(&self.lent[b.0], &needs(ix)) => 0,
            Ok(_) => 3,
            Err(n) => *n,
        };
        let numbers: Vec<u32> = read.bodies.iter().map(own).collect();
        let areas = area_ok(&self.areas[0], 0) && area_ok(&self.areas[1], 1);
        let number = match (areas, &read.contents) {
            (false, _) => 1,
            (true, None) => 54,
            (true, Some(_)) => numbers.iter().copied().find(|&n| n != 0).unwrap_or(0),
        };
        Found { number, numbers, read }
    }

    /// The program's line.
    pub fn line(&self) -> Vec<u8> {
        let mut t = format!("load {} {} {}", self.areas[0].words(), self.areas[1].words(), self.limit).into_bytes();
        for v in self.lent.iter().flatten() {
            put(&mut t, *v);
        }
        put(&mut t, self.out);
        put_hex(&mut t, &self.file);
        t
    }

    /// The answer to it, and what saving answered.
    pub fn answer(&self, found: &Found) -> (Vec<u8>, Option<u64>) {
        let mut t = Vec::new();
        found.put_contents(&mut t);
        found.put_sizes(&mut t);
        t.extend_from_slice(b" / load");
        put(&mut t, u64::from(found.number));
        let held = |s: usize| found.list(s, found.number != 0);
        for s in 0..2 {
            put(&mut t, u64::from(held(s).is_some()));
        }
        for s in 0..2 {
            if let Some(ix) = held(s) {
                t.extend_from_slice(format!(" / list {s} {}", self.areas[s].words()).as_bytes());
                access::put_list(&mut t, ix);
            }
        }
        let saved: Vec<(u64, Vec<u8>)> =
            (0..2).filter_map(|s| held(s).map(|ix| (s as u64, access::saved(ix)))).collect();
        let lists: Vec<(u64, &[u8])> = saved.iter().map(|l| (l.0, &l.1[..])).collect();
        // Two lists are saved in either order.
        let mut answer = None;
        for _ in 0..lists.len() {
            answer = Some(put_saved(&mut t, 0, &lists, self.out));
        }
        (t, answer)
    }
}

/// A change of a loaded list.
#[derive(Clone, Copy)]
pub struct Edit {
    /// The question of saving that finds it, 1 to 4; 0 where the saved content stays. Where the head is none, 3 is asked first.
    pub number: u64,
    /// 0 to 6: a byte of a table; 7: a word of the head; 8: the length of a table.
    pub what: u64,
    pub at: u64,
    pub value: u64,
}

/// Two list files, loaded one by one, changed, and saved together and alone.
#[derive(Clone)]
pub struct Pair {
    pub areas: [AreaNumbers; 2],
    pub limit: u64,
    pub lent: [[u64; 7]; 2],
    pub out: u64,
    pub files: [Vec<u8>; 2],
    pub edits: [Option<Edit>; 2],
}

impl Pair {
    pub fn line(&self) -> Vec<u8> {
        let edits: Vec<(usize, Edit)> = (0..2).filter_map(|s| self.edits[s].map(|e| (s, e))).collect();
        let mut t = format!("pair {} {} {}", self.limit, self.out, edits.len()).into_bytes();
        for (s, e) in edits {
            for v in [s as u64, e.what, e.at, e.value] {
                put(&mut t, v);
            }
        }
        for s in 0..2 {
            t.push(b' ');
            t.extend_from_slice(self.areas[s].words().as_bytes());
            for v in self.lent[s] {
                put(&mut t, v);
            }
            put_hex(&mut t, &self.files[s]);
        }
        t
    }

    /// The answer, and what saving both and each list answered. The lists' own files are given.
    pub fn answer(&self, saved: &[Vec<u8>; 2]) -> (Vec<u8>, [u64; 3]) {
        let list = |s: usize| (u64::from(self.areas[s].slot), &saved[s][..]);
        let no = |s: usize| self.edits[s].map_or(0, |e| e.number);
        // Heads come first; then each question is asked of both lists before the next: the lower number.
        let no_head = (0..2).any(|s| self.edits[s].is_some_and(|e| e.number == 3 && e.what == 7));
        let lower = if no_head { 3 } else { (0..2).map(no).filter(|&n| n != 0).min().unwrap_or(0) };
        let mut t = b"pair 0 0".to_vec();
        let both = put_saved(&mut t, lower, &[list(0), list(1)], self.out);
        put_saved(&mut t, lower, &[list(1), list(0)], self.out);
        let one = [0, 1].map(|s| put_saved(&mut t, no(s), &[list(s)], self.out));
        (t, [both, one[0], one[1]])
    }
}

/// Two lists of frames of zeros: slot, number of frames, bytes of all frames.
pub type Wide = [(u64, u64, u64); 2];

/// The length of such a list's file: header and sum, checkpoints, frames, parts.
pub fn wide_length(w: (u64, u64, u64)) -> u64 {
    88 + 24 * (w.1 + 1) + 8 * w.1 + w.2 + 24 * w.1
}

pub fn wide_answer(w: &Wide) -> Vec<u8> {
    let mut t = b"wide".to_vec();
    let mut save = |lists: &[(u64, u64, u64)]| {
        let lengths: Vec<(u64, u64)> = lists.iter().map(|&w| (w.0, wide_length(w))).collect();
        let all = 4 + lengths.iter().map(|l| 12 + l.1).sum::<u64>();
        let (length, answer) = if table_of(&lengths).is_some() { (all, 40) } else { (54, 54) };
        t.extend_from_slice(b" / save");
        put(&mut t, length);
        put(&mut t, answer);
        put(&mut t, sum_of(&[]));
    };
    save(&[w[0], w[1]]);
    save(&[w[1], w[0]]);
    save(&[w[0]]);
    save(&[w[1]]);
    t
}

/// A list of the slot whose file has `length` bytes, about 2^32: nearly all of them are frame bytes, 65,536 to a frame.
pub fn wide_of(slot: u64, length: u64) -> (u64, u64, u64) {
    let frames = 65_481;
    (slot, frames, length - wide_length((slot, frames, 0)))
}

/// Pairs at the bounds of four bytes, with what is to be seen of them.
pub fn wides() -> Vec<(&'static str, Wide)> {
    let small = |slot| (slot, 1, 100);
    vec![
        ("a length of 2^32 - 1 fits", [wide_of(1, MAX32), small(0)]),
        ("54: a length of 2^32, alone and together", [wide_of(1, MAX32 + 1), small(0)]),
        ("an offset of 2^32 - 1 fits", [wide_of(0, MAX32 - 28), small(1)]),
        ("54: an offset of 2^32", [wide_of(0, MAX32 - 27), small(1)]),
        ("54: an offset of 2^32, the list given second", [small(1), wide_of(0, MAX32 - 27)]),
    ]
}
