//! Lists and recorders as a program that lends tables holds them: a block of 24 numbers, and the bytes of each table in the
//! file's layout. Questions 1 to 3 of them are asked in document 01's words; of 4 the original's loader is asked, by a file
//! of the same numbers and bytes, or where M is above 65,536 the model of version 4.

use crate::audio::audio_sector_range;
use crate::error::Slot;
use crate::file::mend;
use crate::script::Sizes;
use crate::seek::access;
use crate::toc::Area;
use crate::version4;

/// A place's tables: the list's seven, the recorder's four; the hint recorder's list.
pub const WIDTHS: [usize; 12] = [24, 8, 1, 24, 4, 8, 16, 24, 8, 1, 24, 8];
pub const NAMES: [&str; 12] = [
    "a list's checkpoints",
    "a list's frames",
    "a list's frame bytes",
    "a list's parts",
    "a list's malformed LSNs",
    "a list's hints",
    "a list's confirmations",
    "a recorder's checkpoints",
    "a recorder's frames",
    "a recorder's frame bytes",
    "a recorder's parts",
    "a hint recorder's list",
];
/// A list's hints, the first table of a recorder, of the hint recorder, and what `edit` numbers behind the tables: the three blocks.
pub const HINTS: usize = 5;
pub const RECORDS: usize = 7;
pub const SEEN: usize = 11;
pub const HEAD: usize = 12;
pub const BLOCK: usize = 13;
pub const HINT_BLOCK: usize = 14;

/// What an edit of a table's byte or a block's word changes.
pub fn edited_name(t: usize, at: u64) -> String {
    match t {
        3 | 10 if at % 24 >= 20 => format!("{}, kind", NAMES[t]),
        0..HEAD => NAMES[t].to_string(),
        HEAD => format!("word {at} of a list's head"),
        BLOCK => format!("word {at} of a recorder's block"),
        _ => format!("word {at} of a hint recorder's block"),
    }
}

const MALFORMED: u64 = 4096;
/// What question 3 wants of hints above M, and the hints of a hint recorder's list.
const ABOVE: u64 = 262_144;
const SEEN_HINTS: u64 = 65_536;

/// The bytes of every table of a place.
pub fn rooms(s: &Sizes) -> [usize; 12] {
    let mut out = WIDTHS.map(|w| w * s.boundaries);
    (out[2], out[9]) = (s.store, s.store);
    out[4] = 4 * MALFORMED as usize;
    out[5] = 8 * (s.most + ABOVE as usize);
    out[6] = 16 * (s.most + 1);
    out[SEEN] = 8 * SEEN_HINTS as usize;
    out
}

/// The bytes that question 3 asks of a list's seven tables; a recorder has the first four.
pub fn needs(boundaries: u64, budget: u64, most: u64) -> [u64; 7] {
    [24 * boundaries, 8 * boundaries, budget, 24 * boundaries, 4 * MALFORMED, 8 * (most + ABOVE), 16 * (most + 1)]
}

/// Question 3.
pub fn long_enough(needs: &[u64], lengths: &[usize]) -> bool {
    needs.iter().zip(lengths).all(|(&n, &l)| n <= l as u64)
}

#[derive(Clone)]
pub struct Raw {
    pub words: [u64; 24],
    pub tables: Vec<Vec<u8>>,
}

const U8: u64 = u8::MAX as u64;
const U32: u64 = u32::MAX as u64;
const U64: u64 = u64::MAX;

/// The widest number of each word of a list's head, and of a recorder's block; behind the last word they are 0.
#[rustfmt::skip]
const HEAD_WORDS: [u64; 24] = [
    U8, U8, U32, U32, U64, U64, U64, U32, U64, U32, U32, U32, U32, U32, U32, U32, U32, 1, U32, U64, 2, U64, 1, U64,
];
#[rustfmt::skip]
const BLOCK_WORDS: [u64; 24] = [
    U8, U8, U32, U32, U64, U64, U64, U32, U64, U32, U64, U32, U32, U32, 2, U32, U64, 0, 0, 0, 0, 0, 0, 0,
];

fn word(b: &[u8], i: usize) -> u32 {
    b.get(i..i + 4).map_or(0, |w| u32::from_le_bytes([w[0], w[1], w[2], w[3]]))
}

impl Raw {
    /// Is the block one that a call wrote: no word wider than its number, no other mark, no number behind a mark that has none?
    pub fn is_head(&self, recorder: bool) -> bool {
        let w = &self.words;
        let widest = if recorder { &BLOCK_WORDS } else { &HEAD_WORDS };
        let none = |i: usize| w[i] == 0;
        let behind = if recorder {
            w[14] == 1 || (none(15) && none(16))
        } else {
            (w[17] == 1 || (none(18) && none(19))) && (w[20] != 0 || none(21)) && (w[22] == 1 || none(23))
        };
        w.iter().zip(widest).all(|(v, most)| v <= most) && behind
    }

    /// Question 1.
    pub fn area_passes(&self) -> bool {
        self.words[0] as u8 <= 1 && self.words[5] <= self.words[6] && self.words[6] <= u64::from(u32::MAX)
    }

    /// Question 2.
    pub fn numbers_pass(&self) -> bool {
        (1..=65_536).contains(&(self.words[7] as u32)) && self.words[8] <= u64::from(u32::MAX)
    }

    fn boundaries(&self) -> u64 {
        (self.words[6] - self.words[5]).div_ceil(u64::from(self.words[7] as u32))
    }

    /// What question 3 asks of its tables, where 1 and 2 pass.
    pub fn needs(&self, recorder: bool) -> Vec<u64> {
        let most = u64::from(self.words[10] as u32);
        let all = needs(self.boundaries(), self.words[8], most);
        all[..if recorder { 4 } else { 7 }].to_vec()
    }

    fn count(&self, i: usize) -> usize {
        self.words[i] as u32 as usize
    }

    /// Has each table the records that the count in the block says?
    fn known(&self, counts: &[(usize, usize)]) -> bool {
        counts.iter().all(|&(table, n)| n <= self.tables[table].len() / WIDTHS[table])
    }

    fn area(&self) -> Area {
        let slot = if self.words[0] as u8 == 0 { Slot::TwoChannel } else { Slot::Multichannel };
        Area::new(slot, self.words[2] as u32, self.words[3] as u32, self.words[1] as u8)
    }

    /// Question 4 of a list that passes 1 and 2, by the original's loader. A count of more records than there are is judged
    /// here, where it breaks a rule; None where it breaks none, and where the key does not give the range.
    pub fn list_holds(&self) -> Option<bool> {
        let w = &self.words;
        let [n, f, h, m, s, c] = [11, 12, 13, 14, 15, 16].map(|i| self.count(i));
        let (most, b) = (self.count(10), self.boundaries() as usize);
        if c > 0 && w[20] == 0 {
            return Some(false);
        }
        if !self.known(&[(0, n), (1, f), (3, h), (4, m), (5, s), (6, c)]) {
            let counts = n <= b && h <= n && f <= h && m <= 4096 && s <= most && c <= most;
            return if counts { None } else { Some(false) };
        }
        if audio_sector_range(&self.area(), w[4]) != (w[5], w[6]) {
            return None;
        }
        Some(access::loaded(&self.area(), w[4], &self.file(), u64::MAX).is_ok())
    }

    /// The file of its numbers and bytes. Frame bytes that are not there are 0; a frame longer than any has none.
    fn file(&self) -> Vec<u8> {
        let w = &self.words;
        let [n, f, h, m, s, c] = [11, 12, 13, 14, 15, 16].map(|i| self.count(i));
        let plain = s == 0 && w[20] == 0 && (w[9] as u32, w[10] as u32) == (8, 2048);
        let long = w[10] as u32 > version4::SHORT;
        let version: u32 = if long {
            4
        } else if c > 0 {
            3
        } else {
            2 - u32::from(plain)
        };
        let mut b = b"SBSEEKIX".to_vec();
        let four = |b: &mut Vec<u8>, v: u64| b.extend_from_slice(&(v as u32).to_le_bytes());
        four(&mut b, u64::from(version));
        b.extend_from_slice(&[w[0] as u8, w[1] as u8, u8::from(w[17] != 0) | u8::from(w[20] != 0) << 1, 0]);
        four(&mut b, w[2]);
        four(&mut b, w[3]);
        b.extend_from_slice(&w[4].to_le_bytes());
        for v in [w[7], w[11], w[12], w[13], w[14], 0] {
            four(&mut b, v);
        }
        b.extend_from_slice(&w[8].to_le_bytes());
        let end = if w[17] == 0 { (0, 0) } else { (w[18], w[19]) };
        four(&mut b, end.0);
        four(&mut b, 0);
        b.extend_from_slice(&end.1.to_le_bytes());
        b.extend_from_slice(&self.tables[0][..24 * n]);
        let mut at = 0;
        for i in 0..f {
            let l = Some(word(&self.tables[1], 8 * i + 4) as usize).filter(|&l| l <= 65_536).unwrap_or(0);
            b.extend_from_slice(&self.tables[1][8 * i..8 * i + 8]);
            b.extend((at..at + l).map(|j| self.tables[2].get(j).copied().unwrap_or(0)));
            at += l;
        }
        b.extend_from_slice(&self.tables[3][..24 * h]);
        b.extend_from_slice(&self.tables[4][..4 * m]);
        if version >= 2 {
            b.extend_from_slice(&(if w[20] == 0 { 0 } else { w[21] }).to_le_bytes());
            for v in [w[9], w[10], w[15], 0] {
                four(&mut b, v);
            }
            b.extend_from_slice(&self.tables[5][..8 * s]);
        }
        if version >= 3 {
            four(&mut b, w[16]);
            four(&mut b, 0);
            b.extend_from_slice(&self.tables[6][..16 * c]);
        }
        b.extend_from_slice(&[0; 8]);
        mend(&mut b);
        b
    }

    /// Question 4 of a recorder that passes 1 and 2: as of a list that has, before its stretch, checkpoints of zeros, and
    /// as many malformed LSNs as the last one counts. None where it cannot be told.
    pub fn recorder_holds(&self) -> Option<bool> {
        let w = &self.words;
        let [first, n, f, h] = [9, 11, 12, 13].map(|i| self.count(i));
        let all = first as u64 + n as u64;
        if all > self.boundaries() {
            return Some(false);
        }
        if !self.known(&[(0, n), (1, f), (3, h)]) {
            return if f <= h && h <= n { None } else { Some(false) };
        }
        let last = n.checked_sub(1).map_or(0, |i| 24 * i + 8);
        let counted = u64::from(word(&self.tables[0], last)) | u64::from(word(&self.tables[0], last + 4)) << 32;
        let counted = if w[14] == 1 {
            w[16]
        } else if n == 0 {
            0
        } else {
            counted
        };
        let malformed = counted.min(MALFORMED);
        let mut words = *w;
        (words[9], words[10], words[11], words[14], words[15], words[16]) = (8, 2048, all, malformed, 0, 0);
        (words[17], words[18], words[19]) = if w[14] == 1 { (1, w[15], w[16]) } else { (0, 0, 0) };
        words[20..].fill(0);
        let mut tables = self.tables.clone();
        tables[0] = [vec![0; 24 * first], tables[0].clone()].concat();
        let lsns = (0..malformed).flat_map(|i| ((w[5] + i) as u32).to_le_bytes()).collect();
        tables.extend([lsns, Vec::new(), Vec::new()]);
        Raw { words, tables }.list_holds()
    }
}

/// Of an object: which of questions 1 to 4 it fails, as far as the ones before say what to ask.
pub type Nos = [bool; 4];

/// The nos of a list or recorder in tables of these lengths. `holds` is question 4, asked where 1 and 2 pass.
pub fn nos(raw: &Raw, recorder: bool, lengths: &[usize], holds: impl Fn() -> bool) -> Nos {
    let mut out = [!raw.area_passes(), !raw.numbers_pass(), false, false];
    if out[0] || out[1] {
        // Whatever its numbers are.
        out[2] = !recorder && !long_enough(&needs(0, 0, 0), lengths);
        return out;
    }
    out[2] = !long_enough(&raw.needs(recorder), lengths);
    out[3] = !holds();
    out
}
