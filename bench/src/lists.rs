//! List files for the benches, written from docs/FILE.md.

use crate::plain::bytes;

/// An area's numbers.
#[derive(Clone, Copy)]
pub struct Area {
    pub slot: u8,
    pub channels: u8,
    pub key_start: u32,
    pub key_end: u32,
    pub sectors: u64,
    pub start: u64,
    pub end: u64,
}

/// The bytes of a held frame.
pub const FRAME: u32 = 65_536;
/// The first sector of every area here.
pub const START: u32 = 1000;

/// A list, before it is a file.
#[derive(Clone)]
pub struct List {
    pub slot: u8,
    pub boundaries: u32,
    pub interval: u32,
    /// How many checkpoints it has.
    pub checkpoints: u32,
    /// The checkpoints with a held frame, every tenth at most.
    pub held: Vec<u32>,
    pub budget: u64,
    pub most: u32,
    pub hints: Vec<(u32, u32)>,
    pub confirmed: Vec<(u32, u32, u64)>,
    pub fingerprint: Option<u64>,
}

/// A list of all of `n` boundaries, and nothing else.
pub fn list(n: u32, interval: u32) -> List {
    List {
        slot: 0,
        boundaries: n,
        interval,
        checkpoints: n,
        held: Vec::new(),
        budget: 0,
        most: 2048,
        hints: Vec::new(),
        confirmed: Vec::new(),
        fingerprint: None,
    }
}

/// The three lists of the calls on files, and their cases.
pub fn three() -> [(&'static str, List); 3] {
    let hints = List { hints: (0..2_048).map(hint).collect(), ..list(7_400, 64) };
    let frames = List { held: (1..=16).map(|i| 10 * i).collect(), budget: 1 << 20, ..list(1_000, 64) };
    [("7,400 checkpoints, 2,048 hints", hints), ("475,000 checkpoints", list(475_000, 1)), ("1 MiB of frame bytes", frames)]
}

/// A list of as many hints as there may be, every second one from `odd` on, and as many confirmations where asked for. The original reads no such file.
pub fn longest(odd: u32, confirmations: bool) -> List {
    let n = if confirmations { 262_144 } else { 0 };
    List {
        most: 262_144,
        hints: (0..262_144).map(|i| close(2 * i + odd)).collect(),
        confirmed: (0..n).map(|i| confirmation(2 * i + odd)).map(|(lsn, t, d)| (lsn, t % 1_000_000, d)).collect(),
        fingerprint: Some(7),
        ..list(25_000, 64)
    }
}

/// Frame numbers that rise by 1 to 15.
fn number(i: u32) -> u32 {
    8 * i + (i.wrapping_mul(0x9e37_79b9) >> 29)
}

/// The hint numbered `i`, of frame numbers that rise by 1 to 3: 524,288 of them are below the largest.
fn close(i: u32) -> (u32, u32) {
    (START + 3 * i, 2 * i + (i.wrapping_mul(0x9e37_79b9) >> 31))
}

/// The hint numbered `i`: every third sector.
pub fn hint(i: u32) -> (u32, u32) {
    (START + 3 * i, number(i))
}

/// So many hints, whose frame numbers rise by 1 to 159 without a pattern, as on a disc of an hour and more.
pub fn uneven(n: u32) -> Vec<(u32, u32)> {
    bytes(n as usize).iter().zip(0..n).map(|(&b, i)| (START + 3 * i, 80 * i + u32::from(b % 80))).collect()
}

/// The confirmation numbered `i`.
pub fn confirmation(i: u32) -> (u32, u32, u64) {
    (START + 3 * i, number(i), u64::from(i) * 0x9e37_79b9)
}

pub fn u32s(out: &mut Vec<u8>, values: &[u32]) {
    for v in values {
        out.extend_from_slice(&v.to_le_bytes());
    }
}

impl List {
    pub fn area(&self) -> Area {
        let start = u64::from(START);
        let end = start + u64::from(self.boundaries) * u64::from(self.interval);
        Area { slot: self.slot, channels: 2, key_start: START, key_end: end as u32 - 1, sectors: end + 100, start, end }
    }

    fn version(&self) -> u32 {
        if self.most > 65_536 {
            return 4;
        }
        match (self.confirmed.is_empty(), self.fingerprint.is_none() && self.hints.is_empty() && self.most == 2048) {
            (false, _) => 3,
            (true, false) => 2,
            (true, true) => 1,
        }
    }

    pub fn file(&self) -> Vec<u8> {
        let (area, version, held) = (self.area(), self.version(), self.held.len() as u32);
        let mut b = b"SBSEEKIX".to_vec();
        u32s(&mut b, &[version]);
        b.extend_from_slice(&[area.slot, area.channels, u8::from(self.fingerprint.is_some()) << 1, 0]);
        u32s(&mut b, &[area.key_start, area.key_end]);
        b.extend_from_slice(&area.sectors.to_le_bytes());
        u32s(&mut b, &[self.interval, self.checkpoints, held, held, 0, 0]);
        b.extend_from_slice(&self.budget.to_le_bytes());
        b.extend_from_slice(&[0; 16]);
        self.put_checkpoints(&mut b);
        self.put_frames(&mut b);
        self.put_hints(&mut b, version);
        let sum = crate::plain::fnv(&b);
        b.extend_from_slice(&sum.to_le_bytes());
        b
    }

    /// A frame starts 40 sectors before every tenth checkpoint.
    fn put_checkpoints(&self, b: &mut Vec<u8>) {
        for j in 0..self.checkpoints {
            let back = if j % 10 == 0 && j * self.interval >= 40 { 40 } else { 0 };
            u32s(b, &[j, back]);
            b.extend_from_slice(&0u64.to_le_bytes());
            b.extend_from_slice(&(u64::from(j) * 0x9e37_79b9).to_le_bytes());
        }
    }

    fn put_frames(&self, b: &mut Vec<u8>) {
        for &j in &self.held {
            u32s(b, &[START + j * self.interval - 40, FRAME]);
            b.extend((0..FRAME).map(|k| k.wrapping_mul(j) as u8));
        }
        for (i, &j) in self.held.iter().enumerate() {
            u32s(b, &[j, i as u32, FRAME, j, 1, 0]);
        }
    }

    fn put_hints(&self, b: &mut Vec<u8>, version: u32) {
        if version > 1 {
            b.extend_from_slice(&self.fingerprint.unwrap_or(0).to_le_bytes());
            u32s(b, &[8, self.most, self.hints.len() as u32, 0]);
            for &(lsn, number) in &self.hints {
                u32s(b, &[lsn, number]);
            }
        }
        if version > 2 {
            u32s(b, &[self.confirmed.len() as u32, 0]);
            for &(lsn, threshold, digest) in &self.confirmed {
                u32s(b, &[lsn, threshold]);
                b.extend_from_slice(&digest.to_le_bytes());
            }
        }
    }

    /// The original's index of the file; of a limit above 65,536 the same index with that limit, which the original can hold and not read.
    pub fn theirs(&self) -> oracle::seek::AreaIndex {
        if self.most > 65_536 { oracle::calls::loaded(&their_area(&self.area()), self.area().sectors, &self.file()) } else { theirs(&self.area(), &self.file()) }
    }
}

/// The original's area.
pub fn their_area(a: &Area) -> oracle::toc::Area {
    let slot = if a.slot == 0 { oracle::Slot::TwoChannel } else { oracle::Slot::Multichannel };
    oracle::toc::Area::new(slot, a.key_start, a.key_end, a.channels)
}

/// The original's index of a file.
pub fn theirs(a: &Area, file: &[u8]) -> oracle::seek::AreaIndex {
    oracle::seek::AreaIndex::from_bytes(&their_area(a), a.sectors, file, usize::MAX).expect("the original refuses a file")
}
