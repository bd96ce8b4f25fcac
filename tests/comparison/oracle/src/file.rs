//! The generator's own picture of a reading, of a list and of its file. It shares nothing with the
//! original: what it writes is judged by the original.

use crate::rng::Rng;
use crate::text::sum_of;

pub const LIM: u32 = 1_166_881;

#[derive(Clone, Copy, PartialEq)]
pub struct AreaNumbers {
    pub slot: u8,
    pub key_start: u32,
    pub key_end: u32,
    pub channels: u8,
    pub image: u64,
    pub start: u64,
    pub end: u64,
}

impl AreaNumbers {
    pub fn new(slot: u8, key_start: u32, key_end: u32, channels: u8, image: u64) -> Self {
        let start = u64::from(key_start);
        let end = (u64::from(key_end) + 1).min(image).max(start);
        AreaNumbers { slot, key_start, key_end, channels, image, start, end }
    }

    pub fn words(&self) -> String {
        format!(
            "{} {} {} {} {} {} {}",
            self.slot, self.key_start, self.key_end, self.channels, self.image, self.start, self.end
        )
    }
}

/// An area of `boundaries` boundaries at interval `k`.
pub fn area(rng: &mut Rng, boundaries: u64, k: u64) -> AreaNumbers {
    let len = if boundaries == 0 { 0 } else { (boundaries - 1) * k + rng.range(1, k) };
    let slot = rng.below(2) as u8;
    let channels = *rng.pick(&[2, 2, 5, 6, 6, 0, 255]);
    let start = match rng.below(8) {
        0 => 0,
        1 => rng.below(40),
        2 => u64::from(u32::MAX) - len - rng.below(3),
        _ => rng.range(500, 600_000),
    };
    let start = start as u32;
    if len == 0 {
        // No audio sector exists: the key ends before it starts, or the image before both.
        return match rng.below(2) {
            0 if start > 0 => AreaNumbers::new(slot, start, start - 1, channels, u64::from(start) + rng.below(100)),
            _ => AreaNumbers::new(slot, start, start.saturating_add(50), channels, rng.below(u64::from(start) + 1)),
        };
    }
    let end = u64::from(start) + len;
    if rng.chance(1, 4) {
        // The image ends inside the key's range.
        return AreaNumbers::new(slot, start, (end + rng.below(1000)).min(u64::from(u32::MAX)) as u32, channels, end);
    }
    let key_end = (end - 1) as u32;
    let beyond = if rng.chance(1, 8) { rng.below(1 << 40) } else { rng.below(1000) };
    let image = end + beyond;
    AreaNumbers::new(slot, start, key_end, channels, image)
}

#[derive(Clone, Copy, PartialEq)]
pub struct Checkpoint {
    pub thr: u32,
    pub back: u32,
    pub mal: u64,
    pub digest: u64,
}

/// A frame under assembly at a checkpoint: the first `len` bytes of frame `frame`.
#[derive(Clone, Copy)]
pub struct Under {
    pub frame: usize,
    pub len: usize,
    pub remaining: u32,
}

#[derive(Clone)]
pub struct Frame {
    pub start: u32,
    pub number: u32,
    pub kind: u8,
    pub bytes: Vec<u8>,
}

/// One reading of an area: all its checkpoints, frames under assembly and malformed LSNs.
#[derive(Clone)]
pub struct Reading {
    pub area: AreaNumbers,
    pub k: u64,
    pub checkpoints: Vec<Checkpoint>,
    /// The byte that fills each checkpoint's sector.
    pub fills: Vec<u8>,
    pub under: Vec<Option<Under>>,
    pub frames: Vec<Frame>,
    pub malformed: Vec<u32>,
    pub end: (u32, u64),
}

/// The sum of a sector filled with one byte.
pub fn digest_of(fill: u8) -> u64 {
    sum_of(&[fill; 2048])
}

/// What a reading is to be like.
#[derive(Clone, Copy)]
pub struct Shape {
    pub boundaries: u64,
    pub k: u64,
    /// Of 8 checkpoints, about how many have a frame under assembly.
    pub under: u64,
    pub frame_bytes: u64,
    pub malformed: u64,
}

impl Shape {
    pub fn random(rng: &mut Rng) -> Shape {
        let k = *rng.pick(&[1, 2, 3, 7, 16, 32, 33, 40, 64, 64, 100, 100, 4096, 65_536]);
        let boundaries = match rng.below(60) {
            0..=5 => 0,
            6..=45 => rng.range(1, 9),
            46..=57 => rng.range(1, 40),
            _ => rng.range(40, 200),
        };
        let frame_bytes = match rng.below(40) {
            0..=9 => 0,
            10..=29 => 12,
            30..=38 => 100,
            _ => 3000,
        };
        Shape { boundaries, k, under: rng.below(9), frame_bytes, malformed: *rng.pick(&[0, 0, 1, 3, 10, 40]) }
    }
}

impl Reading {
    pub fn random(rng: &mut Rng, shape: Shape) -> Reading {
        let area = area(rng, shape.boundaries, shape.k);
        Reading::of(rng, shape, area)
    }

    /// A reading of this area, which has the shape's boundaries.
    pub fn of(rng: &mut Rng, shape: Shape, area: AreaNumbers) -> Reading {
        let Shape { boundaries, k, .. } = shape;
        let len = area.end - area.start;
        let mut malformed: Vec<u32> =
            (0..shape.malformed.min(len)).map(|_| (area.start + rng.below(len)) as u32).collect();
        malformed.sort_unstable();
        malformed.dedup();
        let mut r = Reading {
            area,
            k,
            checkpoints: Vec::new(),
            fills: Vec::new(),
            under: Vec::new(),
            frames: Vec::new(),
            malformed,
            end: (0, 0),
        };
        let step = *rng.pick(&[1, 3, 60, 200, 4000]);
        let mut thr = 0u32;
        let mut len_so_far = 0;
        for j in 0..boundaries {
            let lsn = area.start + j * k;
            if !rng.chance(1, 4) {
                thr = (thr + rng.below(step) as u32).min(LIM);
            }
            if rng.chance(1, 400) {
                thr = LIM - rng.below(2).min(u64::from(LIM - thr)) as u32;
            }
            let (mut under, mut back) = (None, 0);
            if j > 0 && rng.below(8) < shape.under {
                let last = r.frames.last().map(|f| u64::from(f.start));
                let low = last.map_or(area.start, |s| s + 1);
                if last.is_none() || (low < lsn && rng.chance(1, 2)) {
                    // A new frame: mostly far enough back to be held by a recorder.
                    let near = lsn.saturating_sub(rng.range(1, 40)).max(low);
                    let start = if rng.chance(1, 2) { near } else { low + rng.below(lsn - low) };
                    r.frames.push(Frame {
                        start: start as u32,
                        number: if rng.chance(1, 50) { LIM - 1 } else { rng.below(u64::from(LIM)) as u32 },
                        kind: rng.below(2) as u8,
                        bytes: Vec::new(),
                    });
                    len_so_far = 0;
                }
                let at = r.frames.len() - 1;
                back = (lsn - u64::from(r.frames[at].start)) as u32;
                len_so_far += if rng.chance(1, 3) { 0 } else { rng.below(shape.frame_bytes + 1) as usize };
                len_so_far = len_so_far.min(65_536);
                let f = &mut r.frames[at];
                while f.bytes.len() < len_so_far {
                    f.bytes.push(rng.below(256) as u8);
                }
                under = Some(Under { frame: at, len: len_so_far, remaining: rng.extreme() });
            } else if rng.chance(1, 4) {
                // A frame under assembly that no list holds.
                back = rng.below(j * k + 1) as u32;
            }
            let mal = r.malformed.iter().filter(|&&m| u64::from(m) < lsn).count() as u64;
            let fill = rng.below(256) as u8;
            r.checkpoints.push(Checkpoint { thr, back, mal, digest: 0 });
            r.fills.push(fill);
            r.under.push(under);
        }
        r.end = ((thr + rng.below(step + 1) as u32).min(LIM), r.malformed.len() as u64);
        r
    }

    /// Digests are the sums of the filled sectors (else they are free numbers).
    pub fn sector_digests(&mut self) {
        for (c, &f) in self.checkpoints.iter_mut().zip(&self.fills) {
            c.digest = digest_of(f);
        }
    }

    pub fn free_digests(&mut self, rng: &mut Rng) {
        for c in &mut self.checkpoints {
            c.digest = rng.next();
        }
    }

    pub fn lsn(&self, j: usize) -> u64 {
        self.area.start + j as u64 * self.k
    }

    /// The list of the first `n` checkpoints, or the complete one; each part with chance
    /// `keep` of 8.
    pub fn cut(&self, rng: &mut Rng, n: usize, complete: bool, keep: u64) -> List {
        let frontier = if complete { self.area.end } else { self.lsn(n.saturating_sub(1)) };
        let mut list = List {
            area: self.area,
            k: self.k as u32,
            budget: 0,
            checkpoints: self.checkpoints[..n].to_vec(),
            frames: Vec::new(),
            parts: Vec::new(),
            end: complete.then_some(self.end),
            malformed: self.malformed.iter().copied().filter(|&m| u64::from(m) < frontier).take(4096).collect(),
            fingerprint: None,
            spacing: 8,
            most: 2048,
            hints: Vec::new(),
            confirmations: Vec::new(),
        };
        let mut last = usize::MAX;
        for (j, u) in self.under[..n].iter().enumerate() {
            let Some(u) = u else { continue };
            if rng.below(8) >= keep {
                continue;
            }
            let f = &self.frames[u.frame];
            if last != u.frame {
                list.frames.push((f.start, Vec::new()));
                last = u.frame;
            }
            let at = list.frames.len() - 1;
            list.frames[at].1 = f.bytes[..u.len].to_vec();
            list.parts.push(Part {
                at: j as u32,
                frame: at as u32,
                len: u.len as u32,
                number: f.number,
                remaining: u.remaining,
                kind: f.kind,
            });
        }
        list.budget = list.used();
        list
    }
}

#[derive(Clone, Copy)]
pub struct Part {
    pub at: u32,
    pub frame: u32,
    pub len: u32,
    pub number: u32,
    pub remaining: u32,
    pub kind: u8,
}

#[derive(Clone)]
pub struct List {
    pub area: AreaNumbers,
    pub k: u32,
    pub budget: u64,
    pub checkpoints: Vec<Checkpoint>,
    pub frames: Vec<(u32, Vec<u8>)>,
    pub parts: Vec<Part>,
    pub end: Option<(u32, u64)>,
    pub malformed: Vec<u32>,
    pub fingerprint: Option<u64>,
    pub spacing: u32,
    pub most: u32,
    pub hints: Vec<(u32, u32)>,
    pub confirmations: Vec<(u32, u32, u64)>,
}

/// A file, and where its sections begin.
#[derive(Clone)]
pub struct File {
    pub bytes: Vec<u8>,
    pub area: AreaNumbers,
    pub k: u32,
    pub version: u32,
    pub n: usize,
    /// Where each frame's header lies.
    pub frames: Vec<usize>,
    pub parts: (usize, usize),
    pub malformed: (usize, usize),
    pub hint_header: usize,
    pub hints: usize,
    pub confirmation_header: usize,
    pub confirmations: usize,
    pub used: u64,
}

impl List {
    pub fn used(&self) -> u64 {
        self.frames.iter().map(|f| f.1.len() as u64).sum()
    }

    /// Rising LSNs of the area, at most `count`.
    pub fn lsns(&self, rng: &mut Rng, count: u64) -> Vec<u32> {
        let len = self.area.end - self.area.start;
        let mut out: Vec<u32> = (0..count.min(len)).map(|_| (self.area.start + rng.below(len)) as u32).collect();
        out.sort_unstable();
        out.dedup();
        out
    }

    pub fn version(&self) -> u32 {
        if self.most > 65_536 {
            4
        } else if self.fingerprint.is_some() && !self.confirmations.is_empty() {
            3
        } else if self.fingerprint.is_some() || !self.hints.is_empty() || (self.spacing, self.most) != (8, 2048) {
            2
        } else {
            1
        }
    }

    /// Budget, hints, fingerprint, confirmations at random; frames that are longer than their
    /// parts; malformed LSNs that are no reading's.
    pub fn dress(&mut self, rng: &mut Rng, most: u64) {
        let area = self.area;
        for f in &mut self.frames {
            if rng.chance(1, 5) {
                for _ in 0..rng.range(1, 9) {
                    f.1.push(rng.below(256) as u8);
                }
            }
            f.1.truncate(65_536);
        }
        if rng.chance(1, 6) && !self.malformed.is_empty() {
            let last = self.checkpoints.len().saturating_sub(1) as u64;
            let frontier = if self.end.is_some() { area.end } else { area.start + last * u64::from(self.k) };
            let mut other = Vec::new();
            while other.len() < self.malformed.len() {
                while other.len() < self.malformed.len() {
                    other.push((area.start + rng.below(frontier - area.start)) as u32);
                }
                other.sort_unstable();
                other.dedup();
            }
            self.malformed = other;
        }
        let used = self.used();
        self.budget = match rng.below(12) {
            0..=4 => used,
            5..=8 => used + rng.below(5000),
            9 => 131_072.max(used),
            10 => 1 << 20,
            _ => u64::from(u32::MAX),
        };
        if rng.chance(1, 3) {
            return;
        }
        self.spacing = *rng.pick(&[8, 8, 0, 1, 75, u32::MAX]);
        let count = match rng.below(40) {
            0..=9 => 0,
            10..=19 => rng.range(1, 3),
            20..=37 => rng.range(1, 20),
            38 => 100,
            _ => rng.range(100, 400),
        };
        let mut t = rng.below(1000);
        let step = *rng.pick(&[1, 2, 10, 100]);
        let lsns = if rng.chance(2, 3) { self.lsns(rng, count) } else { Vec::new() };
        for lsn in lsns {
            match rng.below(10) {
                0 => t = rng.below(u64::from(LIM)),
                1 => {}
                _ => t += rng.below(step + 1),
            }
            t = t.min(u64::from(LIM) - 1);
            self.hints.push((lsn, t as u32));
        }
        if rng.chance(1, 2) {
            self.fingerprint = Some(if rng.chance(1, 6) { 0 } else { rng.next() });
        }
        let s = self.hints.len() as u64;
        let free = *rng.pick(&[s, s, s + 1, s + 7, 2048, 2048, 65_536]);
        self.most = free.max(s).min(most) as u32;
        if self.fingerprint.is_some() && self.most > 0 && rng.chance(2, 3) {
            let count = rng.range(1, u64::from(self.most).min(12));
            for lsn in self.lsns(rng, count) {
                let u = if rng.chance(1, 30) { LIM - 1 } else { rng.below(3000) as u32 };
                self.confirmations.push((lsn, u, rng.next()));
            }
        }
    }

    /// A limit that only version 4 has.
    pub fn lengthen(&mut self, rng: &mut Rng) {
        self.most = *rng.pick(&[65_537, 65_537, 65_538, 131_072, 200_000, 262_143, 262_144, 262_144]);
    }

    pub fn encode(&self) -> File {
        let version = self.version();
        let mut b: Vec<u8> = Vec::new();
        let put = |b: &mut Vec<u8>, v: u32| b.extend_from_slice(&v.to_le_bytes());
        b.extend_from_slice(b"SBSEEKIX");
        put(&mut b, version);
        let flags = u8::from(self.end.is_some()) | u8::from(self.fingerprint.is_some()) << 1;
        b.extend_from_slice(&[self.area.slot, self.area.channels, flags, 0]);
        put(&mut b, self.area.key_start);
        put(&mut b, self.area.key_end);
        b.extend_from_slice(&self.area.image.to_le_bytes());
        put(&mut b, self.k);
        for n in [self.checkpoints.len(), self.frames.len(), self.parts.len(), self.malformed.len()] {
            put(&mut b, n as u32);
        }
        put(&mut b, 0);
        b.extend_from_slice(&self.budget.to_le_bytes());
        let end = self.end.unwrap_or((0, 0));
        put(&mut b, end.0);
        put(&mut b, 0);
        b.extend_from_slice(&end.1.to_le_bytes());
        for c in &self.checkpoints {
            put(&mut b, c.thr);
            put(&mut b, c.back);
            b.extend_from_slice(&c.mal.to_le_bytes());
            b.extend_from_slice(&c.digest.to_le_bytes());
        }
        let mut frames = Vec::new();
        for (start, bytes) in &self.frames {
            frames.push(b.len());
            put(&mut b, *start);
            put(&mut b, bytes.len() as u32);
            b.extend_from_slice(bytes);
        }
        let parts = (b.len(), self.parts.len());
        for p in &self.parts {
            for v in [p.at, p.frame, p.len, p.number, p.remaining, u32::from(p.kind)] {
                put(&mut b, v);
            }
        }
        let malformed = (b.len(), self.malformed.len());
        for &m in &self.malformed {
            put(&mut b, m);
        }
        let hint_header = b.len();
        if version >= 2 {
            b.extend_from_slice(&self.fingerprint.unwrap_or(0).to_le_bytes());
            for v in [self.spacing, self.most, self.hints.len() as u32, 0] {
                put(&mut b, v);
            }
            for &(lsn, t) in &self.hints {
                put(&mut b, lsn);
                put(&mut b, t);
            }
        }
        let confirmation_header = b.len();
        if version >= 3 {
            put(&mut b, self.confirmations.len() as u32);
            put(&mut b, 0);
            for &(lsn, u, d) in &self.confirmations {
                put(&mut b, lsn);
                put(&mut b, u);
                b.extend_from_slice(&d.to_le_bytes());
            }
        }
        b.extend_from_slice(&[0; 8]);
        let mut file = File {
            bytes: b,
            area: self.area,
            k: self.k,
            version,
            n: self.checkpoints.len(),
            frames,
            parts,
            malformed,
            hint_header,
            hints: self.hints.len(),
            confirmation_header,
            confirmations: self.confirmations.len(),
            used: self.used(),
        };
        mend(&mut file.bytes);
        file
    }
}

/// Writes the sum of all before over the last 8 bytes.
pub fn mend(bytes: &mut [u8]) {
    if let Some(n) = bytes.len().checked_sub(8) {
        let sum = sum_of(&bytes[..n]);
        bytes[n..].copy_from_slice(&sum.to_le_bytes());
    }
}
