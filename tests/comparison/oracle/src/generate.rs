//! Scripts from a seed.

use std::io::Write;

use crate::damage;
use crate::file::{AreaNumbers, File, LIM, List, Reading, Shape};
use crate::rng::Rng;
use crate::script::sizes;
use crate::text::put_hex;

/// What scripts are about.
#[derive(Clone, Copy, PartialEq, Debug)]
pub enum Kind {
    /// `load`, `save` and `plan`.
    Load,
    /// Lists of one reading, and a few that are not: `merge`, `reload`.
    Merge,
    /// `new`, recorders, hints, confirmations, and everything else.
    Calls,
    /// Readings and lists that are equal but for one number: `record`, `finish`, `absorb`, `merge`.
    Seams,
    /// Two readings of one area that have nothing in common: `merge`, `absorb`, `save`, `reload`.
    Unrelated,
    /// Hints and confirmations at the bounds: M, ties, falling numbers, reach, merges of two lists; runs of merges of four.
    Hints,
    /// Lists that need larger tables: 65,536 hints and confirmations, up to 65,536 boundaries, budgets up to 1,048,576.
    Large,
    /// Tables lent too short, lists and recorders that are edited: 1 to 4 of all calls.
    Lent,
    /// The rules that `plan` and `hint` name: `plan_rule`, `hint_rule`.
    Names,
    /// Where the time bytes of sectors lie: `first_bytes`, `see_first`.
    Sectors,
    /// Limits of 65,537 to 262,144 and files of version 4, whole and broken; few hints. All calls.
    Version4,
    /// The same with as many hints and confirmations as there may be.
    Long,
}

impl Kind {
    /// Are its tables the larger ones?
    pub fn is_large(self) -> bool {
        matches!(self, Kind::Large | Kind::Version4 | Kind::Long)
    }
}

pub fn kinds(names: &str) -> Option<Vec<Kind>> {
    names
        .split(',')
        .map(|n| match n {
            "load" => Some(vec![Kind::Load]),
            "merge" => Some(vec![Kind::Merge]),
            "calls" => Some(vec![Kind::Calls]),
            "seams" => Some(vec![Kind::Seams]),
            "unrelated" => Some(vec![Kind::Unrelated]),
            "hints" => Some(vec![Kind::Hints]),
            "large" => Some(vec![Kind::Large]),
            "lent" => Some(vec![Kind::Lent]),
            "names" => Some(vec![Kind::Names]),
            "sectors" => Some(vec![Kind::Sectors]),
            "version4" => Some(vec![Kind::Version4]),
            "long" => Some(vec![Kind::Long]),
            "all" => {
                Some(vec![Kind::Load, Kind::Load, Kind::Merge, Kind::Calls, Kind::Seams, Kind::Hints, Kind::Unrelated])
            }
            _ => None,
        })
        .collect::<Option<Vec<_>>>()
        .map(|k| k.concat())
}

fn hex(bytes: &[u8]) -> String {
    let mut out = Vec::new();
    put_hex(&mut out, bytes);
    String::from_utf8_lossy(&out[1..]).into_owned()
}

struct Script<'a> {
    out: &'a mut Vec<u8>,
    pub loads: u64,
}

impl Script<'_> {
    fn line(&mut self, text: std::fmt::Arguments<'_>) {
        // Writing to memory does not fail.
        let _ = self.out.write_fmt(text);
        self.out.push(b'\n');
    }

    fn load(&mut self, note: &str, p: usize, limit: u64, bytes: &[u8]) {
        self.loads += 1;
        self.line(format_args!("# {note}"));
        self.out.extend_from_slice(format!("load {p} {limit}").as_bytes());
        put_hex(self.out, bytes);
        self.out.push(b'\n');
    }
}

macro_rules! say {
    ($s:expr, $($text:tt)*) => { $s.line(format_args!($($text)*)) };
}

mod lent;
mod long;
mod names;
pub mod order;
pub mod sectors;
mod version4;

pub use long::BAD as LONG_BAD;
pub use version4::{BAD as VERSION4_BAD, BOUNDS as VERSION4_BOUNDS, LIMITS as VERSION4_LIMITS};

/// Appends script `number`; answers how many files it loads. `small` keeps files short.
pub fn script(kind: Kind, number: u32, seed: u64, small: bool, out: &mut Vec<u8>) -> u64 {
    let mut rng = Rng::new(seed ^ (u64::from(number) << 20));
    let mut s = Script { out, loads: 0 };
    say!(s, "script {number}");
    match kind {
        Kind::Load => loads(&mut s, &mut rng, small),
        Kind::Merge => merges(&mut s, &mut rng, small),
        Kind::Calls => calls(&mut s, &mut rng, small),
        Kind::Seams => seams(&mut s, &mut rng),
        Kind::Hints if rng.chance(1, 3) => order::order(&mut s, &mut rng),
        Kind::Hints => hints(&mut s, &mut rng, small),
        Kind::Unrelated => unrelated(&mut s, &mut rng),
        Kind::Large => large(&mut s, &mut rng),
        Kind::Lent => lent::lent(&mut s, &mut rng),
        Kind::Names => names::names(&mut s, &mut rng),
        Kind::Sectors => sectors::sectors(&mut s, &mut rng, number),
        Kind::Version4 => version4::version4(&mut s, &mut rng),
        Kind::Long => long::long(&mut s, &mut rng, number),
    }
    s.loads
}

pub fn shape(rng: &mut Rng, small: bool) -> Shape {
    let mut shape = Shape::random(rng);
    if small {
        shape.boundaries = shape.boundaries.min(6);
        shape.frame_bytes = shape.frame_bytes.min(40);
        shape.malformed = shape.malformed.min(10);
        return shape;
    }
    match rng.below(300) {
        // More malformed sectors than a list names.
        0 => Shape { boundaries: rng.range(3, 12), k: 4096, malformed: rng.range(4000, 9000), ..shape },
        // Frames of up to the largest size.
        1 => Shape { boundaries: 4, k: 100, under: 7, frame_bytes: 65_536, malformed: 0 },
        // As many checkpoints as the tables have room for.
        2 => Shape { boundaries: rng.range(1000, 1024), k: rng.range(1, 3), under: 1, ..shape },
        3 => Shape { boundaries: rng.range(1, 30), k: rng.range(33, 200), under: 7, ..shape },
        _ => shape,
    }
}

pub fn limit(rng: &mut Rng, list: &List) -> u64 {
    let used = list.used();
    let first = list.frames.first().map_or(0, |f| f.1.len() as u64);
    let (most, s, c) = (u64::from(list.most), list.hints.len() as u64, list.confirmations.len() as u64);
    let near = |rng: &mut Rng, v: u64| (v + rng.below(3)).saturating_sub(1);
    match rng.below(26) {
        0 => 0,
        1 => *rng.pick(&[1, 7, 8, 9, 15, 16, 17, 100]),
        2 => rng.below(1000),
        3 => used,
        4 => used.saturating_sub(1),
        5 => near(rng, first),
        6 => near(rng, used / 2),
        7 => list.budget.min(131_072),
        8 => near(rng, 8 * most),
        9 => near(rng, 8 * s),
        10 => 8 * rng.below(s + 1),
        11 => near(rng, 16 * most),
        12 => near(rng, 16 * c),
        13 => 16 * rng.below(c + 1),
        14..=17 => 131_072,
        18..=20 if list.budget <= 131_072 => 1 << 20,
        21 if list.budget <= 131_072 => *rng.pick(&[1 << 32, 1 << 63, u64::MAX]),
        22 if rng.chance(1, 20) => u64::MAX,
        _ => 16 * most.max(used).min(8192),
    }
}

/// A valid list: empty, partial or complete, of any version.
pub fn list(rng: &mut Rng, reading: &Reading, most: u64) -> List {
    let b = reading.checkpoints.len();
    let complete = rng.chance(1, 3);
    let n = if complete || rng.chance(1, 4) { b } else { rng.below(b as u64 + 1) as usize };
    let keep = *rng.pick(&[0, 4, 8, 8]);
    let mut list = reading.cut(rng, n, complete, keep);
    list.dress(rng, most);
    if complete && rng.chance(1, 3) {
        // Ends at the limits of an end state, where the malformed LSNs allow it.
        let last = list.checkpoints.last().map_or(0, |c| c.thr);
        if let Some(e) = &mut list.end {
            e.0 = *rng.pick(&[last, LIM]);
        }
    }
    list
}

fn plans(s: &mut Script<'_>, rng: &mut Rng, p: usize, list: &List, count: u64) {
    for _ in 0..count {
        let mut t = match list.checkpoints.is_empty() {
            true => 0,
            false => rng.pick(&list.checkpoints).thr,
        };
        if rng.chance(1, 4) {
            t = list.end.map_or(t, |e| e.0);
        }
        let t = match rng.below(6) {
            0 => t.wrapping_sub(1),
            1 => t.wrapping_add(1),
            2 => rng.extreme(),
            _ => t,
        };
        say!(s, "plan {p} {t}");
    }
}

fn save(s: &mut Script<'_>, rng: &mut Rng, p: usize, file: &File) {
    let len = file.bytes.len() as u64;
    let out = match rng.below(8) {
        0 => len.saturating_sub(1),
        1 => rng.below(len),
        2 => len + rng.below(200),
        3 => *rng.pick(&[0, 87, 88, 112]),
        _ => len,
    };
    let out = out.min(262_144);
    say!(s, "save {p} {out}");
}

fn loads(s: &mut Script<'_>, rng: &mut Rng, small: bool) {
    let first = shape(rng, small);
    let mut reading = Reading::random(rng, first);
    reading.free_digests(rng);
    let p = if rng.chance(5, 6) { 0 } else { rng.range(1, 3) as usize };
    let most = sizes().most as u64;
    say!(s, "area {p} {}", reading.area.words());
    if rng.chance(1, 150) {
        // Question 1: an area that ends past 4,294,967,295, or a slot that is neither.
        let a = if rng.chance(1, 2) {
            AreaNumbers::new(0, u32::MAX - 9, u32::MAX, 2, 1 << 33)
        } else {
            AreaNumbers::new(rng.range(2, 255) as u8, 10, 20, 2, 100)
        };
        say!(s, "area {p} {}", a.words());
    }
    let mut lists: Vec<List> = Vec::new();
    for _ in 0..rng.range(1, 3) {
        let mut l = list(rng, &reading, most);
        while small && l.encode().bytes.len() > 600 {
            l = list(rng, &reading, most);
        }
        lists.push(l);
    }
    let large = lists.iter().map(|l| l.encode().bytes.len()).max().unwrap_or(0) > 4000;
    let rounds = if large { 4 } else { rng.range(6, 16) };
    for _ in 0..rounds {
        let l = rng.pick(&lists).clone();
        let file = l.encode();
        let limit = limit(rng, &l);
        if rng.chance(1, 3) {
            s.load("valid", p, limit, &file.bytes);
            save(s, rng, p, &file);
            let count = rng.below(4);
            plans(s, rng, p, &l, count);
        } else {
            let (bytes, note) =
                if rng.chance(1, 6) { damage::reshaped(&file, rng) } else { damage::damaged(&file, rng) };
            s.load(&note, p, limit, &bytes);
            if rng.chance(1, 4) {
                save(s, rng, p, &file);
                plans(s, rng, p, &l, 1);
            }
        }
    }
}

/// Numbers for hints: each LSN has one number, so that no LSN comes under two.
fn number_at(lsn: u64, start: u64, k: u64) -> u32 {
    let i = lsn.saturating_sub(start);
    let n = if k % 3 == 0 { (i * 7919) % 5000 } else { i / 3 + (i % 5) * (k % 4) };
    (n % u64::from(LIM)) as u32
}

fn hint_list(rng: &mut Rng, a: &AreaNumbers, k: u64, most: u64) -> Vec<(u64, u32)> {
    let len = a.end - a.start;
    let count = rng.below(most);
    let mut out: Vec<(u64, u32)> = (0..count)
        .map(|_| {
            let lsn = if rng.chance(1, 12) {
                (a.start + len + rng.below(5)).saturating_sub(rng.below(2 * len + 8))
            } else {
                a.start + rng.below(len.max(1))
            };
            let lsn = lsn.min(u64::from(u32::MAX));
            (lsn, number_at(lsn, a.start, k))
        })
        .collect();
    if rng.chance(1, 2) {
        out.sort_unstable();
    }
    if rng.chance(1, 2) {
        out.dedup();
    }
    out
}

fn say_hints(s: &mut Script<'_>, p: usize, hints: &[(u64, u32)]) {
    let words: String = hints.iter().map(|(l, t)| format!(" {l} {t}")).collect();
    say!(s, "add_hints {p} {}{words}", hints.len());
}

fn confirmations(s: &mut Script<'_>, rng: &mut Rng, p: usize, a: &AreaNumbers, count: u64) {
    for _ in 0..count {
        let len = a.end - a.start;
        let lsn = if rng.chance(1, 12) { a.end + rng.below(3) } else { a.start + rng.below(len.min(12)) };
        let u = if rng.chance(1, 20) { rng.extreme() } else { rng.below(200) as u32 };
        say!(s, "confirm {p} {lsn} {u} {}", rng.below(3));
    }
}

fn hint_calls(s: &mut Script<'_>, rng: &mut Rng, p: usize, a: &AreaNumbers, k: u64, count: u64) {
    for _ in 0..count {
        let first = number_at(a.start + rng.below(a.end - a.start), a.start, k);
        let first = (u64::from(first) + rng.below(90)).saturating_sub(10) as u32;
        let end = if rng.chance(1, 20) { first.wrapping_sub(1) } else { first.saturating_add(rng.below(150) as u32) };
        let (first, end) = if rng.chance(1, 30) { (rng.extreme(), rng.extreme()) } else { (first, end) };
        let playtime = if rng.chance(1, 6) { rng.extreme() } else { rng.below(2000) as u32 };
        say!(s, "hint {p} {first} {end} {playtime}");
    }
}

fn merges(s: &mut Script<'_>, rng: &mut Rng, small: bool) {
    let mut shape = shape(rng, small);
    shape.frame_bytes = shape.frame_bytes.min(2000);
    let mut reading = Reading::random(rng, shape);
    reading.sector_digests();
    let a = reading.area;
    let fingerprint = rng.chance(1, 2).then(|| rng.below(3));
    let places = rng.range(2, 4) as usize;
    let mut cuts = Vec::new();
    for p in 0..places {
        let mut own = reading.clone();
        let mut l = {
            let b = own.checkpoints.len();
            let complete = rng.chance(1, 4);
            let n = if complete { b } else { rng.below(b as u64 + 1) as usize };
            // Now and then a list of another reading.
            if rng.chance(1, 12) && n > 0 {
                let j = rng.below(n as u64) as usize;
                match rng.below(3) {
                    0 => own.checkpoints[j].digest ^= 1,
                    1 => own.checkpoints[j].back ^= 1,
                    _ => own.checkpoints[j].thr = own.checkpoints[j].thr.saturating_sub(1),
                }
            }
            if rng.chance(1, 15) {
                own.end.0 = (own.end.0 + 1).min(LIM);
            }
            let keep = *rng.pick(&[0, 4, 8, 8]);
            own.cut(rng, n, complete, keep)
        };
        if rng.chance(1, 20) {
            l.k = if l.k > 1 { l.k - 1 } else { 2 };
            let n = l.checkpoints.len().min(1);
            l = List {
                checkpoints: l.checkpoints[..n].to_vec(),
                parts: vec![],
                frames: vec![],
                end: None,
                malformed: vec![],
                ..l
            };
        }
        if rng.chance(1, 25) {
            l.area.channels ^= 1;
        }
        l.budget = l.used() + *rng.pick(&[0, 0, 5, 50, 3000, 60_000]);
        l.spacing = *rng.pick(&[8, 8, 0, 75]);
        l.most = *rng.pick(&[2048, 2048, 4096, 40, 6, 4, 1, 0]);
        if rng.chance(2, 3) {
            let most = u64::from(l.most).min(30) + 1;
            let mut hints: Vec<(u32, u32)> = hint_list(rng, &a, reading.k, most)
                .into_iter()
                .filter(|h| (a.start..a.end).contains(&h.0))
                .map(|h| (h.0 as u32, h.1))
                .collect();
            hints.sort_unstable();
            hints.dedup();
            hints.truncate(l.most as usize);
            l.hints = hints;
        }
        l.fingerprint = if rng.chance(1, 20) { Some(77) } else { fingerprint.filter(|_| rng.chance(2, 3)) };
        if l.fingerprint.is_some() && l.most > 0 && rng.chance(1, 2) {
            let count = u64::from(l.most).min(8);
            let lsns = l.lsns(rng, count);
            l.confirmations = lsns.iter().map(|&x| (x, rng.below(100) as u32, rng.below(3))).collect();
        }
        say!(s, "area {p} {}", l.area.words());
        let file = l.encode();
        s.load("cut", p, 131_072, &file.bytes);
        if rng.chance(1, 2) {
            say!(s, "fingerprint {p} {}", if rng.chance(1, 12) { 9 } else { fingerprint.unwrap_or(5) });
        }
        if rng.chance(1, 8) {
            // An image id without news.
            say!(s, "recorder {p} {}", a.start);
            say!(s, "absorb {p} {p} 1 {} 0", rng.range(1, 2));
        }
        cuts.push(l);
    }
    for _ in 0..rng.range(2, 10) {
        let p = rng.below(places as u64) as usize;
        let q = (p + 1 + rng.below(places as u64 - 1) as usize) % places;
        match rng.below(10) {
            0..=5 => say!(s, "merge {p} {q}"),
            6 => {
                let l = *rng.pick(&[0, 8, 64, 1000, 131_072]);
                say!(s, "reload {p} {l}");
            }
            7 => say!(s, "save {p} {}", *rng.pick(&[88, 500, 8192])),
            8 => {
                let list = hint_list(rng, &a, reading.k, 20);
                say_hints(s, p, &list);
            }
            _ => confirmations(s, rng, p, &a, 2),
        }
        let l = rng.pick(&cuts).clone();
        plans(s, rng, p, &l, 2);
        if rng.chance(1, 3) {
            hint_calls(s, rng, p, &a, reading.k, 2);
        }
    }
}

/// `record` for checkpoint `j` of the reading; with `wrong` one number of it is off.
fn record(s: &mut Script<'_>, rng: &mut Rng, p: usize, r: &Reading, j: usize, wrong: bool) {
    let c = r.checkpoints[j];
    let (mut lsn, mut thr, mut mal, mut len) = (r.lsn(j), c.thr, c.mal, 2048);
    let mut under = r.under[j].map(|u| {
        let f = &r.frames[u.frame];
        (u64::from(f.start), f.number, f.kind, u.remaining, f.bytes[..u.len].to_vec())
    });
    if under.is_none() && c.back > 0 {
        // A frame under assembly of which nothing is held: more bytes than any frame may have,
        // or a near start.
        let start = lsn - u64::from(c.back);
        if c.back <= 32 {
            under = Some((start, 5, 0, 1, vec![1, 2, 3]));
        }
    }
    if wrong && rng.chance(1, 40) && under.is_some() {
        // More bytes than a frame may have, or exactly as many: passed over, or a large part.
        let len = rng.range(65_536, 65_537) as usize;
        if let Some(u) = &mut under {
            u.4 = vec![u.3 as u8; len];
        }
    } else if wrong {
        match rng.below(9) {
            0 => lsn += rng.range(1, 3),
            1 => len = *rng.pick(&[0, 2047, 2049]),
            2 => thr = *rng.pick(&[0, LIM + 1, u32::MAX]),
            3 => mal = *rng.pick(&[0, j as u64 * r.k + 1, u64::MAX]),
            4 => under = Some((lsn, 5, 0, 0, vec![1])),
            5 => under = Some((r.area.start.wrapping_sub(1).min(lsn + 5), 5, 0, 0, vec![1])),
            6 => under = Some((lsn.saturating_sub(40), LIM, 1, 0, vec![1])),
            7 => {
                if let Some(u) = &mut under {
                    u.4.push(7);
                    u.4.insert(0, 9);
                }
            }
            _ => {
                if let Some(u) = &mut under {
                    u.1 ^= 1;
                }
            }
        }
    }
    match under {
        None => say!(s, "record {p} {lsn} {thr} {mal} {len} {} 0", r.fills[j]),
        Some((start, number, kind, remaining, bytes)) => say!(
            s,
            "record {p} {lsn} {thr} {mal} {len} {} 1 {start} {number} {kind} {remaining} {}",
            r.fills[j],
            hex(&bytes)
        ),
    }
}

fn absorb(s: &mut Script<'_>, rng: &mut Rng, p: usize, q: usize, r: &Reading, upto: usize, all: bool) {
    let known = !rng.chance(1, 5);
    let id = if rng.chance(1, 60) { 2 } else { 1 };
    let end = if all { u64::MAX } else { r.lsn(upto) };
    let mut list: Vec<u32> = r.malformed.iter().copied().filter(|&m| u64::from(m) < end).collect();
    if rng.chance(1, 20) {
        match rng.below(3) {
            0 => list.reverse(),
            1 => {
                list.pop();
            }
            _ => list.insert(0, r.area.start as u32),
        }
    }
    let words: String = list.iter().map(|m| format!(" {m}")).collect();
    say!(s, "absorb {p} {q} {} {} {}{words}", u8::from(known), if known { id } else { 0 }, list.len());
}

fn sees(s: &mut Script<'_>, rng: &mut Rng, a: &AreaNumbers, k: u64, count: u64) {
    let mut lsn = a.start + rng.below((a.end - a.start).max(1));
    for _ in 0..count {
        lsn += rng.below(4);
        let at = if rng.chance(1, 40) { lsn + (1 << 32) } else { lsn };
        // A sector's first bytes: header, packets, time.
        let (f, packets) = (rng.below(8), rng.below(8));
        let t = number_at(lsn, a.start, k);
        let mut bytes = vec![(packets << 5 | f << 2 | rng.below(4)) as u8];
        for _ in 0..packets {
            bytes.extend([rng.below(256) as u8, rng.below(256) as u8]);
        }
        bytes.extend([(t / 4500) as u8, (t / 75 % 60) as u8, (t % 75) as u8]);
        say!(s, "see {at} {}", hex(&bytes));
    }
}

fn calls(s: &mut Script<'_>, rng: &mut Rng, small: bool) {
    let mut shape = shape(rng, small);
    if rng.chance(29, 30) {
        shape.boundaries = shape.boundaries.min(25);
    }
    shape.frame_bytes = shape.frame_bytes.min(3000);
    shape.malformed = shape.malformed.min(5000);
    let mut reading = Reading::random(rng, shape);
    reading.sector_digests();
    let a = reading.area;
    let b = reading.checkpoints.len();
    for p in 0..2 {
        let mut own = a;
        if p == 1 && rng.chance(1, 15) {
            own.channels ^= 1;
        }
        if rng.chance(1, 20) {
            // Question 1: an area that ends past 4,294,967,295.
            say!(s, "area {p} {}", AreaNumbers::new(0, u32::MAX - 9, u32::MAX, 2, 1 << 33).words());
            say!(s, "new {p} 1 0 8 0");
        }
        say!(s, "area {p} {}", own.words());
        if rng.chance(1, 10) {
            let (i, g) =
                *rng.pick(&[(0, 0), (65_537, 0), (65_536, 0), (1, 1u64 << 32), (100, 131_073), (100, 131_072)]);
            say!(s, "new {p} {i} {g} 8 {}", *rng.pick(&[0u64, 2048, 16_384, 16_385, 65_536]));
        }
        let budget = *rng.pick(&[0, 10, 100, 5000, 131_072]);
        let most = *rng.pick(&[0, 1, 2, 4, 10, 40, 2048, 4096]);
        let k = if p == 1 && rng.chance(1, 15) { reading.k + 1 } else { reading.k };
        say!(s, "new {p} {k} {budget} {} {most}", *rng.pick(&[0, 1, 8, 75]));
        say!(s, "recorder {p} {}", if rng.chance(1, 15) { a.start + 1 } else { a.start });
    }
    // A scan with place 0's recorder, taken in now and then; place 1's goes over the same ground.
    let stop = if rng.chance(1, 2) { b } else { rng.below(b as u64 + 1) as usize };
    let mut second = 0;
    for j in 0..stop {
        if rng.chance(1, 15) {
            record(s, rng, 0, &reading, j, true);
        }
        record(s, rng, 0, &reading, j, false);
        if rng.chance(1, 6) {
            let all = rng.chance(1, 3);
            absorb(s, rng, 0, 0, &reading, j, all);
        }
        if rng.chance(1, 3) {
            let mut other = reading.clone();
            if rng.chance(1, 20) {
                // The second reading saw something else.
                other.checkpoints[second].thr = (other.checkpoints[second].thr + 1).min(LIM);
            }
            record(s, rng, 1, &other, second, false);
            second += 1;
        }
        if rng.chance(1, 12) {
            let (p, q) = *rng.pick(&[(0, 1), (1, 1), (1, 0)]);
            absorb(s, rng, p, q, &reading, second, true);
        }
    }
    if rng.chance(3, 4) {
        let (thr, mal) = reading.end;
        if rng.chance(1, 8) {
            say!(s, "finish 0 {} {}", LIM + 1, mal);
        }
        say!(s, "finish 0 {thr} {mal}");
    }
    absorb(s, rng, 0, 0, &reading, stop, true);
    absorb(s, rng, 1, 1, &reading, second, true);
    if rng.chance(1, 2) {
        // A recorder of the other list, whose area or interval may be another.
        absorb(s, rng, 0, 1, &reading, second, true);
    }
    if rng.chance(1, 2) {
        say!(s, "recorder 0 {}", a.start);
        absorb(s, rng, 0, 0, &reading, stop, true);
    }
    for _ in 0..rng.range(1, 3) {
        let p = rng.below(2) as usize;
        if rng.chance(2, 3) {
            say!(s, "fingerprint {p} {}", rng.below(2));
        }
        say!(s, "hint_recorder {p}");
        let count = rng.below(40);
        sees(s, rng, &a, reading.k, count);
        if rng.chance(1, 2) {
            say!(s, "flush");
        }
        say!(s, "take {p}");
        if rng.chance(1, 2) {
            sees(s, rng, &a, reading.k, 4);
            say!(s, "flush");
            say!(s, "take {p}");
        }
        let mut list = hint_list(rng, &a, reading.k, 60);
        if rng.chance(1, 15) {
            list.push((a.start, LIM));
        }
        say_hints(s, p, &list);
        confirmations(s, rng, p, &a, 4);
        hint_calls(s, rng, p, &a, reading.k, 6);
        say!(s, "save {p} {}", *rng.pick(&[88, 8192, 20_000]));
    }
    if rng.chance(1, 2) {
        let bytes: Vec<u8> = (0..rng.below(24)).map(|_| rng.below(256) as u8).collect();
        say!(s, "first_record {}", hex(&bytes));
    }
    say!(s, "merge 1 0");
    say!(s, "reload 1 {}", *rng.pick(&[0, 100, 131_072]));
    let whole = reading.cut(rng, b, true, 0);
    plans(s, rng, 0, &whole, 4);
    plans(s, rng, 1, &whole, 4);
}

/// The same reading, but for at most one number.
fn twin(rng: &mut Rng, r: &Reading) -> Reading {
    let mut t = r.clone();
    let step = |rng: &mut Rng, v: u32| if rng.chance(1, 2) { (v + 1).min(LIM) } else { v.saturating_sub(1) };
    let j = rng.below(r.checkpoints.len().max(1) as u64) as usize;
    match rng.below(8) {
        0 | 1 if !t.fills.is_empty() => {
            t.fills[j] ^= 1;
            t.sector_digests();
        }
        2 if !t.checkpoints.is_empty() => t.checkpoints[j].thr = step(rng, t.checkpoints[j].thr),
        3 if !t.checkpoints.is_empty() => t.checkpoints[j].mal = u64::from(step(rng, t.checkpoints[j].mal as u32)),
        4 => t.end.0 = step(rng, t.end.0),
        5 => t.end.1 = u64::from(step(rng, t.end.1 as u32)),
        6 | 7 => shift_one(rng, &r.area, &mut t.malformed),
        _ => {}
    }
    t
}

/// Moves one malformed LSN by one, where the list still rises in the area.
fn shift_one(rng: &mut Rng, a: &AreaNumbers, list: &mut [u32]) {
    if list.is_empty() {
        return;
    }
    let i = rng.below(list.len() as u64) as usize;
    let low = if i == 0 { a.start as u32 } else { list[i - 1] + 1 };
    let high = list.get(i + 1).map_or(a.end as u32, |&m| m);
    if rng.chance(1, 2) && list[i] + 1 < high {
        list[i] += 1;
    } else if list[i] > low {
        list[i] -= 1;
    }
}

/// `absorb` with the reading's malformed LSNs below `end`.
fn absorb_below(s: &mut Script<'_>, p: usize, q: usize, r: &Reading, end: u64) {
    let list: Vec<u32> = r.malformed.iter().copied().filter(|&m| u64::from(m) < end).collect();
    let words: String = list.iter().map(|m| format!(" {m}")).collect();
    say!(s, "absorb {p} {q} 0 0 {}{words}", list.len());
}

/// Two scans of one area, which differ in one number at most; both up to the area's end, or one checkpoint less.
fn scans(s: &mut Script<'_>, rng: &mut Rng, r: &Reading) {
    let other = twin(rng, r);
    let b = r.checkpoints.len();
    for p in 0..2 {
        say!(s, "area {p} {}", r.area.words());
        say!(s, "new {p} {} {} 8 40", r.k, *rng.pick(&[0, 12, 131_072]));
        say!(s, "recorder {p} {}", r.area.start);
    }
    let less = |rng: &mut Rng| if rng.chance(1, 3) { b.saturating_sub(1) } else { b };
    let (n, m) = (less(rng), less(rng));
    let stop = rng.below(n as u64 + 1) as usize;
    for j in 0..n {
        record(s, rng, 0, r, j, false);
        if j + 1 == stop {
            absorb_below(s, 0, 0, r, u64::MAX);
        }
    }
    for j in 0..m {
        record(s, rng, 1, &other, j, false);
    }
    for (p, count, x) in [(0, n, r), (1, m, &other)] {
        if count == b && rng.chance(2, 3) {
            // The LSN behind the last boundary, which may be the area's end.
            say!(s, "record {p} {} {} {} 2048 0 0", x.lsn(b), x.end.0, x.end.1.min(b as u64 * x.k));
        }
        if rng.chance(3, 4) {
            say!(s, "finish {p} {} {}", x.end.0, x.end.1);
        }
    }
    let list = if rng.chance(1, 2) { r } else { &other };
    absorb_below(s, 0, 0, list, u64::MAX);
    let (p, q) = *rng.pick(&[(0, 1), (1, 1)]);
    absorb_below(s, p, q, &other, if rng.chance(1, 2) { u64::MAX } else { other.lsn(m) });
    say!(s, "merge 0 1");
    say!(s, "merge 1 0");
}

/// Two lists of one reading, one checkpoint apart at most, with malformed lists that may differ.
fn equals(s: &mut Script<'_>, rng: &mut Rng, r: &Reading) {
    let b = r.checkpoints.len();
    let n = rng.below(b as u64 + 1) as usize;
    let m = (n + rng.below(3) as usize).saturating_sub(1).min(b);
    for (p, count) in [(0, n), (1, m)] {
        let x = twin(rng, r);
        let x =
            if rng.chance(1, 2) { r.clone() } else { Reading { checkpoints: r.checkpoints.clone(), end: r.end, ..x } };
        let complete = count == b && rng.chance(1, 2);
        let mut l = x.cut(rng, count, complete, 8);
        l.budget += *rng.pick(&[0, 1, 12, 200]);
        l.most = *rng.pick(&[0, 4, 40]);
        say!(s, "area {p} {}", l.area.words());
        s.load("equal", p, 131_072, &l.encode().bytes);
    }
    say!(s, "merge 0 1");
    say!(s, "merge 1 0");
    say!(s, "save 0 20000");
}

/// A list whose last frame has more bytes than its parts need, and one that goes on from there.
fn surplus(s: &mut Script<'_>, rng: &mut Rng, r: &Reading) {
    let b = r.checkpoints.len();
    let held: Vec<usize> = (0..b).filter(|&j| r.under[j].is_some()).collect();
    let n = if held.is_empty() { b } else { *rng.pick(&held) + 1 };
    let mut own = r.cut(rng, n, false, 8);
    let start = own.frames.last().map(|f| f.0);
    let next = (n..b).find_map(|j| r.under[j].filter(|u| Some(r.frames[u.frame].start) == start));
    if let (Some(frame), Some(next)) = (own.frames.last_mut(), next) {
        let all = &r.frames[next.frame].bytes;
        let upto = (frame.1.len() + rng.below(4) as usize).min(all.len());
        frame.1.extend_from_slice(&all[frame.1.len()..upto]);
        if rng.chance(1, 4) {
            frame.1.push(7);
        }
        let grow = (next.len as u64).saturating_sub(frame.1.len() as u64);
        own.budget = own.used() + (grow + rng.below(3)).saturating_sub(1);
    } else {
        own.budget = own.used() + rng.below(20);
    }
    let complete = rng.chance(1, 2);
    let other = r.cut(rng, b, complete, 8);
    for (p, l) in [(0, &own), (1, &other)] {
        say!(s, "area {p} {}", l.area.words());
        s.load("surplus", p, 131_072, &l.encode().bytes);
    }
    if rng.chance(1, 2) {
        say!(s, "recorder 0 {}", r.lsn(n.saturating_sub(1)));
        for j in n..b {
            record(s, rng, 0, r, j, false);
        }
        absorb_below(s, 0, 0, r, u64::MAX);
    }
    say!(s, "merge 0 1");
    say!(s, "plan 0 {}", r.end.0);
    say!(s, "save 0 20000");
}

fn seams(s: &mut Script<'_>, rng: &mut Rng) {
    let shape = Shape {
        boundaries: rng.range(0, 6),
        k: *rng.pick(&[1, 2, 33, 40, 64]),
        under: *rng.pick(&[0, 6, 8]),
        frame_bytes: 12,
        malformed: *rng.pick(&[0, 1, 3, 10]),
    };
    let mut reading = Reading::random(rng, shape);
    reading.sector_digests();
    match rng.below(4) {
        0 | 1 => scans(s, rng, &reading),
        2 => equals(s, rng, &reading),
        _ => surplus(s, rng, &reading),
    }
}

/// A place's area and an empty list.
fn fresh(s: &mut Script<'_>, p: usize, a: &AreaNumbers, numbers: (u64, u64, u64, u64)) {
    let (interval, budget, spacing, most) = numbers;
    say!(s, "area {p} {}", a.words());
    say!(s, "new {p} {interval} {budget} {spacing} {most}");
}

/// `count` hints of the area, as far as it has sectors: each LSN once, rising.
fn even_hints(a: &AreaNumbers, k: u64, count: u64) -> Vec<(u64, u32)> {
    let len = a.end - a.start;
    let step = (len / count.max(1)).max(1);
    (0..count.min(len)).map(|i| a.start + i * step).map(|l| (l, number_at(l, a.start, k))).collect()
}

/// About `count` hints of the area: rising, falling here and there, or in no order.
fn many_hints(rng: &mut Rng, a: &AreaNumbers, k: u64, count: u64) -> Vec<(u64, u32)> {
    let len = a.end - a.start;
    let mut out: Vec<(u64, u32)> = (0..count)
        .map(|_| {
            let lsn = a.start + rng.below(len);
            (lsn, number_at(lsn, a.start, k))
        })
        .collect();
    match rng.below(4) {
        0 => {}
        1 => out = even_hints(a, k, count),
        2 => {
            out.sort_unstable();
            for _ in 0..rng.range(1, 5) {
                let (i, j) = (rng.below(count) as usize, rng.below(count) as usize);
                out.swap(i, j);
            }
        }
        _ => out.sort_unstable(),
    }
    out
}

/// Lists of hints up to 65,536, one more, and their merges.
fn large_hints(s: &mut Script<'_>, rng: &mut Rng) {
    let a = AreaNumbers::new(0, 1000, 1000 + rng.range(200_000, 400_000) as u32, 2, 1 << 21);
    let k = rng.below(7);
    for p in 0..2 {
        let most = *rng.pick(&[65_536, 65_536, 65_536, 65_535, 49_152, 2048, 4, 3, 2, 1, 0]);
        fresh(s, p, &a, (65_536, 0, 8, most));
        say!(s, "fingerprint {p} 5");
        if rng.chance(1, 3) {
            say_hints(s, p, &even_hints(&a, k, 65_536));
        }
        for _ in 0..rng.range(1, 2) {
            let count = *rng.pick(&[65_537, 65_536, 65_536, 65_535, 40_000, 20_000, 3000]);
            let list = many_hints(rng, &a, k, count);
            say_hints(s, p, &list);
        }
        confirmations(s, rng, p, &a, 4);
        hint_calls(s, rng, p, &a, k, 6);
    }
    say!(s, "merge 0 1");
    say!(s, "save 0 {}", *rng.pick(&[1_600_000, 8_388_608]));
    say!(s, "reload 0 {}", *rng.pick(&[1u64 << 20, 524_288, 524_287, 131_072, 16]));
    say!(s, "merge 1 0");
    hint_calls(s, rng, 1, &a, k, 6);
}

/// Files with up to 65,536 hints and confirmations, and their merges.
fn large_files(s: &mut Script<'_>, rng: &mut Rng) {
    let shape = Shape { boundaries: rng.range(2, 5), k: 65_536, under: 4, frame_bytes: 100, malformed: 3 };
    let mut reading = Reading::random(rng, shape);
    reading.sector_digests();
    let a = reading.area;
    for p in 0..2 {
        let n = reading.checkpoints.len();
        let mut l = reading.cut(rng, n, false, 8);
        l.most = *rng.pick(&[65_536, 65_536, 40_000, 20_000]);
        let count = *rng.pick(&[65_536, 30_000, 1000]);
        let even = rng.chance(1, 2);
        let hints = if even { even_hints(&a, reading.k, count) } else { many_hints(rng, &a, reading.k, count) };
        let mut hints: Vec<(u32, u32)> = hints.into_iter().map(|h| (h.0 as u32, h.1)).collect();
        hints.sort_unstable();
        hints.dedup();
        hints.truncate(l.most as usize);
        l.hints = hints;
        l.fingerprint = Some(5);
        // The original takes its time where many are merged into many.
        let count =
            if p == 0 { *rng.pick(&[200_000, 200_000, 30_000]) } else { *rng.pick(&[100, 1000, 1000, 6000, 60_000]) };
        let mut lsns = l.lsns(rng, count);
        lsns.truncate(l.most as usize);
        l.confirmations = lsns.iter().map(|&x| (x, rng.below(100) as u32, rng.below(3))).collect();
        say!(s, "area {p} {}", a.words());
        let limit = *rng.pick(&[1 << 21, 1 << 20, 1_048_575, 524_288, 320_000]);
        s.load("large", p, limit, &l.encode().bytes);
        say!(s, "fingerprint {p} 5");
    }
    let (p, q) = *rng.pick(&[(0, 1), (1, 0)]);
    say!(s, "merge {p} {q}");
    confirmations(s, rng, p, &a, 4);
    hint_calls(s, rng, p, &a, reading.k, 6);
    say!(s, "merge {q} {p}");
    say!(s, "save {q} {}", *rng.pick(&[1_600_000, 8_388_608]));
    say!(s, "reload {q} {}", *rng.pick(&[1u64 << 21, 1 << 20, 300_000]));
}

/// Lists of one reading that is longer, or has longer frames or more malformed sectors, than the usual tables hold.
fn large_lists(s: &mut Script<'_>, rng: &mut Rng, shape: Shape) {
    let mut reading = Reading::random(rng, shape);
    reading.sector_digests();
    let b = reading.checkpoints.len();
    let places = rng.range(2, 4) as usize;
    for p in 0..places {
        let complete = rng.chance(1, 3);
        let n = if complete || rng.chance(1, 4) { b } else { rng.below(b as u64 + 1) as usize };
        let keep = *rng.pick(&[4, 8, 8]);
        let mut l = reading.cut(rng, n, complete, keep);
        let most = *rng.pick(&[1_048_576, 1_048_576, 1_048_577]);
        l.budget = (l.used() + *rng.pick(&[0, 1, 70_000, 200_000, 1_000_000])).min(most);
        say!(s, "area {p} {}", l.area.words());
        let limit = *rng.pick(&[1 << 21, 1 << 21, 1 << 20, 131_073, 200_000]);
        s.load("large", p, limit, &l.encode().bytes);
        if n < b && rng.chance(1, 2) {
            // A recorder from the frontier, or from a little before it.
            let from = reading.lsn((n.saturating_sub(rng.range(1, 3) as usize)).min(b));
            say!(s, "recorder {p} {from}");
            for j in n..(n + rng.below(40) as usize).min(b) {
                record(s, rng, p, &reading, j, false);
            }
            let all = rng.chance(1, 2);
            absorb(s, rng, p, p, &reading, b.saturating_sub(1), all);
        }
    }
    for _ in 0..rng.range(2, 6) {
        let p = rng.below(places as u64) as usize;
        let q = (p + 1 + rng.below(places as u64 - 1) as usize) % places;
        if rng.chance(3, 4) {
            say!(s, "merge {p} {q}");
        } else {
            say!(s, "reload {p} {}", *rng.pick(&[1 << 20, 131_073, 70_000]));
        }
        let whole = reading.cut(rng, b, true, 0);
        plans(s, rng, p, &whole, 3);
    }
    say!(s, "save 0 {}", *rng.pick(&[1_000_000, 8_388_608]));
}

/// An area whose length is nearly 2^32, and ends of ranges at which the end of the read reaches 2^64.
fn large_saturates(s: &mut Script<'_>, rng: &mut Rng) {
    let start = rng.below(3) as u32;
    let a = AreaNumbers::new(1, start, u32::MAX - 1 - rng.below(3) as u32, 6, 1 << 33);
    let len = u128::from(a.end - a.start);
    fresh(s, 0, &a, (65_536, 0, 8, *rng.pick(&[1, 4, 2048])));
    let hints: Vec<(u64, u32)> = (0..3).map(|i| (a.start + rng.below(1 << 30) + (i << 30), 3 * i as u32)).collect();
    say_hints(s, 0, &hints);
    let most = u32::try_from((1u128 << 64) * 4 / 5 / len).unwrap_or(u32::MAX);
    for _ in 0..8 {
        let t = rng.pick(&hints).1;
        let end = match rng.below(3) {
            0 => u32::MAX - rng.below(3) as u32,
            _ => (most + t + rng.below(7) as u32).saturating_sub(3),
        };
        say!(s, "hint 0 {} {end} {}", t + rng.range(1, 60) as u32, *rng.pick(&[0, 1, 1, 2]));
    }
    // More boundaries than the tables hold.
    say!(s, "new 0 {} 0 8 4", *rng.pick(&[65_536, 65_535]));
}

/// A hint recorder up to its bound and past it.
fn large_seen(s: &mut Script<'_>, rng: &mut Rng) {
    let a = AreaNumbers::new(0, 1000, 1000 + rng.range(140_000, 400_000) as u32, 2, 1 << 21);
    let (spacing, rise) = *rng.pick(&[(1, 1), (8, 8), (8, 40), (1, 1_166_880), (75, 0), (u32::MAX, 1)]);
    fresh(s, 0, &a, (65_536, 0, u64::from(spacing), *rng.pick(&[65_536, 65_536, 65_535, 2048, 3])));
    say!(s, "hint_recorder 0");
    let first = rng.range(65_530, 65_536);
    say!(s, "see_many {first} {} 1 {} {rise}", a.start, rng.below(1000));
    for _ in 0..rng.range(2, 8) {
        let lsn = a.start + rng.range(65_536, 130_000);
        match rng.below(5) {
            0 => say!(s, "flush"),
            1 => say!(s, "see_many {} {lsn} {} {} {rise}", rng.range(1, 20), rng.below(3), rng.below(1_166_881)),
            2 => say!(s, "see_bytes {lsn} 04{:02x}0000", rng.below(200)),
            _ => say!(s, "see {lsn} 04{:02x}{:02x}07", rng.below(200), rng.below(60)),
        }
    }
    say!(s, "flush");
    say!(s, "take 0");
    say!(s, "see {} 0400000{}", a.start + 3, rng.below(9));
    say!(s, "flush");
    say!(s, "take 0");
}

/// An M at and above its bound, in tables that are long enough for it and not.
fn large_broken(s: &mut Script<'_>, rng: &mut Rng) {
    let shape = Shape { boundaries: rng.range(2, 5), k: 65_536, under: 4, frame_bytes: 100, malformed: 3 };
    let mut reading = Reading::random(rng, shape);
    reading.sector_digests();
    let mut l = reading.cut(rng, 2, false, 8);
    l.most = 65_536;
    l.fingerprint = Some(5);
    l.confirmations = l.lsns(rng, 9).iter().map(|&x| (x, 7, 1)).collect();
    for p in 0..2 {
        say!(s, "area {p} {}", l.area.words());
        s.load("large", p, 1 << 21, &l.encode().bytes);
    }
    for _ in 0..12 {
        let most = *rng.pick(&[65_536, 262_145, 262_145, 262_600, 262_601, u64::from(u32::MAX)]);
        if most > 65_536 {
            say!(s, "edit 0 12 10 {most}");
        }
        let short = *rng.pick(&[0, 0, 1, 8, 16]);
        let (t, need) = *rng.pick(&[(5, 8 * (most + 262_144)), (6, 16 * (most + 1))]);
        if most < 262_601 {
            say!(s, "lend 0 {t} {}", need - short);
        }
        match rng.below(5) {
            0 | 1 => say!(s, "merge {}", *rng.pick(&["0 1", "1 0"])),
            2 => say!(s, "confirm 0 {} 5 6", l.area.start),
            3 => say!(s, "add_hints 0 1 {} 6", l.area.start),
            _ => say!(s, "save 0 10000"),
        }
    }
}

fn large(s: &mut Script<'_>, rng: &mut Rng) {
    let usual = Shape { boundaries: 5, k: 64, under: 6, frame_bytes: 100, malformed: 3 };
    match rng.below(16) {
        0..=2 => large_hints(s, rng),
        3 => large_files(s, rng),
        4 | 5 => {
            let boundaries = *rng.pick(&[1024, 1025, 2000, 7400, 16_384, 65_535, 65_536, 65_537]);
            let (k, under) = (*rng.pick(&[1, 2, 33, 64]), rng.below(4));
            large_lists(s, rng, Shape { boundaries, k, under, frame_bytes: 30, ..usual });
        }
        6..=8 => large_seen(s, rng),
        9 | 10 => large_saturates(s, rng),
        11..=13 => large_broken(s, rng),
        14 => {
            let (boundaries, frame_bytes) = (rng.range(20, 60), *rng.pick(&[20_000, 65_536]));
            large_lists(s, rng, Shape { boundaries, k: 100, under: 7, frame_bytes, malformed: 0 });
        }
        _ => {
            let (boundaries, malformed) = (rng.range(3, 30), rng.range(4000, 12_000));
            large_lists(s, rng, Shape { boundaries, k: 4096, malformed, ..usual });
        }
    }
}

/// The frame number at a place of the area: all equal, falling, rising, in ties, in waves or scattered.
fn numbered(i: u64, form: u64) -> u32 {
    let n = match form {
        0 => 100,
        1 => 20_000 - i.min(20_000),
        2 => i,
        3 => i / 7,
        4 => i % 90,
        5 => 3 * i,
        _ => (i * 7919) % 5000,
    };
    (n % u64::from(LIM)) as u32
}

/// A list of hints in the area: rising, reversed, with two changed places, or in no order; some of them more than once.
fn hints_of(rng: &mut Rng, a: &AreaNumbers, form: u64, count: u64) -> Vec<(u64, u32)> {
    let len = a.end - a.start;
    let mut out: Vec<(u64, u32)> =
        (0..count).map(|_| rng.below(len)).map(|i| (a.start + i, numbered(i, form))).collect();
    if rng.chance(3, 4) {
        out.sort_unstable();
        out.dedup();
    }
    match rng.below(6) {
        0 => out.reverse(),
        1 if out.len() > 1 => {
            let (i, j) = (rng.below(out.len() as u64) as usize, rng.below(out.len() as u64) as usize);
            out.swap(i, j);
        }
        2 if !out.is_empty() => {
            let h = *rng.pick(&out);
            out.push(h);
        }
        _ => {}
    }
    out
}

fn hints(s: &mut Script<'_>, rng: &mut Rng, small: bool) {
    let len = if small || rng.chance(9, 10) { rng.range(1, 300) } else { rng.range(300, 20_000) } as u32;
    let start = rng.range(500, 600_000) as u32;
    let a = AreaNumbers::new(0, start, start + len - 1, 2, u64::from(start + len) + rng.below(100));
    let form = rng.below(7);
    let mut known: Vec<(u64, u32)> = vec![(a.start, numbered(0, form))];
    for p in 0..2 {
        let most = *rng.pick(&[0, 1, 2, 3, 4, 5, 8, 2048, 16_384]);
        fresh(s, p, &a, (65_536, 0, *rng.pick(&[0, 1, 2, 8, 75]), most));
        if rng.chance(2, 3) {
            say!(s, "fingerprint {p} 5");
        }
        for _ in 0..rng.range(1, 4) {
            let near = (most + rng.below(4)).saturating_sub(1);
            let count = *rng.pick(&[0, 1, 2, 3, near.min(40), near.min(40), 2 * most.min(20)]);
            let count = if !small && rng.chance(1, 60) { *rng.pick(&[near.min(4095), 4095]) } else { count };
            let list = hints_of(rng, &a, form, count);
            say_hints(s, p, &list);
            if !list.is_empty() {
                known = list;
            }
            for _ in 0..rng.below(4) {
                let (lsn, t) = *rng.pick(&known);
                let u = (u64::from(t) + rng.below(130)).saturating_sub(1) as u32;
                say!(s, "confirm {p} {lsn} {u} {}", rng.below(2));
            }
        }
        ask_near(s, rng, p, &known, 6);
    }
    say!(s, "hint_recorder {}", rng.below(2));
    let mut i = rng.below(u64::from(len));
    for _ in 0..rng.below(12) {
        let t = numbered(i, form);
        say!(s, "see {} 04{:02x}{:02x}{:02x}", a.start + i, t / 4500, t / 75 % 60, t % 75);
        i = (i + rng.below(3)) % u64::from(len);
    }
    say!(s, "flush");
    say!(s, "take 0");
    let (p, q) = *rng.pick(&[(0, 1), (1, 0)]);
    say!(s, "merge {p} {q}");
    ask_near(s, rng, p, &known, 6);
    say!(s, "reload {p} {}", *rng.pick(&[0, 8, 16, 24, 64, 100, 16_384, 131_072]));
    say!(s, "merge {q} {p}");
    say!(s, "save {q} 200000");
}

/// `hint` for frames at the reach of a hint, or one more or less, over ranges of about a reach.
fn ask_near(s: &mut Script<'_>, rng: &mut Rng, p: usize, known: &[(u64, u32)], count: u64) {
    for _ in 0..count {
        let t = rng.pick(known).1;
        let first = t.saturating_add(*rng.pick(&[0, 1, 2, 30, 63, 64, 65]));
        let end =
            if rng.chance(1, 3) { rng.pick(known).1.saturating_sub(*rng.pick(&[0, 1, 63, 64, 65])) } else { first };
        let end = end.max(first).saturating_add(*rng.pick(&[0, 0, 1, 2, 3, 64]));
        say!(s, "hint {p} {first} {end} {}", *rng.pick(&[0, 1, 75, 1000, 270_000]));
    }
}

/// Lists and recorders of two readings of one area, merged and absorbed in any order.
fn unrelated(s: &mut Script<'_>, rng: &mut Rng) {
    let shape = Shape {
        boundaries: rng.range(0, 8),
        k: *rng.pick(&[1, 2, 33, 64]),
        under: *rng.pick(&[0, 4, 8]),
        frame_bytes: 20,
        malformed: *rng.pick(&[0, 3, 10]),
    };
    let first = Reading::random(rng, shape);
    let second = Reading::of(rng, shape, first.area);
    let mut readings = [first, second];
    for r in &mut readings {
        r.sector_digests();
    }
    let b = readings[0].checkpoints.len();
    let places = rng.range(2, 4) as usize;
    for p in 0..places {
        let r = rng.pick(&readings).clone();
        let complete = rng.chance(1, 4);
        let n = if complete { b } else { rng.below(b as u64 + 1) as usize };
        let mut l = r.cut(rng, n, complete, 8);
        l.budget += *rng.pick(&[0, 10, 200]);
        l.most = *rng.pick(&[0, 3, 40]);
        l.fingerprint = rng.chance(1, 3).then(|| rng.below(2));
        say!(s, "area {p} {}", l.area.words());
        s.load("unrelated", p, 131_072, &l.encode().bytes);
        if rng.chance(1, 2) {
            say!(s, "recorder {p} {}", r.lsn(n.saturating_sub(1)));
            let other = rng.pick(&readings).clone();
            for j in n..(n + rng.below(4) as usize).min(b) {
                record(s, rng, p, &other, j, false);
            }
            if rng.chance(1, 2) {
                say!(s, "finish {p} {} {}", other.end.0, other.end.1);
            }
            let q = rng.below(p as u64 + 1) as usize;
            absorb_below(s, q, p, &other, u64::MAX);
        }
    }
    for _ in 0..rng.range(3, 10) {
        let p = rng.below(places as u64) as usize;
        let q = (p + 1 + rng.below(places as u64 - 1) as usize) % places;
        match rng.below(8) {
            0 => say!(s, "reload {p} {}", *rng.pick(&[0, 20, 131_072])),
            1 => say!(s, "save {p} 8192"),
            2 => {
                let whole = readings[0].cut(rng, b, true, 0);
                plans(s, rng, p, &whole, 2);
            }
            _ => say!(s, "merge {p} {q}"),
        }
    }
}
