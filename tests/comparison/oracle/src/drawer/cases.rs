//! Sets from a seed: lists of one reading, and of others; files and lengths that are damaged; tables that are too short.

use super::counts::Counts;
use super::model::{File, MOST, Set};
use crate::damage;
use crate::disc::cases::{Case, edit};
use crate::disc::model::{ROOM, body, enough, needs};
use crate::file::{List, Reading};
use crate::generate;
use crate::rng::Rng;
use crate::seek::AreaIndex;

/// A reading, and one that differs from it in one checkpoint or at the end.
pub struct Source {
    readings: [Reading; 2],
    fingerprint: Option<u64>,
    /// Of the lists some have other frame numbers at their hints' LSNs.
    newer: bool,
    /// Every file is the shortest: 88 bytes.
    shortest: bool,
}

pub fn source(rng: &mut Rng, small: bool) -> Source {
    let mut shape = generate::shape(rng, small);
    shape.frame_bytes = shape.frame_bytes.min(500);
    let mut reading = Reading::random(rng, shape);
    reading.free_digests(rng);
    let mut other = reading.clone();
    let b = other.checkpoints.len() as u64;
    if b == 0 || rng.chance(1, 4) {
        other.end.1 += 1;
    } else {
        let c = &mut other.checkpoints[rng.below(b) as usize];
        match rng.below(3) {
            0 => c.digest ^= 1,
            1 => c.digest ^= 1 << 63,
            _ => c.thr = c.thr.saturating_sub(1),
        }
    }
    Source {
        readings: [reading, other],
        fingerprint: rng.chance(2, 3).then(|| rng.below(3)),
        newer: rng.chance(1, 8),
        shortest: rng.chance(1, 25),
    }
}

/// What sets a list apart from those of the reading.
#[derive(Clone, Copy, PartialEq)]
enum Other {
    No,
    Reading,
    Interval,
    Fingerprint,
}

fn list(rng: &mut Rng, src: &Source, other: Other) -> List {
    let reading = &src.readings[usize::from(other == Other::Reading)];
    let b = reading.checkpoints.len();
    let complete = rng.chance(1, 3);
    let n = if complete || rng.chance(1, 5) { b } else { rng.below(b as u64 + 1) as usize };
    let keep = *rng.pick(&[0, 4, 8, 8]);
    let mut l = reading.cut(rng, n, complete, keep);
    if other == Other::Interval {
        let k = if l.k > 1 && rng.chance(1, 2) { l.k - 1 } else { l.k % 65_536 + 1 };
        let n = l.checkpoints.len().min(1);
        l = List {
            k,
            checkpoints: l.checkpoints[..n].to_vec(),
            parts: vec![],
            frames: vec![],
            end: None,
            malformed: vec![],
            ..l
        };
    }
    if src.shortest {
        return List {
            checkpoints: vec![],
            parts: vec![],
            frames: vec![],
            end: None,
            malformed: vec![],
            budget: 0,
            ..l
        };
    }
    dress(rng, src, &mut l, other);
    l
}

fn dress(rng: &mut Rng, src: &Source, l: &mut List, other: Other) {
    l.budget = l.used() + *rng.pick(&[0, 0, 5, 50, 3000, 60_000]);
    l.spacing = *rng.pick(&[8, 8, 0, 75]);
    l.most = *rng.pick(&[2048, 2048, 2048, 4096, 40, 6, 4, 1, 0]);
    if rng.chance(1, 30) {
        l.lengthen(rng);
    }
    let count = if rng.chance(1, 3) { 0 } else { rng.below(u64::from(l.most).min(12) + 1) };
    let shift = if src.newer { rng.below(3) } else { 0 };
    let number = |lsn: u32| ((u64::from(lsn) - l.area.start) * 7 + shift) % 5000;
    l.hints = l.lsns(rng, count).into_iter().map(|lsn| (lsn, number(lsn) as u32)).collect();
    l.fingerprint = src.fingerprint.filter(|_| rng.chance(2, 3));
    if other == Other::Fingerprint {
        l.fingerprint = Some(src.fingerprint.unwrap_or(7) + 77);
    }
    if l.fingerprint.is_some() && l.most > 0 && rng.chance(1, 2) {
        let count = u64::from(l.most).min(8);
        l.confirmations = l.lsns(rng, count).iter().map(|&x| (x, rng.below(100) as u32, rng.below(3))).collect();
    }
}

/// What is to be refused.
#[derive(Default)]
struct Plan {
    own: bool,
    size: bool,
    files: bool,
    lengths: bool,
    rooms: bool,
    pairs: bool,
}

fn plan(rng: &mut Rng) -> Plan {
    let mut p = Plan::default();
    for _ in 0..if rng.chance(1, 5) { 2 } else { 1 } {
        match rng.below(100) {
            0..=31 => {}
            32..=38 => p.own = true,
            39..=42 => p.size = true,
            43..=57 => p.files = true,
            58..=68 => p.lengths = true,
            69..=78 => p.rooms = true,
            _ => p.pairs = true,
        }
    }
    p
}

fn count(rng: &mut Rng, size: bool) -> usize {
    let n = match rng.below(12) {
        _ if size => *rng.pick(&[0, 0, 17, 17, 18, 40]),
        0..=2 => 1,
        3 | 4 => 2,
        5 | 6 => 3,
        7 | 8 => rng.range(4, 8),
        9 | 10 => rng.range(9, 15),
        _ => 16,
    };
    n as usize
}

/// Which lists are of another reading, interval or fingerprint: the own one is the first.
fn others(rng: &mut Rng, n: usize, pairs: bool) -> Vec<Other> {
    let mut out = vec![Other::No; n + 1];
    for _ in 0..if pairs { rng.range(1, 4) } else { 0 } {
        out[rng.below(n as u64 + 1) as usize] =
            *rng.pick(&[Other::Reading, Other::Reading, Other::Reading, Other::Interval, Other::Fingerprint]);
    }
    out
}

/// The files of a set: some damaged, some twice.
fn files(rng: &mut Rng, lists: &[List], damaged: bool) -> Vec<Vec<u8>> {
    let mut out: Vec<Vec<u8>> = lists.iter().map(|l| l.encode().bytes).collect();
    for _ in 0..if damaged && !out.is_empty() { rng.range(1, 3) } else { 0 } {
        let i = rng.below(out.len() as u64) as usize;
        let file = lists[i].encode();
        out[i] = match rng.below(8) {
            0 => damage::tiny(&file, rng),
            1 => Vec::new(),
            2 => damage::reshaped(&file, rng).0,
            _ => damage::damaged(&file, rng).0,
        };
    }
    if out.len() > 1 && rng.chance(1, 6) {
        let (i, j) = (rng.below(out.len() as u64) as usize, rng.below(out.len() as u64) as usize);
        out[i] = out[j].clone();
    }
    out
}

/// A length changed; answers how.
fn change_length(rng: &mut Rng, set: &mut Set) -> &'static str {
    let i = rng.below(set.lengths.len() as u64) as usize;
    let before: u64 = set.lengths[..i].iter().fold(0, |a, b| a.wrapping_add(*b));
    let left = (set.buffer.len() as u64).wrapping_sub(before);
    match rng.below(10) {
        9 => {
            set.lengths[i] += 1 << rng.range(32, 63);
            "2^32 to 2^63 more"
        }
        0 | 1 => {
            set.lengths[i] = left.wrapping_add(1);
            "one byte past the buffer"
        }
        2 => {
            set.lengths[i] = u64::MAX;
            "2^64 - 1"
        }
        3 | 4 => {
            // The end of the file, modulo 2^64, lies in the buffer: at its own end, at the beginning, or anywhere.
            let end = *rng.pick(&[0, before / 2, set.buffer.len() as u64]);
            set.lengths[i] = end.wrapping_sub(before);
            if end < before { "the sum wraps" } else { "the rest of the buffer" }
        }
        5 => {
            set.buffer.pop();
            "the buffer is a byte shorter"
        }
        6 => {
            set.lengths[i] = set.lengths[i].wrapping_sub(1);
            "a byte shorter"
        }
        7 => {
            set.lengths[i] = set.lengths[i].wrapping_add(1);
            "a byte longer"
        }
        _ => {
            set.lengths[i] = *rng.pick(&[0, 0, 1, 79, 87, 88]);
            "a short one"
        }
    }
}

/// The lengths of the working tables: the largest that a file needs, or a little more; with `short` one is too short for one of the files that load, and long enough for those before.
fn work_for(rng: &mut Rng, files: &[File], short: bool) -> [u64; 7] {
    let mut work = [0; 7];
    let (mut seams, mut some) = (Vec::new(), Vec::new());
    for (i, ix) in files.iter().enumerate().filter_map(|(i, f)| f.list().map(|ix| (i, ix))) {
        let need = needs(ix);
        for k in 0..7 {
            if need[k] > work[k] {
                some.push((k, work[k], need[k]));
                if i > 0 && work[k] > 0 {
                    seams.push((k, work[k], need[k]));
                }
                work[k] = need[k];
            }
        }
    }
    if rng.chance(1, 3) {
        work = work.map(|n| n + rng.below(40));
    }
    if short && rng.chance(1, 8) {
        return [0; 7];
    }
    let from = if !seams.is_empty() && rng.chance(3, 4) { &seams } else { &some };
    if short && !from.is_empty() {
        let &(k, low, high) = rng.pick(from);
        work[k] = if rng.chance(1, 2) { high - 1 } else { rng.range(low, high - 1) };
    }
    for (l, most) in work.iter_mut().zip(ROOM) {
        *l = (*l).min(most);
    }
    work
}

fn lent_for(rng: &mut Rng, ix: &AreaIndex) -> [u64; 7] {
    let need = needs(ix);
    if rng.chance(1, 3) { need.map(|n| n + rng.below(40)) } else { need }
}

/// The own list: its numbers that no file has, and what 1 to 4 refuse.
fn own(rng: &mut Rng, src: &Source, set: &mut Set, refused: bool) -> Option<AreaIndex> {
    let ix = body(&set.area, &set.own, set.own_limit).ok()?;
    set.lent = lent_for(rng, &ix);
    if set.lent.iter().zip(ROOM).any(|(l, room)| *l > room) {
        return None;
    }
    set.stated = src.fingerprint.filter(|_| rng.chance(1, 2));
    set.image = (!refused && rng.chance(1, 6)).then(|| rng.below(3));
    let ix = match set.own_list() {
        Some(ix) => ix,
        None => {
            set.stated = None;
            set.own_list()?
        }
    };
    if refused && rng.chance(1, 8) {
        set.head = rng.below(192);
    } else if refused {
        let mut e = edit(rng, &set.area, &ix);
        while e.number == 0 {
            e = edit(rng, &set.area, &ix);
        }
        set.edit = Some(e);
    }
    Some(ix)
}

/// A set with its answer; None where its own list is not loaded, or the original leaves open what it gives.
pub fn set_case(rng: &mut Rng, src: &Source, counts: &mut Counts) -> Option<Case> {
    let plan = plan(rng);
    let n = if src.shortest && !plan.size && rng.chance(1, 2) { MOST } else { count(rng, plan.size) };
    let lists: Vec<List> = others(rng, n, plan.pairs).into_iter().map(|o| list(rng, src, o)).collect();
    let files = files(rng, &lists[1..], plan.files);
    let of = rng.pick(&lists).clone();
    let mut set = Set {
        area: src.readings[0].area,
        own: lists[0].encode().bytes,
        own_limit: *rng.pick(&[u64::MAX, 131_072, 131_072, 64, 0]),
        lent: [0; 7],
        stated: None,
        image: None,
        edit: None,
        head: 192,
        lengths: files.iter().map(|f| f.len() as u64).collect(),
        rest: vec![],
        buffer: files.concat(),
        limit: if rng.chance(1, 2) { *rng.pick(&[u64::MAX, u64::MAX, 0]) } else { generate::limit(rng, &of) },
        work: [0; 7],
    };
    if rng.chance(1, 4) {
        set.buffer.extend((0..rng.range(1, 30)).map(|_| rng.below(256) as u8));
    }
    if rng.chance(1, 8) {
        set.rest = (0..rng.range(1, 7)).map(|_| rng.below(256) as u8).collect();
    }
    if set.buffer.len() > 1 << 19 {
        return None;
    }
    let length = (plan.lengths && n > 0).then(|| change_length(rng, &mut set));
    let own = own(rng, src, &mut set, plan.own)?;
    let found = set.files();
    set.work = work_for(rng, &found, plan.rooms);
    let answer = set.find(&own, &found)?;
    counts.set(&set, &own, &found, &answer, length);
    Some((set.line(), set.answer(&answer)))
}

/// Whether the working tables are too short for a file, or only for a later one.
pub fn fits(set: &Set, f: &File) -> bool {
    f.list().is_some_and(|ix| enough(&set.work, &needs(ix)))
}
