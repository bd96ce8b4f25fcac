//! Scripts of kind lent: all calls over tables that are lent too short or exactly long enough, and over lists and recorders
//! of which a byte or a number is edited.

use super::*;
use crate::lent::{BLOCK, HEAD, HINT_BLOCK, HINTS, RECORDS, SEEN, WIDTHS, needs, rooms};

/// What a call asks 1 to 4 of: a list, a recorder, the hint recorder, or the tables of a list that is to be made.
pub enum Asked<'a> {
    List(usize, &'a List),
    Recorder(usize, &'a List),
    Hints,
    Tables(usize, &'a List),
}

fn boundaries(l: &List) -> u64 {
    (l.area.end - l.area.start).div_ceil(u64::from(l.k))
}

/// A length near what a table needs.
fn near(rng: &mut Rng, need: u64, width: u64) -> u64 {
    match rng.below(8) {
        0 | 1 => need.saturating_sub(1),
        2 | 3 => need.saturating_sub(width),
        4 | 5 => need,
        6 => rng.below(need + 1),
        _ => need + rng.below(2 * width),
    }
}

fn lend(s: &mut Script<'_>, p: usize, t: usize, n: u64) {
    say!(s, "lend {p} {t} {}", n.min(rooms(sizes())[t] as u64));
}

/// Tables of the lengths that question 3 asks for, but for some.
fn lend_tables(s: &mut Script<'_>, rng: &mut Rng, p: usize, first: usize, needs: &[u64]) {
    let one = rng.below(needs.len() as u64) as usize;
    let (all, short) = (rng.chance(1, 4), rng.chance(2, 3));
    for (i, &need) in needs.iter().enumerate() {
        let width = WIDTHS[first + i] as u64;
        if i == one && short {
            lend(s, p, first + i, near(rng, need, width));
        } else if all || i == one {
            lend(s, p, first + i, need);
        }
    }
}

fn edit(s: &mut Script<'_>, p: usize, t: usize, at: u64, v: u64) {
    say!(s, "edit {p} {t} {at} {v}");
}

/// A byte of one of a table's records.
fn edit_record(s: &mut Script<'_>, rng: &mut Rng, p: usize, t: usize, count: usize, fields: u64) {
    if count == 0 {
        return;
    }
    // Mostly the last bytes of a number, so that it becomes too large.
    let (i, at) = (rng.below(count as u64), rng.below(fields));
    let at = if rng.chance(1, 2) { at | 3 } else { at };
    let v = if rng.chance(1, 2) { rng.below(256) } else { *rng.pick(&[0, 1, 2, 255]) };
    // A hint's last byte in a list's table is its mark: with 1 the hint is kept, which the original does not know.
    let v = if t == HINTS && at == 7 && v == 1 { 2 } else { v };
    edit(s, p, t, WIDTHS[t] as u64 * i + at.min(WIDTHS[t] as u64 - 1), v);
}

/// A slot or a range that question 1 refuses, or numbers that 2 refuses.
fn edit_numbers(s: &mut Script<'_>, rng: &mut Rng, p: usize, block: usize, l: &List) {
    match rng.below(6) {
        0 | 1 => edit(s, p, block, 0, *rng.pick(&[2, 3, 255])),
        2 => edit(s, p, block, 5, l.area.end + 1),
        3 => edit(s, p, block, 6, *rng.pick(&[1 << 32, u64::MAX])),
        4 => edit(s, p, block, 7, *rng.pick(&[0, 65_537, u64::from(u32::MAX)])),
        _ => edit(s, p, block, 8, *rng.pick(&[1 << 32, u64::MAX])),
    }
}

/// A word wider than its number, with the number in its low bytes, a mark that there is not, or a number behind a mark of 0: no
/// head.
fn edit_head(s: &mut Script<'_>, rng: &mut Rng, p: usize, l: &List) {
    let wide = 1 << rng.range(32, 63);
    let counts =
        [l.checkpoints.len(), l.frames.len(), l.parts.len(), l.malformed.len(), l.hints.len(), l.confirmations.len()];
    let (i, v) = match rng.below(8) {
        0 => (rng.below(2), 1 << rng.range(8, 63)),
        1 => (rng.range(2, 3), wide),
        2 => (7, wide | u64::from(l.k)),
        3 => *rng.pick(&[(9, wide | u64::from(l.spacing)), (10, wide | u64::from(l.most))]),
        4 => {
            let i = rng.below(6);
            (11 + i, wide | counts[i as usize] as u64)
        }
        5 => (17, *rng.pick(&[2, 255, 256])),
        6 => (*rng.pick(&[18, 19, 21, 23]), wide | 1),
        _ => *rng.pick(&[(20, 3), (20, wide), (22, 2), (22, wide)]),
    };
    edit(s, p, HEAD, i, v);
}

/// The same of a recorder's block.
fn edit_block(s: &mut Script<'_>, rng: &mut Rng, p: usize, l: &List) {
    let wide = 1 << rng.range(32, 63);
    let (i, v) = match rng.below(7) {
        0 => (rng.below(2), 1 << rng.range(8, 63)),
        1 => (rng.range(2, 3), wide),
        2 => (7, wide | u64::from(l.k)),
        3 => (9, wide),
        4 => (rng.range(11, 13), wide | rng.below(2)),
        5 => *rng.pick(&[(14, 3), (14, wide), (15, wide), (15, 1), (16, 1)]),
        _ => (rng.range(17, 23), 1),
    };
    edit(s, p, BLOCK, i, v);
}

fn one_off(rng: &mut Rng, n: usize) -> u64 {
    let n = n as u64;
    *rng.pick(&[n.saturating_sub(1), n + 1, n + 1, 1025, 65_537, u64::from(u32::MAX)])
}

fn edit_list(s: &mut Script<'_>, rng: &mut Rng, p: usize, l: &List) {
    let counts =
        [l.checkpoints.len(), l.frames.len(), l.parts.len(), l.malformed.len(), l.hints.len(), l.confirmations.len()];
    match rng.below(16) {
        0..=2 => edit_numbers(s, rng, p, HEAD, l),
        14 | 15 => edit_head(s, rng, p, l),
        3 => edit_record(s, rng, p, 0, counts[0], 16),
        4 => edit_record(s, rng, p, 1, counts[1], 8),
        5 => edit_record(s, rng, p, 3, counts[2], 16),
        6 => {
            let part = rng.below(counts[2].max(1) as u64);
            edit(s, p, 3, 24 * part + rng.range(20, 23), *rng.pick(&[2, 255]));
        }
        7 => edit_record(s, rng, p, 4, counts[3], 4),
        8 => edit_record(s, rng, p, 5, counts[4], 8),
        9 => edit_record(s, rng, p, 6, counts[5], 8),
        10 => {
            let most = *rng.pick(&[counts[4], counts[5], 1]) as u64;
            edit(s, p, HEAD, 10, *rng.pick(&[most.saturating_sub(1), 0, 262_145, u64::from(u32::MAX)]));
        }
        11 => {
            let i = rng.below(6);
            edit(s, p, HEAD, 11 + i, one_off(rng, counts[i as usize]));
        }
        12 => {
            let (i, v) = *rng.pick(&[(17, 1), (17, 0), (18, u64::from(LIM) + 1), (18, 0), (19, u64::MAX), (19, 0)]);
            edit(s, p, HEAD, i, v);
        }
        _ if rng.chance(1, 2) => {
            // The fingerprint's mark and value: a list that has confirmations without one.
            edit(s, p, HEAD, 20, 0);
            edit(s, p, HEAD, 21, 0);
        }
        _ => edit(s, p, HEAD, 8, l.used().saturating_sub(1)),
    }
}

fn edit_recorder(s: &mut Script<'_>, rng: &mut Rng, p: usize, l: &List) {
    // How many records it has is not known here.
    let count = rng.range(1, 3) as usize;
    match rng.below(10) {
        0..=2 => edit_numbers(s, rng, p, BLOCK, l),
        9 => edit_block(s, rng, p, l),
        3 => edit_record(s, rng, p, RECORDS, count, 16),
        4 => edit_record(s, rng, p, RECORDS + 1, 1, 8),
        5 => edit_record(s, rng, p, RECORDS + 3, 1, 24),
        6 => edit(s, p, BLOCK, 9, one_off(rng, l.checkpoints.len())),
        7 => {
            let i = rng.range(11, 13);
            let n = rng.below(3) as usize;
            edit(s, p, BLOCK, i, one_off(rng, n));
        }
        _ => {
            let (i, v) = *rng.pick(&[(14, 1), (15, u64::from(LIM) + 1), (16, u64::MAX), (8, 0)]);
            edit(s, p, BLOCK, i, v);
        }
    }
}

/// What is lent and edited of an object.
pub fn trouble(s: &mut Script<'_>, rng: &mut Rng, asked: &Asked<'_>) {
    let (lends, edits) =
        *rng.pick(&[(true, false), (true, false), (false, true), (false, true), (true, true), (false, false)]);
    match asked {
        Asked::List(p, l) | Asked::Tables(p, l) => {
            if lends {
                let needs = needs(boundaries(l), l.budget, u64::from(l.most));
                lend_tables(s, rng, *p, 0, &needs);
            }
            if edits && matches!(asked, Asked::List(..)) {
                edit_list(s, rng, *p, l);
            }
        }
        Asked::Recorder(p, l) => {
            if lends {
                let needs = needs(boundaries(l), l.budget, u64::from(l.most));
                lend_tables(s, rng, *p, RECORDS, &needs[..4]);
            }
            if edits {
                edit_recorder(s, rng, *p, l);
            }
        }
        Asked::Hints => {
            if lends {
                lend_tables(s, rng, 0, SEEN, &[524_288]);
            }
            if edits {
                edit(s, 0, HINT_BLOCK, 6, *rng.pick(&[65_537, u64::from(u32::MAX), 1 << 32, u64::MAX]));
            }
        }
    }
}

/// A list of the reading with hints and confirmations.
fn held(rng: &mut Rng, reading: &Reading, most: u64) -> List {
    let b = reading.checkpoints.len();
    let complete = rng.chance(1, 5);
    let n = if complete { b } else { rng.below(b as u64 + 1) as usize };
    let mut l = reading.cut(rng, n, complete, 8);
    l.budget = l.used() + *rng.pick(&[0, 1, 40]);
    l.spacing = *rng.pick(&[1, 8]);
    l.most = *rng.pick(&[0, 1, 3, 4, 2048, most]) as u32;
    let mut hints: Vec<(u32, u32)> = hint_list(rng, &reading.area, reading.k, u64::from(l.most).min(12) + 1)
        .into_iter()
        .filter(|h| (reading.area.start..reading.area.end).contains(&h.0))
        .map(|h| (h.0 as u32, h.1))
        .collect();
    hints.sort_unstable();
    hints.dedup();
    hints.truncate(l.most as usize);
    l.hints = hints;
    l.fingerprint = rng.chance(2, 3).then_some(5);
    if l.fingerprint.is_some() && l.most > 0 {
        let count = u64::from(l.most).min(5);
        let lsns = l.lsns(rng, count);
        l.confirmations = lsns.iter().map(|&x| (x, rng.below(100) as u32, rng.below(3))).collect();
    }
    l
}

/// The calls of one list.
fn list_call(s: &mut Script<'_>, rng: &mut Rng, p: usize, l: &List, k: u64) {
    trouble(s, rng, &Asked::List(p, l));
    match rng.below(9) {
        0 => plans(s, rng, p, l, 1),
        1 => say!(s, "save {p} {}", *rng.pick(&[0, 88, 20_000])),
        2 => say!(s, "reload {p} {}", 1u64 << 21),
        3 => say!(s, "fingerprint {p} {}", *rng.pick(&[5, 5, 6])),
        4 => {
            let mut list = hint_list(rng, &l.area, k, 10);
            if rng.chance(1, 4) {
                list.push((l.area.start, LIM));
            }
            say_hints(s, p, &list);
        }
        5 => say!(s, "confirm {p} {} {} 1", l.area.start + rng.below(l.area.end + 3 - l.area.start), rng.below(200)),
        6 => {
            let first = rng.below(300);
            say!(s, "hint {p} {first} {} 1000", (first + rng.below(60)).saturating_sub(*rng.pick(&[0, 0, 60])));
        }
        7 => say!(s, "recorder {p} {}", l.area.start),
        _ => say!(s, "hint_recorder {p}"),
    }
}

/// `record` or `finish`; the recorder was at checkpoint `due` when the script began.
fn record_call(s: &mut Script<'_>, rng: &mut Rng, p: usize, l: &List, r: &Reading, due: usize) {
    let b = r.checkpoints.len();
    trouble(s, rng, &Asked::Recorder(p, l));
    if rng.chance(1, 3) || b == 0 {
        say!(s, "finish {p} {} {}", r.end.0 + u32::from(rng.chance(1, 3)) * LIM, r.end.1);
    } else {
        let j = (due + *rng.pick(&[0, 0, 0, 1, 2])).min(b - 1);
        let wrong = rng.chance(1, 2);
        record(s, rng, p, r, j, wrong);
    }
}

fn hint_recorder_call(s: &mut Script<'_>, rng: &mut Rng, p: usize, l: &List, r: &Reading) {
    trouble(s, rng, &Asked::Hints);
    match rng.below(6) {
        0 => sees(s, rng, &r.area, r.k, 1),
        1 => {
            let n = *rng.pick(&[0, 1, 3, 4, 17, 18, 19, 2047, 2048, 2049, 4096]);
            let mut bytes = vec![0u8; n];
            let head = [*rng.pick(&[0x04, 0x24, 0xe4, 0x20]), 0, 1, 2, 3, 4, 5, 6];
            let m = head.len().min(n);
            bytes[..m].copy_from_slice(&head[..m]);
            say!(s, "see_bytes {} {}", r.area.start + rng.below(50), hex(&bytes));
        }
        2 => say!(
            s,
            "see_many {} {} {} {} {}",
            rng.range(1, 20),
            r.area.start,
            rng.below(3),
            rng.below(1000),
            rng.below(20)
        ),
        3 => say!(s, "flush"),
        _ => {
            trouble(s, rng, &Asked::List(p, l));
            say!(s, "take {p}");
        }
    }
}

/// `absorb` with the reading's malformed LSNs, or with one too few.
fn absorbed(s: &mut Script<'_>, rng: &mut Rng, p: usize, q: usize, r: &Reading) {
    let known = rng.chance(3, 4);
    let id = if known { *rng.pick(&[1, 1, 1, 2]) } else { 0 };
    let n = r.malformed.len().saturating_sub(usize::from(rng.chance(1, 5)));
    let words: String = r.malformed[..n].iter().map(|m| format!(" {m}")).collect();
    say!(s, "absorb {p} {q} {} {id} {n}{words}", u8::from(known));
}

/// `new` and `load` in place 3, whose area may be one that 1 refuses.
fn fresh_call(s: &mut Script<'_>, rng: &mut Rng, l: &List) {
    let refused = rng.chance(1, 6);
    if refused {
        say!(s, "area 3 {}", AreaNumbers::new(rng.range(2, 255) as u8, 10, 20, 2, 100).words());
    }
    trouble(s, rng, &Asked::Tables(3, l));
    if rng.chance(1, 3) {
        // Too short for any list.
        lend(s, 3, *rng.pick(&[4, 5, 6]), 15);
    }
    if rng.chance(1, 3) {
        let k = if rng.chance(1, 4) { *rng.pick(&[0, 65_537]) } else { l.k };
        let budget = if rng.chance(1, 6) { 1 << 32 } else { l.budget };
        say!(s, "new 3 {k} {budget} {} {}", l.spacing, l.most);
    } else {
        let file = l.encode();
        let (bytes, note) =
            if rng.chance(1, 3) { (file.bytes.clone(), "valid".to_string()) } else { damage::damaged(&file, rng) };
        let limit = if rng.chance(1, 4) { limit(rng, l) } else { 1 << 21 };
        s.load(&note, 3, limit, &bytes);
    }
    if refused {
        say!(s, "area 3 {}", l.area.words());
    }
}

pub fn lent(s: &mut Script<'_>, rng: &mut Rng) {
    let shape = Shape {
        boundaries: rng.range(1, 7),
        k: *rng.pick(&[1, 2, 33, 40, 64, 100]),
        under: *rng.pick(&[0, 6, 8]),
        frame_bytes: 12,
        malformed: *rng.pick(&[0, 3, 10]),
    };
    let mut reading = Reading::random(rng, shape);
    reading.sector_digests();
    let most = sizes().most.min(65_536) as u64;
    let (mut lists, mut dues) = (Vec::new(), Vec::new());
    for p in 0..3 {
        let mut own = reading.clone();
        if p == 2 {
            // Another reading, fingerprint or area: 41 to 43, and 9 to 11.
            own = twin(rng, &reading);
        }
        let mut l = held(rng, &own, most);
        if p == 2 && rng.chance(1, 3) {
            l.area.channels ^= 1;
        }
        if p == 2 && l.fingerprint.is_some() && rng.chance(1, 3) {
            l.fingerprint = Some(7);
        }
        say!(s, "area {p} {}", l.area.words());
        s.load("held", p, 1 << 21, &l.encode().bytes);
        if rng.chance(1, 2) {
            say!(s, "fingerprint {p} 5");
        }
        let (n, b) = (l.checkpoints.len(), own.checkpoints.len());
        say!(s, "recorder {p} {}", own.lsn(n.saturating_sub(1)));
        let end = (n + rng.below(4) as usize).min(b);
        for j in n..end {
            record(s, rng, p, &own, j, false);
        }
        if end == b && rng.chance(1, 2) {
            say!(s, "finish {p} {} {}", own.end.0, own.end.1);
        }
        lists.push(l);
        dues.push(end);
    }
    say!(s, "area 3 {}", reading.area.words());
    say!(s, "hint_recorder {}", rng.below(3));
    sees(s, rng, &reading.area, reading.k, 5);
    for _ in 0..rng.range(10, 30) {
        let p = rng.below(3) as usize;
        let q = (p + 1 + rng.below(2) as usize) % 3;
        match rng.below(12) {
            0..=3 => list_call(s, rng, p, &lists[p], reading.k),
            4 | 5 => record_call(s, rng, p, &lists[p], &reading, dues[p]),
            6 => hint_recorder_call(s, rng, p, &lists[p], &reading),
            7 => fresh_call(s, rng, &lists[p]),
            8 | 9 => {
                trouble(s, rng, &Asked::List(p, &lists[p]));
                trouble(s, rng, &Asked::List(q, &lists[q]));
                say!(s, "merge {p} {q}");
            }
            _ => {
                let q = *rng.pick(&[p, p, q]);
                trouble(s, rng, &Asked::List(p, &lists[p]));
                trouble(s, rng, &Asked::Recorder(q, &lists[q]));
                absorbed(s, rng, p, q, &reading);
            }
        }
    }
}
