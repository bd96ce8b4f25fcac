//! Damaged copies of a file. Each kind changes the bytes at a place that the file's layout gives;
//! two kinds can be put on one file, so that the order of the questions shows.

use crate::file::{File, LIM, mend};
use crate::rng::Rng;

type Kind = (&'static str, fn(&mut File, &mut Rng) -> bool);

fn get(f: &File, at: usize) -> u32 {
    u32::from_le_bytes([f.bytes[at], f.bytes[at + 1], f.bytes[at + 2], f.bytes[at + 3]])
}

fn set(f: &mut File, at: usize, v: u32) -> bool {
    if at + 4 > f.bytes.len() {
        return false;
    }
    f.bytes[at..at + 4].copy_from_slice(&v.to_le_bytes());
    true
}

fn set64(f: &mut File, at: usize, v: u64) -> bool {
    set(f, at, v as u32) && set(f, at + 4, (v >> 32) as u32)
}

fn near(rng: &mut Rng, v: u32) -> u32 {
    match rng.below(4) {
        0 => v.wrapping_add(1),
        1 => v.wrapping_sub(1),
        2 => v.wrapping_add(rng.below(100) as u32),
        _ => rng.extreme(),
    }
}

/// A nonzero number at one of the bytes at..at+n.
fn spoil(f: &mut File, rng: &mut Rng, at: usize, n: u64) -> bool {
    let i = at + rng.below(n) as usize;
    if i >= f.bytes.len() {
        return false;
    }
    f.bytes[i] = rng.range(1, 255) as u8;
    true
}

fn checkpoint(f: &File, rng: &mut Rng) -> Option<(usize, u64)> {
    let j = rng.below(f.n as u64);
    (f.n > 0).then_some((80 + 24 * j as usize, j))
}

fn part(f: &File, rng: &mut Rng) -> Option<usize> {
    (f.parts.1 > 0).then(|| f.parts.0 + 24 * rng.below(f.parts.1 as u64) as usize)
}

fn frame(f: &File, rng: &mut Rng) -> Option<usize> {
    (!f.frames.is_empty()).then(|| *rng.pick(&f.frames))
}

fn malformed(f: &File, rng: &mut Rng) -> Option<usize> {
    (f.malformed.1 > 0).then(|| f.malformed.0 + 4 * rng.below(f.malformed.1 as u64) as usize)
}

fn hint(f: &File, rng: &mut Rng) -> Option<usize> {
    (f.hints > 0).then(|| f.hint_header + 24 + 8 * rng.below(f.hints as u64) as usize)
}

fn confirmation(f: &File, rng: &mut Rng) -> Option<usize> {
    (f.confirmations > 0).then(|| f.confirmation_header + 8 + 16 * rng.below(f.confirmations as u64) as usize)
}

/// An LSN at or past an end of the area, or one beside `v`.
fn bad_lsn(f: &File, rng: &mut Rng, v: u32) -> u32 {
    match rng.below(5) {
        0 => (f.area.start as u32).wrapping_sub(1),
        1 => f.area.end as u32,
        2 => (f.area.end as u32).wrapping_add(rng.below(50) as u32),
        3 => f.area.start as u32,
        _ => near(rng, v),
    }
}

fn bad_number(rng: &mut Rng) -> u32 {
    *rng.pick(&[LIM, LIM, LIM + 1, u32::MAX, LIM - 1])
}

/// Exchanges two neighbouring records, or makes them alike.
fn unsort(f: &mut File, rng: &mut Rng, at: usize, width: usize, count: usize) -> bool {
    if count < 2 {
        return false;
    }
    let a = at + width * rng.below(count as u64 - 1) as usize;
    if a + 2 * width > f.bytes.len() {
        return false;
    }
    if rng.chance(1, 2) {
        for i in 0..width {
            f.bytes.swap(a + i, a + width + i);
        }
    } else {
        f.bytes.copy_within(a..a + 4, a + width);
    }
    true
}

macro_rules! or_none {
    ($e:expr) => {
        match $e {
            Some(v) => v,
            None => return false,
        }
    };
}

/// Kinds that leave the length alone.
pub const KINDS: [Kind; 60] = [
    ("magic", |f, r| spoil(f, r, 0, 8)),
    ("version", |f, r| {
        let v = *r.pick(&[0, 5, 5, 0x100, u32::MAX]);
        set(f, 8, v)
    }),
    ("version 1 for more", |f, _| set(f, 8, 1)),
    ("version 2", |f, _| set(f, 8, 2)),
    ("version 3", |f, _| set(f, 8, 3)),
    ("slot", |f, r| {
        f.bytes[12] = r.range(2, 255) as u8;
        true
    }),
    ("other slot", |f, _| {
        f.bytes[12] ^= 1;
        true
    }),
    ("channels", |f, _| {
        f.bytes[13] ^= 1;
        true
    }),
    ("flags", |f, r| {
        f.bytes[14] ^= 1 << r.range(2, 7);
        true
    }),
    ("flag complete", |f, _| {
        f.bytes[14] ^= 1;
        true
    }),
    ("flag fingerprint", |f, _| {
        f.bytes[14] ^= 2;
        true
    }),
    ("byte 15", |f, r| spoil(f, r, 15, 1)),
    ("key start", |f, r| {
        let v = near(r, get(f, 16));
        set(f, 16, v)
    }),
    ("key end", |f, r| {
        let v = near(r, get(f, 20));
        set(f, 20, v)
    }),
    ("image sectors", |f, r| spoil(f, r, 24, 8)),
    ("interval", |f, r| {
        let v = *r.pick(&[0, 65_537, u32::MAX]);
        set(f, 32, v)
    }),
    ("other interval", |f, r| {
        let v = near(r, f.k);
        set(f, 32, v)
    }),
    ("bytes 52", |f, r| spoil(f, r, 52, 4)),
    ("budget above 4 GiB", |f, r| spoil(f, r, 60, 4)),
    ("budget below the frames", |f, r| f.used > 0 && set64(f, 56, f.used - r.range(1, f.used))),
    ("bytes 68", |f, r| spoil(f, r, 68, 4)),
    ("end threshold", |f, r| {
        let v = near(r, get(f, 64));
        set(f, 64, v)
    }),
    ("end threshold past LIM", |f, r| {
        let v = LIM + r.below(3) as u32;
        set(f, 64, v)
    }),
    ("end malformed", |f, r| {
        let v = near(r, get(f, 72));
        set(f, 72, v)
    }),
    ("end malformed, high", |f, r| spoil(f, r, 76, 4)),
    ("end malformed past the area", |f, r| {
        let v = f.area.end - f.area.start + r.below(2);
        set64(f, 72, v)
    }),
    ("count n", |f, r| {
        let v = near(r, get(f, 36));
        set(f, 36, v)
    }),
    ("count f", |f, r| {
        let v = near(r, get(f, 40));
        set(f, 40, v)
    }),
    ("count h", |f, r| {
        let v = near(r, get(f, 44));
        set(f, 44, v)
    }),
    ("count m", |f, r| {
        let v = near(r, get(f, 48));
        set(f, 48, v)
    }),
    ("checkpoint threshold", |f, r| {
        let (at, _) = or_none!(checkpoint(f, r));
        let v = near(r, get(f, at));
        set(f, at, v)
    }),
    ("checkpoint threshold past LIM", |f, r| {
        let (at, _) = or_none!(checkpoint(f, r));
        let v = bad_number(r);
        set(f, at, v)
    }),
    ("checkpoint back", |f, r| {
        let (at, j) = or_none!(checkpoint(f, r));
        let most = j as u32 * f.k;
        let v = *r.pick(&[0, 1, most, most + 1, 32, 33]);
        set(f, at + 4, v)
    }),
    ("checkpoint malformed", |f, r| {
        let (at, j) = or_none!(checkpoint(f, r));
        let most = j * u64::from(f.k);
        let v = *r.pick(&[0, 1, most, most + 1, u64::MAX]);
        set64(f, at + 8, v)
    }),
    ("checkpoint malformed, near", |f, r| {
        let (at, _) = or_none!(checkpoint(f, r));
        let v = near(r, get(f, at + 8));
        set(f, at + 8, v)
    }),
    ("frame start", |f, r| {
        let at = or_none!(frame(f, r));
        let v = bad_lsn(f, r, get(f, at));
        set(f, at, v)
    }),
    ("frame start like the one before", |f, r| {
        if f.frames.len() < 2 {
            return false;
        }
        let i = r.range(1, f.frames.len() as u64 - 1) as usize;
        let v = get(f, f.frames[i - 1]);
        set(f, f.frames[i], v)
    }),
    ("frame length", |f, r| {
        let at = or_none!(frame(f, r));
        let v = near(r, get(f, at + 4));
        set(f, at + 4, v)
    }),
    ("frame length, budget wide", |f, r| {
        let at = or_none!(frame(f, r));
        let v = *r.pick(&[65_536, 65_537, 100, 5000, 65_535]);
        set(f, 56, u32::MAX) && set(f, at + 4, v)
    }),
    ("frame to the end", |f, r| {
        if f.frames.len() < 2 {
            return false;
        }
        let at = f.frames[r.below(f.frames.len() as u64 - 1) as usize];
        let left = f.bytes.len() as u64 - 8 - (at as u64 + 8);
        let v = left.saturating_sub(r.below(12)) as u32;
        set(f, 56, u32::MAX) && set(f, at + 4, v)
    }),
    ("part checkpoint", |f, r| {
        let at = or_none!(part(f, r));
        let v = near(r, get(f, at));
        set(f, at, v)
    }),
    ("part frame", |f, r| {
        let at = or_none!(part(f, r));
        let v = near(r, get(f, at + 4));
        set(f, at + 4, v)
    }),
    ("part length", |f, r| {
        let at = or_none!(part(f, r));
        let v = near(r, get(f, at + 8));
        set(f, at + 8, v)
    }),
    ("part number", |f, r| {
        let at = or_none!(part(f, r));
        let v = if r.chance(1, 2) { bad_number(r) } else { near(r, get(f, at + 12)) };
        set(f, at + 12, v)
    }),
    ("part remaining", |f, r| {
        let at = or_none!(part(f, r));
        let v = r.extreme();
        set(f, at + 16, v)
    }),
    ("part kind", |f, r| {
        let at = or_none!(part(f, r));
        f.bytes[at + 20] = r.range(2, 255) as u8;
        true
    }),
    ("part other kind", |f, r| {
        let at = or_none!(part(f, r));
        f.bytes[at + 20] ^= 1;
        true
    }),
    ("part reserved", |f, r| {
        let at = or_none!(part(f, r));
        spoil(f, r, at + 21, 3)
    }),
    ("parts unsorted", |f, r| {
        let (at, n) = f.parts;
        unsort(f, r, at, 24, n)
    }),
    ("malformed LSN", |f, r| {
        let at = or_none!(malformed(f, r));
        let v = bad_lsn(f, r, get(f, at));
        set(f, at, v)
    }),
    ("malformed LSN at the frontier", |f, _| {
        if f.malformed.1 == 0 || f.n == 0 {
            return false;
        }
        let v = f.area.start as u32 + (f.n as u32 - 1) * f.k;
        let at = f.malformed.0 + 4 * (f.malformed.1 - 1);
        set(f, at, v)
    }),
    ("malformed LSNs unsorted", |f, r| {
        let (at, n) = f.malformed;
        unsort(f, r, at, 4, n)
    }),
    ("hint header", |f, r| {
        if f.version < 2 {
            return false;
        }
        let (at, v) = (f.hint_header + 4 * r.below(6) as usize, r.extreme());
        set(f, at, v)
    }),
    ("hint header reserved", |f, r| {
        f.version >= 2 && {
            let at = f.hint_header + 20;
            spoil(f, r, at, 4)
        }
    }),
    ("hint count or limit", |f, r| {
        if f.version < 2 {
            return false;
        }
        let at = f.hint_header + *r.pick(&[12, 16]);
        let v = near(r, f.hints as u32);
        set(f, at, v)
    }),
    ("hint", |f, r| {
        let at = or_none!(hint(f, r));
        let (v, w) = (bad_lsn(f, r, get(f, at)), bad_number(r));
        if r.chance(1, 2) { set(f, at, v) } else { set(f, at + 4, w) }
    }),
    ("hints unsorted", |f, r| {
        let (at, n) = (f.hint_header + 24, f.hints);
        unsort(f, r, at, 8, n)
    }),
    ("confirmation header", |f, r| {
        if f.version < 3 {
            return false;
        }
        let at = f.confirmation_header + *r.pick(&[0, 4]);
        let v = if r.chance(1, 2) { near(r, f.confirmations as u32) } else { r.extreme() };
        set(f, at, v)
    }),
    ("confirmation", |f, r| {
        let at = or_none!(confirmation(f, r));
        let (v, w) = (bad_lsn(f, r, get(f, at)), bad_number(r));
        if r.chance(1, 2) { set(f, at, v) } else { set(f, at + 4, w) }
    }),
    ("confirmations unsorted", |f, r| {
        let (at, n) = (f.confirmation_header + 8, f.confirmations);
        unsort(f, r, at, 16, n)
    }),
];

/// What a version 2 header adds to a version 1 file: nothing, or a little.
fn empty_hints(f: &mut File, rng: &mut Rng) -> &'static str {
    let n = f.bytes.len() - 8;
    let mut header = vec![0u8; 24];
    header[8] = 8;
    header[13] = 8;
    if rng.chance(1, 4) {
        header[rng.below(24) as usize] ^= 1;
    }
    set(f, 8, 2);
    f.bytes.splice(n..n, header);
    "version 2 that adds nothing"
}

/// A confirmation section of no confirmation, behind a version 2 file.
fn no_confirmations(f: &mut File, rng: &mut Rng) -> &'static str {
    let n = f.bytes.len() - 8;
    let mut section = vec![0u8; 8];
    if rng.chance(1, 3) {
        section[rng.below(8) as usize] = 1;
    }
    set(f, 8, 3);
    f.bytes.splice(n..n, section);
    "version 3 of no confirmation"
}

/// Kinds that change the length.
fn reshape(f: &mut File, rng: &mut Rng) -> &'static str {
    let n = f.bytes.len() - 8;
    match rng.below(9) {
        0 => {
            let most = *rng.pick(&[1, 4, 8, 24]);
            let more = rng.range(1, most);
            for _ in 0..more {
                let b = if rng.chance(1, 2) { 0 } else { rng.below(256) as u8 };
                f.bytes.insert(n, b);
            }
            "bytes behind"
        }
        1 => {
            f.bytes.drain(rng.below(n as u64) as usize..n);
            "cut anywhere"
        }
        2 => {
            let less = rng.range(1, 40).min(n as u64) as usize;
            f.bytes.drain(n - less..n);
            "cut a little"
        }
        3 if f.used > 0 => {
            let less = rng.range(1, f.used) as usize;
            f.bytes.drain(n - less..n);
            "cut by less than the frame bytes"
        }
        4 => {
            let ends = [80, 80 + 24 * f.n, f.parts.0, f.malformed.0, f.hint_header, f.confirmation_header];
            let to = (*rng.pick(&ends) + rng.below(30) as usize).saturating_sub(rng.below(5) as usize).min(n);
            f.bytes.drain(to..n);
            "cut at a section"
        }
        5 => {
            let at = rng.below(n as u64) as usize;
            let len = (rng.range(1, 24) as usize).min(n - at);
            f.bytes.drain(at..at + len);
            "bytes missing inside"
        }
        6 => {
            let at = rng.below(n as u64 + 1) as usize;
            for _ in 0..rng.range(1, 24) {
                f.bytes.insert(at, rng.below(256) as u8);
            }
            "bytes inserted"
        }
        7 if f.version == 1 => empty_hints(f, rng),
        _ if f.version == 2 => no_confirmations(f, rng),
        _ => {
            let to = rng.below(91).min(f.bytes.len() as u64) as usize;
            f.bytes.drain(to.min(n)..n);
            "cut short"
        }
    }
}

/// Up to 90 bytes that are no file, or the beginning of one.
pub fn tiny(f: &File, rng: &mut Rng) -> Vec<u8> {
    let len = rng.below(91) as usize;
    let mut b: Vec<u8> = match rng.below(4) {
        0 => vec![0; len],
        1 => (0..len).map(|_| rng.below(256) as u8).collect(),
        _ => f.bytes.iter().copied().chain(std::iter::repeat(0)).take(len).collect(),
    };
    if rng.chance(2, 3) {
        mend(&mut b);
    }
    b
}

/// A damaged copy, and what was done to it.
pub fn damaged(file: &File, rng: &mut Rng) -> (Vec<u8>, String) {
    if rng.chance(1, 40) {
        return (tiny(file, rng), "tiny".to_string());
    }
    let mut f = file.clone();
    let mut names: Vec<&str> = Vec::new();
    let faults = *rng.pick(&[1, 1, 1, 2, 2, 3]);
    let mut tries = 0;
    while names.len() < faults && tries < 40 {
        tries += 1;
        match rng.below(20) {
            0 => {
                let n = f.bytes.len() as u64 - 8;
                let at = rng.below(n) as usize;
                f.bytes[at] ^= 1 << rng.below(8);
                names.push("flip");
            }
            1 => {
                let at = 4 * rng.below((f.bytes.len() as u64 - 8) / 4) as usize;
                let v = rng.extreme();
                set(&mut f, at, v);
                names.push("extreme");
            }
            _ => {
                let (name, kind) = rng.pick(&KINDS);
                if kind(&mut f, rng) {
                    names.push(name);
                }
            }
        }
    }
    if rng.chance(1, 6) {
        names.push(reshape(&mut f, rng));
    }
    if rng.chance(24, 25) {
        mend(&mut f.bytes);
    } else if rng.chance(1, 2) {
        let n = f.bytes.len();
        f.bytes[n - 1 - rng.below(8) as usize] ^= 1;
        names.push("sum");
    } else {
        names.push("sum as it was");
    }
    (f.bytes, names.join(" + "))
}

/// A copy that only changes its length.
pub fn reshaped(file: &File, rng: &mut Rng) -> (Vec<u8>, String) {
    let mut f = file.clone();
    let name = reshape(&mut f, rng);
    if rng.chance(9, 10) {
        mend(&mut f.bytes);
    }
    (f.bytes, name.to_string())
}
