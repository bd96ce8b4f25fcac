//! Scripts of kind version4: lists with a limit of 65,537 to 262,144 and few hints, their files whole and broken, and all calls on them.

use super::*;
use crate::file::mend;

/// A way to break a file of version 4 that is otherwise whole; false where the file has not what it breaks. Its name, and the number that it gives.
type Bad = (&'static str, u64, fn(&mut File) -> bool);

fn set(f: &mut File, at: usize, v: u32) -> bool {
    f.bytes[at..at + 4].copy_from_slice(&v.to_le_bytes());
    true
}

/// Leaves the first `n` bytes of the body.
fn cut(f: &mut File, n: usize) -> bool {
    let end = f.bytes.len() - 8;
    f.bytes.drain(n.min(end)..end);
    n < end
}

fn flag(f: &File) -> bool {
    f.bytes[14] & 2 != 0
}

fn without_flag(f: &mut File) {
    f.bytes[14] &= 1;
    let at = f.hint_header;
    f.bytes[at..at + 8].fill(0);
}

/// The change request's bad input.
pub const BAD: [Bad; 24] = [
    ("version 0", 23, |f| set(f, 8, 0)),
    ("version 5", 23, |f| set(f, 8, 5)),
    ("version 2^32 - 1", 23, |f| set(f, 8, u32::MAX)),
    ("flags 4", 25, |f| {
        f.bytes[14] |= 4;
        true
    }),
    ("byte 15", 25, |f| {
        f.bytes[15] = 1;
        true
    }),
    ("too short for both headers", 30, |f| cut(f, f.hint_header - f.used as usize + 31)),
    ("too short for its hints", 36, |f| f.hints > 1 && cut(f, f.hint_header + 24 + 8 * f.hints - 1)),
    ("too short for its confirmations", 37, |f| f.confirmations > 0 && cut(f, f.bytes.len() - 9)),
    ("eight bytes more", 38, |f| {
        let end = f.bytes.len() - 8;
        f.bytes.splice(end..end, [0; 8]);
        true
    }),
    ("M 0", 36, |f| set(f, f.hint_header + 12, 0)),
    ("M 2,048", 36, |f| set(f, f.hint_header + 12, 2048)),
    ("M 65,536", 36, |f| set(f, f.hint_header + 12, 65_536)),
    ("M 262,145", 36, |f| set(f, f.hint_header + 12, 262_145)),
    ("M 2^32 - 1", 36, |f| set(f, f.hint_header + 12, u32::MAX)),
    ("hint count above M", 36, |f| {
        let at = f.hint_header;
        set(f, at + 12, 65_537) && set(f, at + 16, 65_538)
    }),
    ("fingerprint bytes without the flag", 36, |f| {
        without_flag(f);
        set(f, f.hint_header + 4, 1)
    }),
    ("reserved bytes of the hint header", 28, |f| set(f, f.hint_header + 20, 1)),
    ("reserved bytes of the confirmation header", 37, |f| set(f, f.confirmation_header + 4, 1 << 24)),
    ("confirmations without the flag", 37, |f| {
        without_flag(f);
        f.confirmations > 0
    }),
    ("confirmation count above M", 37, |f| {
        flag(f) && set(f, f.hint_header + 12, 65_537) && set(f, f.confirmation_header, 65_538)
    }),
    ("version 1 of such a list", 38, |f| !flag(f) && set(f, 8, 1)),
    ("version 2 with its M", 36, |f| {
        let at = f.confirmation_header;
        f.bytes.drain(at..at + 8);
        f.confirmations == 0 && set(f, 8, 2)
    }),
    ("version 3 with its M", 36, |f| f.confirmations > 0 && set(f, 8, 3)),
    ("version 3 with its M and no confirmation", 36, |f| f.confirmations == 0 && set(f, 8, 3)),
];

/// A file that is whole, and what its version 4 is like with M at a bound.
pub const BOUNDS: [(&str, u32); 4] =
    [("M 65,537", 65_537), ("M 65,538", 65_538), ("M 262,143", 262_143), ("M 262,144", 262_144)];

/// Load limits that bring M about 65,536, and what else they can do.
pub const LIMITS: [(&str, u64); 5] = [
    ("limit 0", 0),
    ("limit 524,288", 524_288),
    ("limit 524,295", 524_295),
    ("limit 524,296", 524_296),
    ("no limit", u64::MAX),
];

fn a_limit(rng: &mut Rng, l: &List) -> u64 {
    match rng.below(6) {
        0 => rng.pick(&LIMITS).1,
        1 => (8 * u64::from(l.most) + rng.below(18)).saturating_sub(9),
        2 => 16 * u64::from(l.most),
        3 => rng.range(524_280, 524_304),
        _ => limit(rng, l),
    }
}

/// A list of the reading, mostly with a limit that only version 4 has.
fn a_list(rng: &mut Rng, reading: &Reading) -> List {
    let mut l = list(rng, reading, 65_536);
    while l.encode().bytes.len() > 1500 {
        l = list(rng, reading, 65_536);
    }
    if rng.chance(5, 6) {
        l.lengthen(rng);
    }
    if l.fingerprint.is_some() && rng.chance(5, 6) {
        // One that the calls state.
        l.fingerprint = Some(rng.below(2));
    }
    l
}

/// A broken file of the list.
fn broken(s: &mut Script<'_>, rng: &mut Rng, p: usize, l: &List) {
    let mut file = l.encode();
    let limit = a_limit(rng, l);
    if file.version == 4 && rng.chance(1, 3) {
        let (name, _, way) = rng.pick(&BAD);
        if way(&mut file) {
            mend(&mut file.bytes);
            s.load(&format!("bad: {name}"), p, limit, &file.bytes);
        }
        return;
    }
    if rng.chance(1, 12) {
        // A file that says it is of version 4, and whatever it says beside.
        file.bytes[8] = 4;
        mend(&mut file.bytes);
        s.load("version 4 in another file", p, limit, &file.bytes);
        return;
    }
    let (mut bytes, note) = if rng.chance(1, 6) { damage::reshaped(&file, rng) } else { damage::damaged(&file, rng) };
    if file.version != 4 && bytes.len() > 88 && rng.chance(1, 4) {
        bytes[8..12].copy_from_slice(&4u32.to_le_bytes());
        mend(&mut bytes);
    }
    s.load(&note, p, limit, &bytes);
}

/// A whole file of the list; then what is saved of it.
fn whole(s: &mut Script<'_>, rng: &mut Rng, p: usize, l: &List) {
    let mut l = l.clone();
    let (mut note, mut limit) = ("valid".to_string(), a_limit(rng, &l));
    if l.most > 65_536 && rng.chance(1, 4) {
        let (name, at) = *rng.pick(&LIMITS);
        (note, limit) = (format!("bound: {name}"), at);
    } else if l.most > 65_536 && rng.chance(1, 3) {
        let (name, most) = *rng.pick(&BOUNDS);
        l.most = most;
        note = format!("bound: {name}");
    }
    let file = l.encode();
    s.load(&note, p, limit, &file.bytes);
    save(s, rng, p, &file);
    if rng.chance(1, 3) {
        let again = a_limit(rng, &l);
        say!(s, "reload {p} {again}");
    }
    let count = rng.below(3);
    plans(s, rng, p, &l, count);
}

/// A new list with a limit about 65,536 or 262,144.
fn created(s: &mut Script<'_>, rng: &mut Rng, p: usize, reading: &Reading) {
    let most = *rng.pick(&[0, 2048, 65_536, 65_537, 262_143, 262_144, 262_145, u64::from(u32::MAX)]);
    let budget = *rng.pick(&[0, 100, 5000]);
    say!(s, "new {p} {} {budget} {} {most}", reading.k, *rng.pick(&[0, 1, 8, 8]));
    say!(s, "save {p} {}", *rng.pick(&[112, 119, 120, 1000]));
}

/// A table one record or a byte too short for its list, or as long as it must be; or a limit in the head that 4 refuses.
fn lent(s: &mut Script<'_>, rng: &mut Rng, p: usize, l: &List) {
    let mut most = u64::from(l.most);
    if rng.chance(1, 3) {
        say!(s, "new {p} {} 0 8 0", l.k);
        most = 0;
    }
    if rng.chance(1, 3) {
        say!(s, "edit {p} 12 10 {}", *rng.pick(&[262_145, 262_600, 262_601, u64::from(u32::MAX)]));
    } else {
        let (t, need, width) = *rng.pick(&[(5, 8 * (most + 262_144), 8), (6, 16 * (most + 1), 16)]);
        say!(s, "lend {p} {t} {}", need - *rng.pick(&[0, 0, 1, width]));
    }
    match rng.below(4) {
        0 => say!(s, "save {p} 2000"),
        1 => say!(s, "merge {p} {}", (p + 1) % 3),
        2 => say!(s, "plan {p} 7"),
        _ => say!(s, "add_hints {p} 1 {} 6", l.area.start),
    }
}

/// The other calls on a list.
fn call(s: &mut Script<'_>, rng: &mut Rng, p: usize, reading: &Reading) {
    let (a, b) = (reading.area, reading.checkpoints.len());
    match rng.below(7) {
        0 => {
            say!(s, "fingerprint {p} {}", rng.below(2));
            say!(s, "merge {p} {}", (p + 1) % 3);
            if a.end > a.start {
                confirmations(s, rng, p, &a, 3);
                hint_calls(s, rng, p, &a, reading.k, 2);
            }
        }
        1 if a.end > a.start => confirmations(s, rng, p, &a, 3),
        2 if a.end > a.start => {
            let list = hint_list(rng, &a, reading.k, 40);
            say_hints(s, p, &list);
            hint_calls(s, rng, p, &a, reading.k, 3);
        }
        3 => {
            say!(s, "hint_recorder {p}");
            sees(s, rng, &a, reading.k, 5);
            say!(s, "flush");
            say!(s, "take {p}");
        }
        4 if b > 0 => {
            say!(s, "recorder {p} {}", a.start);
            for j in 0..(rng.below(4) as usize).min(b) {
                record(s, rng, p, reading, j, false);
            }
            let all = rng.chance(1, 2);
            absorb(s, rng, p, p, reading, b - 1, all);
        }
        5 => say!(s, "save {p} {}", *rng.pick(&[0, 119, 120, 4000])),
        _ => say!(s, "reload {p} {}", rng.pick(&LIMITS).1),
    }
}

pub fn version4(s: &mut Script<'_>, rng: &mut Rng) {
    let shape = shape(rng, true);
    let mut reading = Reading::random(rng, shape);
    reading.sector_digests();
    let lists: Vec<List> = (0..rng.range(1, 3)).map(|_| a_list(rng, &reading)).collect();
    for p in 0..3 {
        say!(s, "area {p} {}", reading.area.words());
    }
    for _ in 0..rng.range(10, 24) {
        let p = rng.below(3) as usize;
        let l = rng.pick(&lists);
        match rng.below(64) {
            0..=19 => whole(s, rng, p, l),
            20..=43 => broken(s, rng, p, l),
            44..=46 => created(s, rng, p, &reading),
            47..=53 => say!(s, "merge {p} {}", (p + 1) % 3),
            54 => {
                s.load("lent", p, u64::MAX, &l.encode().bytes);
                lent(s, rng, p, l);
            }
            _ => call(s, rng, p, &reading),
        }
    }
}
