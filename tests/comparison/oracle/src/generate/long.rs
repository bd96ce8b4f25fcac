//! Scripts of kind long: lists of as many hints and confirmations as there may be, made by calls and read from files, merged, thinned, saved.

use super::*;
use crate::file::mend;

/// A frame number for each LSN, so that no LSN comes under two: rising slowly, in waves, or scattered.
fn at(lsn: u64, form: u64) -> u32 {
    let n = match form {
        0 => lsn / 3,
        1 => lsn % 5000 + lsn / 700,
        _ => lsn * 7919 % 999_983,
    };
    (n % u64::from(LIM)) as u32
}

/// The area's LSNs from `from` on by `step`, with their numbers.
fn spaced(a: &AreaNumbers, form: u64, from: u64, step: u64, count: u64) -> Vec<(u64, u32)> {
    (0..count).map(|i| a.start + from + i * step).filter(|&l| l < a.end).map(|l| (l, at(l, form))).collect()
}

fn disc(rng: &mut Rng) -> AreaNumbers {
    AreaNumbers::new(rng.below(2) as u8, 1000, 1000 + rng.range(1_100_000, 1_500_000) as u32, 2, 1 << 22)
}

/// Hints by calls, 65,536 at most at a time.
fn give(s: &mut Script<'_>, rng: &mut Rng, p: usize, hints: &[(u64, u32)]) {
    let mut parts: Vec<&[(u64, u32)]> = hints.chunks(65_536).collect();
    if rng.chance(1, 3) {
        parts.reverse();
    }
    for part in parts {
        let mut part = part.to_vec();
        if rng.chance(1, 4) {
            part.reverse();
        }
        say_hints(s, p, &part);
    }
}

/// Limits and counts of hints of two lists.
const MADE: [[(u64, u64); 2]; 3] = [
    [(262_144, 262_144), (262_144, 262_144)],
    [(262_143, 262_143), (65_537, 65_537)],
    [(262_145, 262_145), (262_143, 262_144)],
];

/// Lists made by calls: of 262,144 hints and fewer, then saved, loaded, merged, thinned and saved.
fn made(s: &mut Script<'_>, rng: &mut Rng, round: usize) {
    let (a, form) = (disc(rng), rng.below(3));
    let limits = [u64::MAX, u64::MAX, 8 * 262_144, 8 * 262_143, 8 * 65_537, 8 * 65_537 - 1, 0];
    for p in 0..2 {
        let (most, count) = MADE.get(round % 4).map_or_else(
            || (*rng.pick(&[65_537, 262_143, 262_144]), *rng.pick(&[65_537, 200_000, 262_144, 262_145])),
            |m| m[p],
        );
        fresh(s, p, &a, (65_536, 0, 8, most));
        say!(s, "fingerprint {p} 5");
        give(s, rng, p, &spaced(&a, form, p as u64, 4, count));
        confirmations(s, rng, p, &a, 3);
        say!(s, "save {p} {}", *rng.pick(&[2_097_272, 2_097_271, 8_388_608]));
        let limit = if round % 4 < 3 { u64::MAX } else { *rng.pick(&limits) };
        say!(s, "reload {p} {limit}");
        say!(s, "fingerprint {p} 5");
    }
    say!(s, "merge 0 1");
    say!(s, "save 0 8388608");
    hint_calls(s, rng, 0, &a, 1, 4);
    say!(s, "reload 0 {}", *rng.pick(&[u64::MAX, 8 * 196_608, 8 * 65_536]));
    say!(s, "merge 1 0");
    say!(s, "save 1 8388608");
}

/// A list of this limit and these counts, by the area's LSNs from `from` on.
fn full(rng: &mut Rng, reading: &Reading, form: u64, from: u64, (most, hints, confirmations): (u32, u64, u64)) -> List {
    let (a, n) = (reading.area, reading.checkpoints.len());
    let mut l = reading.cut(rng, n, false, 8);
    l.most = most;
    l.hints = spaced(&a, form, from, 4, hints).iter().map(|h| (h.0 as u32, h.1)).collect();
    l.fingerprint = (confirmations > 0 || rng.chance(1, 2)).then_some(5);
    let lsns = spaced(&a, form, from, *rng.pick(&[1, 4]), confirmations);
    l.confirmations = lsns.iter().map(|&(x, _)| (x as u32, rng.below(100) as u32, rng.below(2))).collect();
    l
}

/// A way to break a file that holds more than 65,537 hints and confirmations. Its name, and the number that it gives.
type Bad = (&'static str, u64, fn(&mut File));

pub const BAD: [Bad; 7] = [
    ("a hint behind the 65,536th that does not rise", 36, |f| {
        let at = f.hint_header + 24 + 8 * 65_536;
        f.bytes.copy_within(at - 8..at - 4, at);
    }),
    ("the last hint's number too large", 36, |f| set(f, f.confirmation_header - 4, LIM)),
    ("more hints than M", 36, |f| set(f, f.hint_header + 12, f.hints as u32 - 1)),
    ("a confirmation behind the 65,536th that does not rise", 37, |f| {
        let at = f.confirmation_header + 8 + 16 * 65_536;
        f.bytes.copy_within(at - 16..at - 12, at);
    }),
    ("more confirmations than M", 37, |f| set(f, f.hint_header + 12, f.confirmations as u32 - 1)),
    ("many confirmations without the flag", 37, |f| {
        f.bytes[14] &= 1;
        let at = f.hint_header;
        f.bytes[at..at + 8].fill(0);
    }),
    ("many records, and eight bytes more", 38, |f| {
        let end = f.bytes.len() - 8;
        f.bytes.splice(end..end, [0; 8]);
    }),
];

fn set(f: &mut File, at: usize, v: u32) {
    f.bytes[at..at + 4].copy_from_slice(&v.to_le_bytes());
}

fn reading(rng: &mut Rng) -> Reading {
    let (a, k) = (disc(rng), 65_536);
    let boundaries = (a.end - a.start).div_ceil(k);
    let mut reading = Reading::of(rng, Shape { boundaries, k, under: 4, frame_bytes: 100, malformed: 3 }, a);
    reading.sector_digests();
    reading
}

/// Limits and counts of hints and confirmations of two lists.
const READ: [[(u32, u64, u64); 2]; 5] = [
    [(262_144, 262_144, 262_144), (262_144, 262_144, 262_144)],
    [(262_143, 262_143, 262_143), (65_537, 65_537, 65_537)],
    [(65_537, 65_537, 65_537), (65_536, 65_536, 65_536)],
    [(262_144, 262_144, 65_537), (2048, 2048, 2048)],
    [(262_144, 65_536, 0), (262_143, 0, 262_143)],
];

/// Files of full lists, loaded whole or with limits; then merged with each other, or with a list of a lower limit.
fn read(s: &mut Script<'_>, rng: &mut Rng, round: usize) {
    let (reading, form) = (reading(rng), rng.below(3));
    let a = reading.area;
    for p in 0..2 {
        let counts = READ.get(round % 6).map_or_else(
            || {
                let most = *rng.pick(&[65_537, 262_143, 262_144]);
                (most, rng.below(u64::from(most) + 1), *rng.pick(&[0, 1000, u64::from(most)]))
            },
            |m| m[p],
        );
        let from = *rng.pick(&[0, p as u64]);
        let l = full(rng, &reading, form, from, counts);
        say!(s, "area {p} {}", a.words());
        let (most, c) = (u64::from(l.most), l.confirmations.len() as u64);
        let limits = [u64::MAX, 16 * most, 8 * most - 1, 16 * c, 8 * 65_537, 8 * 65_537 - 1];
        let limit = if rng.chance(2, 3) { u64::MAX } else { *rng.pick(&limits) };
        s.load("long", p, limit, &l.encode().bytes);
        if rng.chance(5, 6) {
            say!(s, "fingerprint {p} 5");
        }
    }
    let (p, q) = *rng.pick(&[(0, 1), (1, 0)]);
    say!(s, "merge {p} {q}");
    confirmations(s, rng, p, &a, 3);
    hint_calls(s, rng, p, &a, 1, 3);
    say!(s, "save {p} {}", *rng.pick(&[8_388_608, 8_388_608, 120]));
    say!(s, "merge {q} {p}");
    say!(
        s,
        "reload {q} {}",
        *rng.pick(&[u64::MAX, u64::MAX, 8 * 262_143, 16 * 100_000, 8 * 65_537, 8 * 65_537 - 1, 0])
    );
    say!(s, "save {q} 8388608");
}

/// Broken files of full lists.
fn broken(s: &mut Script<'_>, rng: &mut Rng) {
    let (reading, form) = (reading(rng), rng.below(3));
    let most = *rng.pick(&[65_538, 65_538, 65_600, 262_144]);
    let l = full(rng, &reading, form, 0, (most, u64::from(most), u64::from(most)));
    say!(s, "area 0 {}", reading.area.words());
    for (name, _, way) in &BAD {
        let mut file = l.encode();
        // The confirmations alone break the rule.
        if *name == "more confirmations than M" {
            let fewer = List { hints: l.hints[..10].to_vec(), ..l.clone() };
            file = fewer.encode();
        }
        if most < 100_000 || rng.chance(1, 4) {
            way(&mut file);
            mend(&mut file.bytes);
            s.load(&format!("bad: {name}"), 0, *rng.pick(&[u64::MAX, 0]), &file.bytes);
        }
    }
    let (bytes, note) = damage::reshaped(&l.encode(), rng);
    s.load(&note, 0, u64::MAX, &bytes);
    say!(s, "save 0 8388608");
}

pub fn long(s: &mut Script<'_>, rng: &mut Rng, number: u32) {
    let round = number as usize / 5;
    match number % 5 {
        0 => made(s, rng, round),
        4 => broken(s, rng),
        n => read(s, rng, round * 3 + n as usize - 1),
    }
}
