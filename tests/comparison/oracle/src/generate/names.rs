//! Scripts of kind names: the rules that `plan` and `hint` name, at their bounds.

use super::{Script, fresh, list, say_hints, shape};
use crate::file::{AreaNumbers, Reading};
use crate::rng::Rng;

macro_rules! say {
    ($s:expr, $($text:tt)*) => { $s.line(format_args!($($text)*)) };
}

/// `v`, one less or one more.
fn about(rng: &mut Rng, v: u64) -> u64 {
    (v + rng.below(3)).saturating_sub(1)
}

/// Plans of a loaded list, at its thresholds and one frame to either side.
fn plans(s: &mut Script<'_>, rng: &mut Rng) {
    let mut shape = shape(rng, true);
    shape.under = *rng.pick(&[0, 4, 8]);
    let reading = Reading::random(rng, shape);
    let mut l = list(rng, &reading, 20);
    if rng.chance(1, 3) {
        // A first threshold above 0.
        let rise = rng.range(1, 3) as u32;
        l.checkpoints.iter_mut().for_each(|c| c.thr += rise);
        l.end = l.end.map(|(thr, m)| (thr + rise, m));
    }
    say!(s, "area 0 {}", l.area.words());
    s.load("names", 0, 131_072, &l.encode().bytes);
    let thresholds: Vec<u32> = l.checkpoints.iter().map(|c| c.thr).chain(l.end.map(|e| e.0)).collect();
    for _ in 0..8 {
        let t = if thresholds.is_empty() { 0 } else { *rng.pick(&thresholds) };
        say!(s, "plan_rule 0 {}", about(rng, u64::from(t)));
    }
    say!(s, "plan_rule 0 {}", rng.extreme());
    hints_of_a_file(s, rng, l.fingerprint, &l.hints);
}

/// `hint` of a list that was loaded, before its fingerprint is stated and after it.
fn hints_of_a_file(s: &mut Script<'_>, rng: &mut Rng, fingerprint: Option<u64>, hints: &[(u32, u32)]) {
    for checked in [false, true] {
        if let (true, Some(f)) = (checked, fingerprint) {
            say!(s, "fingerprint 0 {f}");
        }
        for _ in 0..3 {
            let t = if hints.is_empty() { rng.extreme() } else { rng.pick(hints).1 };
            let first = t.saturating_add(*rng.pick(&[0, 1, 5, 64, 65]));
            let end = first.saturating_add(*rng.pick(&[0, 1, 30, 100]));
            say!(s, "hint_rule 0 {first} {end} {}", rng.below(3000));
        }
    }
}

/// An area of `len` sectors.
fn area(rng: &mut Rng, len: u64) -> AreaNumbers {
    let start = rng.below(1000) as u32;
    AreaNumbers::new(0, start, start + len as u32 - 1, 2, u64::from(start) + len + rng.below(3))
}

fn begin(s: &mut Script<'_>, a: &AreaNumbers, hints: &[(u64, u64)]) {
    fresh(s, 0, a, (65_536, 0, 8, 2048));
    let inside: Vec<(u64, u32)> =
        hints.iter().filter(|h| a.start <= h.0 && h.0 < a.end).map(|h| (h.0, h.1 as u32)).collect();
    say_hints(s, 0, &inside);
}

/// Local spacing equal to the average, or a sector more or less: in the run behind the hint or before it.
fn equal(s: &mut Script<'_>, rng: &mut Rng) {
    let (g, playtime, f, t) = (rng.range(1, 5), rng.range(200, 900), rng.range(1, 60), rng.below(40));
    let a = area(rng, g * playtime);
    let x = a.start + rng.range(2, 50);
    let (next, after) = (about(rng, x + g * f), t + f);
    begin(s, &a, &[(x, t), (next, after)]);
    for _ in 0..4 {
        let first = if rng.chance(1, 2) { t + rng.range(1, f) } else { after + rng.range(1, 64) };
        let end = (after + rng.range(1, 40)).max(first + rng.below(3));
        say!(s, "hint_rule 0 {first} {end} {playtime}");
    }
}

/// The end of a read of `frames` frames at a density.
fn span(frames: u64, sectors: u64, of: u64) -> u64 {
    let span = frames * sectors / of;
    span + span / 4 + 4
}

/// Upper ends at the area's end, or a sector off it: by the average, by local spacing before the hint or behind it, by a later hint.
fn at_the_end(s: &mut Script<'_>, rng: &mut Rng) {
    let (len, playtime, t, n) = (rng.range(800, 3000), rng.range(300, 1200), rng.range(20, 60), rng.range(2, 60));
    let a = area(rng, len);
    let (s1, f) = (rng.range(1, 40), rng.range(3, 9));
    let off = about(rng, a.end);
    let (first, end) = (t + rng.range(1, n), t + n);
    let local = span(n, s1, f);
    match rng.below(4) {
        0 => begin(s, &a, &[(off - span(n, len, playtime).min(len - 1), t)]),
        1 => {
            let lsn = off - local.min(len - 100);
            begin(s, &a, &[(lsn - s1, t - f), (lsn, t)]);
        }
        2 => {
            // The run's last hint lies f frames behind; the read ends n frames behind it.
            let last = off - local.min(len - 100);
            begin(s, &a, &[(last - s1, t), (last, t + f)]);
            say!(s, "hint_rule 0 {} {} {playtime}", t + rng.range(1, f), t + f + n);
        }
        _ => {
            let last = a.end - rng.range(1, 3);
            begin(s, &a, &[(a.start + rng.below(200), t), (last, end + *rng.pick(&[0, 1, 64, 65]))]);
        }
    }
    say!(s, "hint_rule 0 {first} {end} {playtime}");
    say!(s, "hint_rule 0 {first} {} {playtime}", end + rng.below(3));
}

/// Two or three hints in reach, one of them confirmed at about the first frame of the range.
fn confirmed(s: &mut Script<'_>, rng: &mut Rng) {
    let len = *rng.pick(&[120, 500, 1000, 5000]);
    let (a, t) = (area(rng, len), rng.below(50));
    let (x, y) = (a.start + rng.below(50), a.start + rng.range(50, 100));
    let (u, v) = *rng.pick(&[(t, t + 5), (t + 5, t), (t, t)]);
    begin(s, &a, &[(x, u), (y, v)]);
    if rng.chance(3, 4) {
        say!(s, "fingerprint 0 7");
    }
    let first = t + 5 + rng.range(1, 60);
    for _ in 0..rng.range(1, 2) {
        say!(s, "confirm 0 {} {} 1", *rng.pick(&[x, y]), about(rng, first));
    }
    if rng.chance(1, 4) {
        // Loaded again, the fingerprint is unchecked.
        say!(s, "reload 0 131072");
    }
    for _ in 0..3 {
        say!(s, "hint_rule 0 {} {} {}", about(rng, first), first + rng.range(1, 80), rng.below(700));
    }
}

/// No hint, one hint, a range that ends before it begins, no playtime, an empty area.
fn odd(s: &mut Script<'_>, rng: &mut Rng) {
    let a = match rng.below(4) {
        0 => AreaNumbers::new(0, 50, 49, 2, 100),
        _ => area(rng, 200),
    };
    let t = rng.below(30);
    let one = [(a.start + rng.below(200), t)];
    begin(s, &a, &one[..rng.below(2) as usize]);
    for _ in 0..3 {
        let first = t + rng.below(68);
        say!(s, "hint_rule 0 {first} {} {}", about(rng, first), rng.below(2));
        say!(s, "plan_rule 0 {first}");
    }
}

pub fn names(s: &mut Script<'_>, rng: &mut Rng) {
    match rng.below(6) {
        0 => plans(s, rng),
        1 | 2 => equal(s, rng),
        3 => at_the_end(s, rng),
        4 => confirmed(s, rng),
        _ => odd(s, rng),
    }
}
