//! Runs of merges of four lists whose hints and confirmations do not depend on the order (change request 13), and
//! runs that are just outside one of its conditions.

use std::collections::{BTreeMap, BTreeSet};

use super::*;

/// What a run is outside of. An LSN under two frame numbers is outside the comparison too.
pub const OUTSIDE: [&str; 13] = [
    "two digests",
    "one unchecked",
    "one without a fingerprint",
    "two fingerprints",
    "two image ids",
    "one limit 0",
    "a lower limit",
    "a higher limit",
    "one hint above the limit",
    "one confirmed LSN above the limit",
    "another checkpoint",
    "another interval",
    "another area",
];

/// What a place holds: hints by LSN, and of confirmed LSNs threshold and digest.
#[derive(Clone, Default)]
struct Union {
    hints: BTreeMap<u32, u32>,
    confirmed: BTreeMap<u32, (u32, u64)>,
}

impl Union {
    /// With all that another holds: numbers and digests are the same in both.
    fn take(&mut self, other: &Union) {
        self.hints.extend(&other.hints);
        for (&lsn, &(u, digest)) in &other.confirmed {
            let held = self.confirmed.entry(lsn).or_insert((u, digest));
            held.0 = held.0.min(u);
        }
    }

    fn say(&self, s: &mut Script<'_>, p: usize) {
        let hints: String = self.hints.iter().map(|(l, t)| format!(" {l} {t}")).collect();
        let confirmed: String = self.confirmed.iter().map(|(l, (u, d))| format!(" {l} {u} {d}")).collect();
        say!(s, "union {p} {}{hints} {}{confirmed}", self.hints.len(), self.confirmed.len());
    }
}

/// So many LSNs of the area, or all.
fn some_lsns(rng: &mut Rng, a: &AreaNumbers, count: u64) -> Vec<u32> {
    let len = a.end - a.start;
    let mut out = BTreeSet::new();
    while (out.len() as u64) < count.min(len) {
        out.insert((a.start + rng.below(len)) as u32);
    }
    out.into_iter().collect()
}

/// Of each two in three, at most `most`.
fn subset(rng: &mut Rng, all: &[u32], most: u32) -> Vec<u32> {
    let mut out: Vec<u32> = all.iter().copied().filter(|_| rng.chance(2, 3)).collect();
    out.truncate(most as usize);
    out
}

/// A list of the reading, with hints and confirmations among those given.
fn one(rng: &mut Rng, reading: &Reading, most: u32, print: Option<u64>, lsns: (&[u32], &[u32]), form: u64) -> List {
    let b = reading.checkpoints.len();
    let complete = rng.chance(1, 3);
    let n = if complete { b } else { rng.below(b as u64 + 1) as usize };
    let mut list = reading.cut(rng, n, complete, 8);
    list.budget += rng.below(100);
    list.spacing = *rng.pick(&[0, 1, 8, 75]);
    list.most = most;
    list.fingerprint = print;
    let number = |l: u32| numbered(u64::from(l) - reading.area.start, form);
    list.hints = subset(rng, lsns.0, most).into_iter().map(|l| (l, number(l))).collect();
    if print.is_some() {
        let kept = subset(rng, lsns.1, most);
        list.confirmations = kept.into_iter().map(|l| (l, rng.below(4) as u32, u64::from(l) * 3)).collect();
    }
    list
}

/// The fourth list, just outside: what it is then, or none where this run has no such list.
fn outside(rng: &mut Rng, what: &str, list: &mut List, most: u32) -> Option<()> {
    match what {
        "two digests" => list.confirmations.first_mut()?.2 ^= 1,
        "one without a fingerprint" => (list.fingerprint, list.confirmations) = (None, Vec::new()),
        "two fingerprints" => list.fingerprint = list.fingerprint.map(|v| v ^ 1),
        "one limit 0" => (list.most, list.hints, list.confirmations) = (0, Vec::new(), Vec::new()),
        "a lower limit" => {
            list.most = most - 1;
            list.hints.truncate(list.most as usize);
            list.confirmations.truncate(list.most as usize);
        }
        "a higher limit" => list.most = most + rng.range(1, 3) as u32,
        "another checkpoint" => list.checkpoints.first_mut()?.digest ^= 1,
        "another interval" => {
            // One more, so that the checkpoints that there are stay in the area: at most the first.
            list.k += 1;
            list.checkpoints.truncate(1);
            (list.frames, list.parts, list.end, list.malformed) = (Vec::new(), Vec::new(), None, Vec::new());
        }
        "another area" => list.area.channels ^= 1,
        _ => {}
    }
    Some(())
}

pub fn order(s: &mut Script<'_>, rng: &mut Rng) {
    let shape = Shape {
        boundaries: rng.range(1, 6),
        k: *rng.pick(&[2, 7, 40, 100]),
        under: 4,
        frame_bytes: 12,
        malformed: *rng.pick(&[0, 3]),
    };
    let mut reading = Reading::random(rng, shape);
    reading.free_digests(rng);
    let a = reading.area;
    let what = if rng.chance(1, 2) { "inside" } else { *rng.pick(&OUTSIDE) };
    let most = *rng.pick(&[1, 2, 3, 5, 8, 2048]) as u32;
    let most = if what.contains("above the limit") { most.min(8) } else { most };
    let form = rng.below(7);
    let all = |rng: &mut Rng, name: &str| {
        let full = u64::from(most) + u64::from(what == name);
        let count = if what == name || rng.chance(2, 3) { full } else { rng.below(full + 1) };
        some_lsns(rng, &a, count.min(12))
    };
    let hinted = all(rng, "one hint above the limit");
    let confirmed = all(rng, "one confirmed LSN above the limit");
    let print = (what != "inside" || rng.chance(3, 4)).then_some(5);
    let image = (what == "two image ids" || rng.chance(1, 3)).then_some(77);
    let mut places: Vec<Union> = Vec::new();
    for p in 0..4 {
        let mut list = one(rng, &reading, most, print, (&hinted, &confirmed), form);
        let last = p == 3;
        if last && what != "inside" && outside(rng, what, &mut list, most).is_none() {
            return;
        }
        say!(s, "area {p} {}", list.area.words());
        let note = if last { format!("order: {what}") } else { "order".to_string() };
        s.load(&note, p, 131_072, &list.encode().bytes);
        if let Some(v) = list.fingerprint.filter(|_| !(last && what == "one unchecked")) {
            say!(s, "fingerprint {p} {v}");
        }
        if let Some(id) = image.filter(|_| rng.chance(1, 2) || what == "two image ids") {
            say!(s, "recorder {p} {}", a.start);
            say!(s, "absorb {p} {p} 1 {} 0", id + u64::from(last && what == "two image ids"));
        }
        places.push(Union {
            hints: list.hints.into_iter().collect(),
            confirmed: list.confirmations.into_iter().map(|(l, u, d)| (l, (u, d))).collect(),
        });
    }
    for _ in 0..rng.range(3, 12) {
        let p = rng.below(4) as usize;
        let q = (p + 1 + rng.below(3) as usize) % 4;
        say!(s, "merge {p} {q}");
        let other = places[q].clone();
        places[p].take(&other);
        if what == "inside" {
            places[p].say(s, p);
        }
    }
    if what == "inside" {
        (0..4).for_each(|p| places[p].say(s, p));
    }
}
