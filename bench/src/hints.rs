//! Hints and confirmations: adding, keeping, seeing.

use crate::limits::Work;
use crate::lists::{List, confirmation, hint, list, uneven};
use crate::plain::shuffled;
use crate::raw::BLOCK;
use crate::report::{Report, Row, grouped};
use crate::rounds::{fresh, repeat, restored};
use crate::sectors::sector;
use crate::tables::{Hints, Tables, word};
use oracle::calls;
use std::hint::black_box;
use std::ops::Range;

pub fn rows(r: &Report) {
    if r.wants("add_hints") {
        adding(r);
    }
    if r.wants("hint") {
        for (most, held) in [(4_096, 64), (4_096, 2_048), (65_536, 65_536)] {
            finding(r, most, held);
        }
    }
    if r.wants("keep_confirmation") {
        for (most, held) in [(4_096, 64), (4_096, 2_048), (65_536, 65_536)] {
            keep(r, most, held);
        }
    }
    if r.wants_any(&SEEING.map(|s| s.call)) {
        seeing(r);
    }
}

/// A list of 7,400 checkpoints that holds every second hint up to 2n, at most M.
pub fn holding(most: u32, n: u32) -> List {
    List { most, hints: (0..n).map(|i| hint(2 * i)).collect(), ..list(7_400, 64) }
}

pub fn every(range: Range<u32>, step: usize) -> Vec<(u32, u32)> {
    range.step_by(step).map(hint).collect()
}

fn adding(r: &Report) {
    let small = holding(4_096, 2_048);
    let large = holding(65_536, 65_536);
    let known = every(0..131_072, 2);
    let new = every(1..131_072, 2);
    add(r, "64 to 2,048, behind the last", &small, every(4_096..4_160, 1), 0.7);
    add(r, "64 to 2,048, between, rising", &small, every(1..4_096, 64), 0.7);
    add(r, "64 to 2,048, between, not rising", &small, shuffled(&every(1..4_096, 64)), 1.0);
    add(r, "2,048 to 2,048, rising, thinned from 4,096 to 1,536", &holding(2_048, 2_048), every(1..4_096, 2), 0.7);
    let (held, given) = halves(&uneven(4_096));
    let held = List { hints: held, ..holding(2_048, 0) };
    add(r, "2,048 to 2,048, rising by 1 to 159, thinned from 4,096 to 1,536", &held, given, 0.7);
    add(r, "65,536 to 65,536, all known, rising", &large, known.clone(), 0.7);
    add(r, "65,536 to 65,536, all known, not rising", &large, shuffled(&known), 1.0);
    add(r, "65,536 to 65,536, rising, thinned from 131,072 to 49,152", &large, new.clone(), 0.7);
    add(r, "65,536 to 65,536, not rising, thinned from 131,072 to 49,152", &large, shuffled(&new), 1.0);
    add(r, "65,536 to none, not rising", &holding(65_536, 0), shuffled(&known), 1.0);
}

/// Every second hint from the first on, and those between.
fn halves(hints: &[(u32, u32)]) -> (Vec<(u32, u32)>, Vec<(u32, u32)>) {
    hints.chunks_exact(2).map(|two| (two[0], two[1])).unzip()
}

/// Hints as the library takes them.
pub fn bytes_of(hints: &[(u32, u32)]) -> Vec<u8> {
    hints.iter().flat_map(|&(lsn, n)| [lsn.to_le_bytes(), n.to_le_bytes()].concat()).collect()
}

fn add(r: &Report, case: &str, held: &List, given: Vec<(u32, u32)>, goal: f64) {
    if !r.has(case) {
        return;
    }
    let (start, theirs) = (Tables::loaded(held), held.theirs());
    let list = bytes_of(&given);
    let (mut ours, mut same, mut asked) = (start.copy(), theirs.clone(), start.copy());
    assert_eq!(ours.add_hints(&list), 0, "{case}: refused");
    calls::add_hints(&mut same, given.clone());
    assert_eq!(ours.file(), same.to_bytes(), "{case}: the lists differ");
    let bytes = 8 * held.hints.len() + list.len();
    let least = Work { read: start.read() + list.len(), copy: bytes, ..Work::default() };
    r.row(Row {
        call: "add_hints",
        case: case.to_string(),
        ours: restored(ours, |t| t.restore(&start), |t| t.add_hints(&list)),
        theirs: Some(fresh(|| (theirs.clone(), given.clone()), |(ix, list)| calls::add_hints(ix, std::mem::take(list)))),
        four: Some(repeat(move || asked.four())),
        least,
        goal: Some((goal, false)),
    });
}

fn finding(r: &Report, most: u32, n: u32) {
    let held = holding(most, n);
    let (mut ours, mut asked, theirs) = (Tables::loaded(&held), Tables::loaded(&held), held.theirs());
    let least = Work { read: ours.read(), ..Work::default() };
    let (first, mut answer) = (held.hints[n as usize / 2].1 + 3, [0; BLOCK]);
    assert_eq!(ours.hint(first, first + 75, 1_000_000, &mut answer), 0, "hint is refused");
    let said = (word(&answer, 1), word(&answer, 2) as u32, word(&answer, 3), word(&answer, 4) != 0);
    assert_eq!(Some(said), calls::hint(&theirs, first, first + 75, 1_000_000), "hints differ");
    r.row(Row {
        call: "hint",
        case: format!("one of {}", grouped(u64::from(n))),
        ours: repeat(move || ours.hint(black_box(first), first + 75, 1_000_000, &mut answer)),
        theirs: Some(repeat(|| calls::hint(black_box(&theirs), black_box(first), first + 75, 1_000_000))),
        four: Some(repeat(move || asked.four())),
        least,
        goal: Some((1.0, false)),
    });
}

fn keep(r: &Report, most: u32, n: u32) {
    let confirmed = (0..n).map(|i| confirmation(2 * i)).collect();
    let held = List { most, confirmed, fingerprint: Some(7), ..list(7_400, 64) };
    let (mut start, mut theirs) = (Tables::loaded(&held), held.theirs());
    assert!(start.fingerprint(7) == 0 && calls::fingerprint(&mut theirs, 7), "the fingerprint is refused");
    let (lsn, threshold, digest) = confirmation(n | 1);
    let (mut ours, mut same, mut asked) = (start.copy(), theirs.clone(), start.copy());
    assert_eq!(ours.keep_confirmation((lsn, threshold, digest), &mut [0; BLOCK]), 0, "a confirmation is refused");
    calls::keep_confirmation(&mut same, u64::from(lsn), threshold, digest);
    assert_eq!(ours.file(), same.to_bytes(), "the confirmations differ");
    let least = Work { read: start.read(), copy: 8 * n as usize, ..Work::default() };
    r.row(Row {
        call: "keep_confirmation",
        case: format!("in the middle of {}", grouped(u64::from(n))),
        ours: restored(ours, |t| t.restore(&start), |t| t.keep_confirmation((lsn, threshold, digest), &mut [0; BLOCK])),
        theirs: Some(fresh(|| theirs.clone(), |ix| calls::keep_confirmation(ix, u64::from(lsn), threshold, digest))),
        four: Some(repeat(move || asked.four())),
        least,
        goal: None,
    });
}

/// What follows each sector that is seen.
#[derive(Clone, Copy)]
struct Seeing {
    call: &'static str,
    flush: bool,
    take: bool,
}

const SEEING: [Seeing; 3] = [
    Seeing { call: "see", flush: false, take: false },
    Seeing { call: "see and flush", flush: true, take: false },
    Seeing { call: "see and take", flush: false, take: true },
];

impl Seeing {
    fn ours(self, h: &mut Hints, sectors: &[[u8; 2048]]) {
        for (i, s) in sectors.iter().enumerate() {
            let mut refused = h.see(2_000 + i as u64, s);
            if self.flush {
                refused |= h.flush();
            }
            if self.take {
                refused |= h.take(&mut [0; BLOCK]);
            }
            assert_eq!(refused, 0, "a sector is refused");
        }
    }

    fn theirs(self, h: &mut calls::Hints, sectors: &[[u8; 2048]]) {
        for (i, s) in sectors.iter().enumerate() {
            h.see(2_000 + i as u64, s);
            if self.flush {
                h.flush();
            }
            if self.take {
                black_box(h.take());
            }
        }
    }
}

/// What a hint recorder takes last.
fn taken(h: &mut Hints) -> Vec<u8> {
    let mut answer = [0; BLOCK];
    assert_eq!(h.flush() | h.take(&mut answer), 0, "nothing is taken");
    h.list[..8 * word(&answer, 0) as usize].to_vec()
}

/// Sectors in each of which a frame starts; every second one is listed.
fn seeing(r: &Report) {
    let held = list(7_400, 64);
    let (mut ours, mut start) = (Tables::loaded(&held), Hints::new());
    assert_eq!(ours.hint_recorder(&mut start.block), 0, "no hint recorder");
    let their_start = calls::Hints::new(&held.theirs()).expect("no hint recorder");
    let sectors: Vec<[u8; 2048]> = (0..16_384).map(|i| sector(4 * i)).collect();
    for n in [64, 4_096, 16_384] {
        for call in SEEING {
            see(r, call, (start.block, &their_start), &sectors[..n]);
        }
    }
}

fn see(r: &Report, seeing: Seeing, (block, their_start): ([u8; BLOCK], &calls::Hints), sectors: &[[u8; 2048]]) {
    let (mut ours, mut theirs) = (Hints::new(), their_start.clone());
    ours.block = block;
    seeing.ours(&mut ours, sectors);
    seeing.theirs(&mut theirs, sectors);
    theirs.flush();
    assert_eq!(taken(&mut ours), bytes_of(&theirs.take()), "{}: the hints differ", seeing.call);
    r.row(Row {
        call: seeing.call,
        case: format!("{} sectors", grouped(sectors.len() as u64)),
        ours: restored(ours, move |h| h.block = block, |h| seeing.ours(h, sectors)),
        theirs: Some(fresh(|| their_start.clone(), |h| seeing.theirs(h, sectors))),
        four: None,
        least: Work::default(),
        goal: None,
    });
}
