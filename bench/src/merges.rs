//! merge, merge_all, adds, lacks and coarse.

use crate::limits::Work;
use crate::lists::{List, confirmation, hint, list, longest};
use crate::raw::BLOCK;
use crate::report::{Report, Row};
use crate::rounds::{fresh, repeat, restored};
use crate::tables::Tables;
use oracle::calls;

pub fn rows(r: &Report) {
    if r.wants_any(&["merge", "adds", "lacks"]) {
        checkpoints(r);
        confirmations(r, 4_096, 2_048);
        confirmations(r, 65_536, 65_536);
        both(r, "262,144 hints and 262,144, thinned from 524,288 to 196,608", &longest(0, false), &longest(1, false));
        full(r);
    }
    if r.wants("merge_all") {
        merge_all(r, 16);
    }
    if r.wants("coarse") {
        coarse(r, "7,400 checkpoints, 2,048 hints, to every fourth", &List { hints: hints(0, 2_048), ..list(7_400, 64) }, 4);
        let frames = List { held: (1..=16).map(|i| 20 * i).collect(), budget: 1 << 20, ..list(1_000, 64) };
        coarse(r, "1 MiB of frame bytes, to every fourth, all parts kept", &frames, 4);
    }
}

/// A list at `ratio` times its interval. What is copied: every `ratio`-th checkpoint, all parts, hints and confirmations.
/// A drawer of lists that go further and further, into the shortest.
fn merge_all(r: &Report, n: u32) {
    let case = format!("{n} files of up to 7,400 checkpoints");
    if !r.has(&case) {
        return;
    }
    let lists: Vec<List> = (1..=n).map(|i| List { checkpoints: 7_400 * i / n, ..list(7_400, 64) }).collect();
    let files: Vec<Vec<u8>> = lists.iter().map(|l| Tables::loaded(l).file()).collect();
    let lengths: Vec<u8> = files.iter().flat_map(|f| (f.len() as u64).to_le_bytes()).collect();
    let (start, longest) = (Tables::loaded(&lists[0]), lists.last().expect("a list"));
    let (buffer, mut work, mut asked, ours) = (files.concat(), Tables::loaded(longest), start.copy(), start.copy());
    let least = Work { sum: buffer.len(), read: buffer.len(), ..Work::default() };
    r.row(Row {
        call: "merge_all",
        case,
        ours: restored(ours, |t| t.restore(&start), |t| assert_eq!(t.merge_all(&lengths, &buffer, &mut work), 0, "a set is refused")),
        theirs: None,
        four: Some(repeat(move || asked.four())),
        least,
        goal: None,
    });
}

fn coarse(r: &Report, case: &str, fine: &List, ratio: u32) {
    let (ours, interval) = (Tables::loaded(fine), fine.interval * ratio);
    let mut to = Tables::new(&List { boundaries: fine.boundaries.div_ceil(ratio), interval, ..fine.clone() });
    let [checkpoints, frames, store, parts, malformed, hints, confirmed] = ours.used();
    let copy = checkpoints / ratio as usize + frames + store + parts + malformed + hints + confirmed;
    let least = Work { read: ours.read(), copy, ..Work::default() };
    let (mut ours, mut one) = (ours.copy(), ours.copy());
    assert_eq!(ours.coarse(interval, &mut to), 0, "{case}: refused");
    r.row(Row {
        call: "coarse",
        case: case.to_string(),
        ours: repeat(move || ours.coarse(interval, &mut to)),
        theirs: None,
        four: Some(repeat(move || one.four())),
        least,
        goal: None,
    });
}

/// Two lists of as many hints and confirmations as there may be. The original would move its confirmations 262,144 times.
fn full(r: &Report) {
    let case = "262,144 hints and confirmations each, none common";
    if !r.has(case) {
        return;
    }
    let (mut start, other) = (Tables::loaded(&longest(0, true)), Tables::loaded(&longest(1, true)));
    assert_eq!(start.fingerprint(7), 0, "the fingerprint is refused");
    let mut ours = start.copy();
    assert_eq!(ours.merge(&other), 0, "{case}: refused");
    let copy = start.used()[5..].iter().chain(&other.used()[5..]).sum();
    let least = Work { read: start.read() + other.read(), copy, ..Work::default() };
    let (mut one, mut two) = (start.copy(), other.copy());
    r.row(Row {
        call: "merge",
        case: case.to_string(),
        ours: restored(ours, |t| t.restore(&start), |t| t.merge(&other)),
        theirs: None,
        four: Some(repeat(move || (one.four(), two.four()))),
        least,
        goal: None,
    });
}

fn hints(from: u32, n: u32) -> Vec<(u32, u32)> {
    (from..from + n).map(hint).collect()
}

fn checkpoints(r: &Report) {
    let full = List { hints: hints(0, 2_048), ..list(7_400, 64) };
    let half = List { checkpoints: 3_700, hints: hints(1_024, 2_048), ..full.clone() };
    let none = List { checkpoints: 0, hints: hints(4_096, 2_048), ..full.clone() };
    both(r, "7,400 checkpoints, 2,048 hints: half known, hints thinned", &half, &full);
    both(r, "7,400 checkpoints, 2,048 hints: nothing new", &full, &full);
    both(r, "7,400 checkpoints, 2,048 hints: all new, hints thinned", &none, &full);
    let room = |l: &List| List { most: 8_192, ..l.clone() };
    both(r, "the same, half known, room for all hints", &room(&half), &room(&full));
    both(r, "the same, all new, room for all hints", &room(&none), &room(&full));
    let long = list(475_000, 1);
    both(r, "475,000 checkpoints: half known", &List { checkpoints: 237_500, ..long.clone() }, &long);
    both(r, "475,000 checkpoints: nothing new", &long, &long);
    both(r, "475,000 checkpoints: all new", &List { checkpoints: 0, ..long.clone() }, &long);
    let own = List { checkpoints: 500, held: (1..=16).map(|i| 10 * i).collect(), budget: 1 << 21, ..list(1_000, 64) };
    let other = List { checkpoints: 1_000, held: (1..=16).map(|i| 500 + 10 * i).collect(), ..own.clone() };
    both(r, "1 MiB of frame bytes each, all new", &own, &other);
    same_frames(r, &other);
}

/// A list and itself, of which every frame byte is compared.
fn same_frames(r: &Report, list: &List) {
    let ours = Tables::loaded(list);
    let [checkpoints, _, store, ..] = ours.used();
    let least = Work { read: 2 * ours.read(), compare: checkpoints + store, ..Work::default() };
    lacks(r, "1 MiB of frame bytes each, the same", &ours, &ours, least);
}

/// Two lists of `n` confirmations, none common.
fn confirmations(r: &Report, most: u32, n: u32) {
    let with = |odd: u32| List { most, confirmed: (0..n).map(|i| confirmation(2 * i + odd)).collect(), fingerprint: Some(7), ..list(7_400, 64) };
    both(r, &format!("{0} confirmations and {0}", crate::report::grouped(u64::from(n))), &with(0), &with(1));
}

fn both(r: &Report, case: &str, own: &List, other: &List) {
    if !r.has(case) {
        return;
    }
    let (mut start, other_ours) = (Tables::loaded(own), Tables::loaded(other));
    let (mut theirs, other_theirs) = (own.theirs(), other.theirs());
    if own.fingerprint.is_some() {
        assert!(start.fingerprint(7) == 0 && calls::fingerprint(&mut theirs, 7), "the fingerprint is refused");
    }
    let (mut ours, mut same) = (start.copy(), theirs.clone());
    assert_eq!(ours.merge(&other_ours), 0, "{case}: refused");
    assert!(same.merge(&other_theirs).is_ok(), "{case}: the original refuses");
    assert_eq!(ours.file(), calls::saved(&same), "{case}: the merged lists differ");
    let (a, b) = (start.used(), other_ours.used());
    let common = a[0].min(b[0]);
    let rest = b[0] - common;
    let list_bytes = |u: [usize; 7]| u[5] + u[6];
    let parts = if rest > 0 { b[1] + b[2] + b[3] } else { 0 };
    let copy = rest + parts + list_bytes(a) + list_bytes(b);
    let least = Work { read: start.read() + other_ours.read(), compare: common, copy, ..Work::default() };
    if r.wants("merge") {
        let (mut one, mut two) = (start.copy(), other_ours.copy());
        let four = repeat(move || (one.four(), two.four()));
        r.row(Row {
            call: "merge",
            case: case.to_string(),
            ours: restored(ours, |t| t.restore(&start), |t| t.merge(&other_ours)),
            theirs: Some(fresh(|| theirs.clone(), |ix| ix.merge(&other_theirs).is_ok())),
            four: Some(four),
            least,
            goal: Some((0.7, true)),
        });
    }
    if r.wants("adds") {
        adds(r, case, &start, &other_ours, Work { copy: 0, ..least });
    }
    lacks(r, case, &start, &other_ours, Work { copy: 0, ..least });
}

fn lacks(r: &Report, case: &str, own: &Tables, other: &Tables, least: Work) {
    let (mut ours, mut one, mut two, mut answer) = (own.copy(), own.copy(), other.copy(), [0; BLOCK]);
    assert_eq!(ours.lacks(other, &mut answer), 0, "{case}: lacks refuses");
    r.row(Row {
        call: "lacks",
        case: case.to_string(),
        ours: repeat(move || ours.lacks(other, &mut answer)),
        theirs: None,
        four: Some(repeat(move || (one.four(), two.four()))),
        least,
        goal: None,
    });
}

fn adds(r: &Report, case: &str, own: &Tables, other: &Tables, least: Work) {
    let (mut ours, mut one, mut two, mut answer) = (own.copy(), own.copy(), other.copy(), [0; BLOCK]);
    r.row(Row {
        call: "adds",
        case: case.to_string(),
        ours: repeat(move || ours.adds(other, &mut answer)),
        theirs: None,
        four: Some(repeat(move || (one.four(), two.four()))),
        least,
        goal: None,
    });
}
