//! Kept hints: marking one, thinning and saving with a quarter of the limit kept. The original has no marks.

use crate::hints::{bytes_of, every, holding};
use crate::limits::Work;
use crate::lists::List;
use crate::report::{Report, Row, grouped};
use crate::rounds::{fresh, repeat, restored};
use crate::tables::Tables;
use std::hint::black_box;

pub fn rows(r: &Report) {
    if r.wants("keep_hint") {
        for (most, held) in [(4_096, 64), (4_096, 2_048), (65_536, 65_536)] {
            keep(r, most, held);
        }
    }
    if r.wants("add_hints") {
        add(r, "2,048 to 2,048, rising, thinned from 4,096 to 1,536, 512 kept", &holding(2_048, 2_048), every(1..4_096, 2));
        add(r, "65,536 to 65,536, rising, thinned from 131,072 to 49,152, 16,384 kept", &holding(65_536, 65_536), every(1..131_072, 2));
    }
    if r.wants("save") {
        save(r, &holding(2_048, 2_048));
        save(r, &holding(65_536, 65_536));
    }
}

/// The list, loaded, and every fourth hint marked.
fn marked(list: &List) -> Tables {
    let mut t = Tables::loaded(list);
    t.tables[5][..8 * list.hints.len()].chunks_exact_mut(32).for_each(|four| four[15] = 1);
    t.four();
    t
}

fn keep(r: &Report, most: u32, n: u32) {
    let held = holding(most, n);
    let (start, mut asked, lsn) = (Tables::loaded(&held), Tables::loaded(&held), u64::from(held.hints[n as usize / 2].0));
    let (ours, least) = (start.copy(), Work { read: start.read(), ..Work::default() });
    r.row(Row {
        call: "keep_hint",
        case: format!("in the middle of {}", grouped(u64::from(n))),
        ours: restored(ours, |t| t.restore(&start), |t| assert_eq!(t.keep_hint(black_box(lsn)), 0, "a mark is refused")),
        theirs: None,
        four: Some(repeat(move || asked.four())),
        least,
        goal: None,
    });
}

fn add(r: &Report, case: &str, held: &List, given: Vec<(u32, u32)>) {
    if !r.has(case) {
        return;
    }
    let (start, list) = (marked(held), bytes_of(&given));
    let (ours, mut asked) = (start.copy(), start.copy());
    let least = Work { read: start.read() + list.len(), copy: 8 * held.hints.len() + list.len(), ..Work::default() };
    r.row(Row {
        call: "add_hints",
        case: case.to_string(),
        ours: restored(ours, |t| t.restore(&start), |t| assert_eq!(t.add_hints(&list), 0, "{case}: refused")),
        theirs: None,
        four: Some(repeat(move || asked.four())),
        least,
        goal: None,
    });
}

/// A list with marks has the file of the list without them, which the original writes.
fn save(r: &Report, held: &List) {
    let case = format!("7,400 checkpoints, {} hints, a quarter kept", grouped(held.hints.len() as u64));
    if !r.has(&case) {
        return;
    }
    let (mut ours, mut asked, theirs) = (marked(held), marked(held), held.theirs());
    let mut out = ours.file();
    assert_eq!(out, theirs.to_bytes(), "{case}: the files differ");
    let least = Work { sum: out.len(), copy: out.len(), ..Work::default() };
    r.row(Row {
        call: "save",
        case,
        ours: repeat(move || black_box(&mut ours).save(&mut out)),
        theirs: Some(fresh(|| (), move |_| black_box(&theirs).to_bytes())),
        four: Some(repeat(move || asked.four())),
        least,
        goal: None,
    });
}
