//! Calls on bytes and blocks alone: sum, first record, sizes, boundary, frontier, due, version.

use crate::limits::Work;
use crate::lists::{Area, list};
use crate::raw::BLOCK;
use crate::report::{Report, Row};
use crate::rounds::{Round, repeat};
use crate::tables::Tables;
use crate::{plain, tables};
use std::hint::black_box;

pub fn rows(r: &Report) {
    for n in [2_048, 65_536, 1 << 20] {
        if r.wants("sum") {
            sum(r, n);
        }
    }
    if r.wants("first record") {
        first_record(r);
    }
    if r.wants("sizes") {
        sizes(r);
    }
    numbers(r);
}

fn sum(r: &Report, n: usize) {
    let s = plain::bytes(n);
    for k in 0..=n.min(4096) {
        assert_eq!(tables::sum(&s[..k]), plain::fnv(&s[..k]), "the sums of {k} bytes differ");
    }
    r.row(Row {
        call: "sum",
        case: format!("{} bytes", crate::report::grouped(n as u64)),
        ours: repeat(|| tables::sum(black_box(&s))),
        theirs: Some(repeat(|| plain::fnv(black_box(&s)))),
        four: None,
        least: Work { sum: n, ..Work::default() },
        goal: None,
    });
}

/// A sector whose first record has a frame number.
pub fn sector(number: u32) -> [u8; 2048] {
    let mut s = [0u8; 2048];
    s.copy_from_slice(&plain::bytes(2048));
    let (minutes, seconds, frames) = (number / 4500, number / 75 % 60, number % 75);
    s[..6].copy_from_slice(&[0x24, 0, 0, minutes as u8, seconds as u8, frames as u8]);
    s
}

fn first_record(r: &Report) {
    let s = sector(100_000);
    assert_eq!(tables::first_record(&s), Some(100_000));
    assert_eq!(oracle::calls::first_record(&s), Some(100_000));
    r.row(Row {
        call: "first record",
        case: "a sector".to_string(),
        ours: repeat(|| tables::first_record(black_box(&s))),
        theirs: Some(repeat(|| oracle::calls::first_record(black_box(&s)))),
        four: None,
        least: Work::default(),
        goal: None,
    });
}

fn sizes(r: &Report) {
    let a: Area = list(7_400, 64).area();
    let mut answer = [0; BLOCK];
    r.row(Row {
        call: "sizes",
        case: "an area".to_string(),
        ours: repeat(move || tables::area_sizes(black_box(&a), 64, 1 << 20, 2048, &mut answer)),
        theirs: None,
        four: None,
        least: Work::default(),
        goal: None,
    });
}

/// Calls that the original has no like of: one block is read, and one word answered.
fn numbers(r: &Report) {
    let mut t = Tables::loaded(&crate::lists::List { checkpoints: 3_700, ..list(7_400, 64) });
    let (mut answer, mut block, head) = ([0; BLOCK], [0; BLOCK], t.head);
    assert_eq!(tables::boundary(&head, 3_700, &mut answer), Some(1_000 + 64 * 3_700));
    row(r, "boundary", repeat(move || tables::boundary(black_box(&head), black_box(3_700), &mut answer)));
    assert_eq!(tables::frontier(&head, &mut answer), Some(1_000 + 64 * 3_699));
    row(r, "frontier", repeat(move || tables::frontier(black_box(&head), &mut answer)));
    assert_eq!(t.recorder(1_000, &mut block), 0, "a recorder is refused");
    assert_eq!(tables::due(&block, &mut answer), Some(1_000 + 64 * 3_700));
    row(r, "due", repeat(move || tables::due(black_box(&block), &mut answer)));
    row(r, "version", repeat(tables::version));
}

fn row(r: &Report, call: &'static str, ours: Round<'_>) {
    if r.wants(call) {
        r.row(Row { call, case: "a block".to_string(), ours, theirs: None, four: None, least: Work::default(), goal: None });
    }
}
