//! Short sums, beside plain Rust: the original has none.

use crate::limits::Work;
use crate::report::{Report, Row, grouped};
use crate::rounds::{Round, repeat};
use crate::{plain, tables};
use std::hint::black_box;

pub fn rows(r: &Report) {
    for n in [2_048, 65_536, 1 << 20] {
        if r.wants("sum32") {
            sum32(r, n);
        }
    }
    let (short, long) = (plain::fnv32(b"foobar"), plain::fnv(b"foobar"));
    for k in 0..=70 {
        assert_eq!(tables::fold32(short, k), plain::fold32(short, k), "the folds to {k} bits differ");
        assert_eq!(tables::fold64(long, k), plain::fold64(long, k), "the folds to {k} bits differ");
    }
    let (a, b) = (repeat(move || tables::fold32(black_box(short), black_box(24))), repeat(move || plain::fold32(black_box(short), black_box(24))));
    fold(r, "fold32", "to 24 bits", a, b);
    let (a, b) = (repeat(move || tables::fold64(black_box(long), black_box(48))), repeat(move || plain::fold64(black_box(long), black_box(48))));
    fold(r, "fold64", "to 48 bits", a, b);
}

fn sum32(r: &Report, n: usize) {
    let s = plain::bytes(n);
    for k in 0..=n.min(4096) {
        assert_eq!(tables::sum32(&s[..k]), plain::fnv32(&s[..k]), "the short sums of {k} bytes differ");
    }
    r.row(Row {
        call: "sum32",
        case: format!("{} bytes; a plain Rust loop", grouped(n as u64)),
        ours: repeat(|| tables::sum32(black_box(&s))),
        theirs: Some(repeat(|| plain::fnv32(black_box(&s)))),
        four: None,
        least: Work::default(),
        goal: None,
    });
}

fn fold<'a>(r: &Report, call: &'static str, case: &str, ours: Round<'a>, theirs: Round<'a>) {
    r.row(Row { call, case: format!("{case}; plain Rust"), ours, theirs: Some(theirs), four: None, least: Work::default(), goal: None });
}
