//! view and view_length. The original has no views.

use crate::hints::holding;
use crate::limits::Work;
use crate::report::{Report, Row};
use crate::rounds::repeat;
use crate::tables::Tables;
use std::hint::black_box;

pub fn rows(r: &Report) {
    if r.wants("view") {
        view(r, 1, "a listener's of 7,400 checkpoints");
        view(r, 2, "a workshop's of 7,400 checkpoints and 2,048 hints");
    }
}

fn view(r: &Report, role: u32, case: &str) {
    if !r.has(case) {
        return;
    }
    let list = holding(2_048, 2_048);
    let (mut ours, mut asked) = (Tables::loaded(&list), Tables::loaded(&list));
    let mut out = vec![0; ours.view_length(role) as usize];
    assert_eq!(ours.view(role, &mut out), out.len() as u64, "{case}: refused");
    let least = Work { read: ours.read(), copy: out.len(), ..Work::default() };
    r.row(Row {
        call: "view",
        case: case.to_string(),
        ours: repeat(move || ours.view(black_box(role), &mut out)),
        theirs: None,
        four: Some(repeat(move || asked.four())),
        least,
        goal: None,
    });
}
