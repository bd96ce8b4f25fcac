//! Calls on a shelf, beside plain Rust: the original has none.

use crate::limits::Work;
use crate::raw::{self, ShelfAnswer, ShelfNumbers, ShelfRecord};
use crate::report::{Report, Row};
use crate::rounds::repeat;
use std::hint::black_box;

const MOST: usize = 64;

fn record(start: u64, length: u64, stamp: u64) -> ShelfRecord {
    ShelfRecord { slot: 0, channels: 2, key_start: 1, key_end: 2, sectors: 9000, start, end: 5000, length, stamp }
}

fn same(a: &ShelfRecord, b: &ShelfRecord) -> bool {
    ShelfRecord { length: 0, stamp: 0, ..*a } == ShelfRecord { length: 0, stamp: 0, ..*b }
}

/// The same in plain Rust: the lists in a vector, whose length is the number present.
fn plain_enter(lists: &mut Vec<ShelfRecord>, count: u64, limit: u64, new: ShelfRecord) -> Option<u64> {
    plain_asks(lists, count, limit)?;
    let room = limit.checked_sub(new.length)?;
    lists.retain(|r| !same(r, &new));
    while lists.len() == MOST || lists.iter().map(|r| r.length).sum::<u64>() > room {
        let oldest = (0..lists.len()).min_by_key(|&i| lists[i].stamp)?;
        lists.remove(oldest);
    }
    lists.push(ShelfRecord { stamp: count + 1, ..new });
    Some(count + 1)
}

fn plain_jump(lists: &mut [ShelfRecord], count: u64, limit: u64, area: &ShelfRecord) -> Option<u64> {
    plain_asks(lists, count, limit)?;
    lists.iter_mut().find(|r| same(r, area))?.stamp = count + 1;
    Some(count + 1)
}

fn plain_asks(lists: &[ShelfRecord], count: u64, limit: u64) -> Option<()> {
    let twice = lists.iter().enumerate().any(|(i, r)| lists[..i].iter().any(|q| same(r, q)));
    (count < u64::MAX && lists.len() <= MOST && !twice && lists.iter().map(|r| r.length).sum::<u64>() <= limit).then_some(())
}

fn enter(table: &mut [ShelfRecord], numbers: ShelfNumbers, list: ShelfRecord) -> ShelfAnswer {
    // Safety: pointer and length are those of one slice.
    unsafe { raw::seek_raw_shelf_enter(table.as_mut_ptr(), table.len(), numbers, list) }
}

fn jump(table: &mut [ShelfRecord], numbers: ShelfNumbers, list: ShelfRecord) -> ShelfAnswer {
    // Safety: pointer and length are those of one slice.
    unsafe { raw::seek_raw_shelf_jump(table.as_mut_ptr(), table.len(), numbers, list) }
}

pub fn rows(r: &Report) {
    let full: Vec<ShelfRecord> = (0..MOST as u64).map(|k| record(k, 10, k + 1)).collect();
    let numbers = ShelfNumbers { present: 64, count: 64, limit: 1000 };
    let (new, last) = (record(64, 10, 0), record(63, 10, 0));
    let (mut table, mut lists) = (full.clone(), full.clone());
    assert_eq!(enter(&mut table, numbers, new).count, plain_enter(&mut lists, 64, 1000, new).unwrap());
    assert_eq!(table, lists, "the shelves differ after an entry");
    assert_eq!(jump(&mut table, numbers, last).count, plain_jump(&mut lists, 64, 1000, &last).unwrap());
    assert_eq!(table, lists, "the shelves differ after a jump");
    let (mut table, mut lists) = (full.clone(), full.clone());
    r.row(Row {
        call: "shelf_enter",
        case: "64 lists, one is dropped; plain Rust".into(),
        ours: repeat(|| {
            table.copy_from_slice(&full);
            enter(black_box(&mut table), numbers, new)
        }),
        theirs: Some(repeat(|| {
            lists.clone_from(&full);
            plain_enter(black_box(&mut lists), 64, 1000, new)
        })),
        four: None,
        least: Work::default(),
        goal: None,
    });
    let (mut table, mut lists) = (full.clone(), full.clone());
    r.row(Row {
        call: "shelf_jump",
        case: "64 lists, the last of them; plain Rust".into(),
        ours: repeat(|| jump(black_box(&mut table), numbers, last)),
        theirs: Some(repeat(|| plain_jump(black_box(&mut lists), 64, 1000, &last))),
        four: None,
        least: Work::default(),
        goal: None,
    });
}
