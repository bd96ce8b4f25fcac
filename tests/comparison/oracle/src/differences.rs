//! The rows of "Intended differences" in docs/DIFFERENCES.md, run on the original: each row's smallest input, and what
//! the column "Source" says of it. tests/comparison/differences.script has the same inputs for the library.

use super::*;
use crate::audio::Warning;
use crate::error::Slot;
use crate::script::number;
use std::hint::black_box;
use std::panic::{AssertUnwindSafe, catch_unwind};

enum Source {
    /// The input is made with the original's functions, and looked at.
    Run(fn()),
    /// Why there is nothing to run.
    Not(&'static str),
}

use Source::{Not, Run};

const ROWS: [(&str, Source); 26] = [
    ("a part that starts before the last stored one", Run(earlier_part)),
    ("a part of the last start with another number or kind", Run(other_part)),
    ("a part of the last start with fewer bytes than the last part", Run(shorter_part)),
    ("a frame that starts in the checkpoint's own sector", Run(own_sector)),
    ("a part without bytes at a budget of 0", Run(no_bytes)),
    ("hints of one LSN with two numbers", Run(two_numbers)),
    ("a budget above 4,294,967,295", Run(large_budget)),
    ("a slot that is not 0 or 1, or a range that ends above 4,294,967,295", Run(last_sector)),
    ("area and range", Run(derived_range)),
    ("a confirmation outside the area, or with a threshold above 1,166,880", Run(confirmations)),
    ("`hint` with an end below first", Run(end_below_first)),
    ("absorb of a list that would break the rules of 4", Run(broken_rules)),
    ("absorb with malformed LSNs that do not rise, or do not open with the held ones", Run(malformed_lists)),
    ("absorb with 4,096 malformed LSNs held", Run(malformed_full)),
    ("a recorder of a complete index", Run(complete)),
    ("the malformed LSNs and image id of a reading", Not("the cursor is stubbed: it holds what it is given")),
    ("image id where a cursor brings only hints", Run(only_hints)),
    ("keep_confirmation's answer", Run(no_answer)),
    ("`see` of a sector that has not 2,048 bytes", Not("cannot be said: its type is an array of 2,048 bytes")),
    ("`plan`", Run(borrowed_part)),
    ("a refusal", Run(refusal)),
    ("questions 3 and 4", Run(unasked_list)),
    ("questions 5, 6, 13 and 40, and the rest of 7", Run(unasked_calls)),
    ("the cost of `plan`", Not("a time: bench/ measures it")),
    ("a new list with an M above 65,536", Run(lowered)),
    ("a file of version 4", Run(fourth_version)),
];

/// Runs the rows. The table in the text `paper` must have exactly these, and `script` a comment with each.
pub fn run(paper: &str, script: &str) -> Result<(), String> {
    let read = |path: &str| std::fs::read_to_string(path).map_err(|e| format!("{path}: {e}"));
    let (table, lines) = (read(paper)?, read(script)?);
    let table = table.split("\n## ").find(|s| s.starts_with("Intended differences")).unwrap_or_default();
    let cells: Vec<&str> = table.lines().filter_map(|l| l.strip_prefix("| ")?.split(" | ").next()).skip(1).collect();
    let named: Vec<&str> = ROWS.iter().map(|r| r.0).collect();
    if cells != named {
        return Err(format!("{paper} has the rows {cells:#?}, not {named:#?}"));
    }
    let comments: Vec<&str> = lines.lines().filter_map(|l| l.strip_prefix("# ")?.split(": no lines").next()).collect();
    for (what, source) in &ROWS {
        if !comments.contains(what) {
            return Err(format!("{script} does not name the row: {what}"));
        }
        match source {
            Run(check) => {
                catch_unwind(check).map_err(|_| format!("the source does something else: {what}"))?;
                println!("{what}: run");
            }
            Not(why) => println!("{what}: not run, {why}"),
        }
    }
    Ok(())
}

const SECTOR: [u8; SECTOR_SIZE] = [0; SECTOR_SIZE];

/// A new list of the sectors 0..end.
fn list(end: u32, interval: u32, budget: usize, most: usize) -> AreaIndex {
    let area = Area::new(Slot::TwoChannel, 0, end.saturating_sub(1), 0);
    let options = IndexOptions::new().with_interval(interval).with_inline_budget(budget).with_hints(1, most);
    AreaIndex::new(&area, u64::from(end), options).unwrap()
}

/// A list saved and loaded, or the number of the loader's text.
fn reloaded(ix: &AreaIndex) -> Result<AreaIndex, u32> {
    let area = Area::new(ix.key.slot, ix.key.start, ix.key.end, ix.key.channels);
    AreaIndex::from_bytes(&area, ix.key.image_sectors, &ix.to_bytes(), usize::MAX).map_err(|e| number(&e))
}

/// A cursor with a recorder of the list.
fn reading(ix: &AreaIndex) -> AreaCursor {
    AreaCursor { recorder: ix.recorder(0), ..AreaCursor::default() }
}

fn record(cursor: &mut AreaCursor, lsn: u64, threshold: u32, malformed: u64) {
    cursor.recorder_mut().unwrap().record(lsn, threshold, malformed, None, &SECTOR);
}

fn record_frame(cursor: &mut AreaCursor, lsn: u64, start_lsn: u64, number: u32, kind: FrameKind, data: &[u8]) {
    let frame = Assembling { start_lsn, number, kind, remaining: 0, data };
    cursor.recorder_mut().unwrap().record(lsn, 0, 0, Some(frame), &SECTOR);
}

fn finish(cursor: &mut AreaCursor, threshold: u32, malformed: u64) {
    cursor.recorder_mut().unwrap().finish(threshold, malformed);
}

/// An absorb that is accepted, of a cursor with these malformed LSNs.
fn absorb(ix: &mut AreaIndex, cursor: &mut AreaCursor, malformed: &[u32]) {
    cursor.warnings = malformed.iter().map(|&lsn| Warning { lsn: Some(lsn) }).collect();
    ix.absorb(cursor).unwrap();
}

/// What a call answers, or None where it panics.
fn caught<T>(call: impl FnOnce() -> T) -> Option<T> {
    let hook = std::panic::take_hook();
    std::panic::set_hook(Box::new(|_| {}));
    let answer = catch_unwind(AssertUnwindSafe(call)).ok();
    std::panic::set_hook(hook);
    answer
}

/// What a call with a difference below 0 answers: it panics where arithmetic is checked, as in this crate's builds.
fn below_zero<T: PartialEq + std::fmt::Debug>(call: impl FnOnce() -> T, unchecked: T) {
    let checked = caught(|| black_box(0u32) - black_box(1)).is_none();
    assert_eq!(caught(call), (!checked).then_some(unchecked));
}

/// A list with a checkpoint at 0 and one with a frame, or two, at the next boundaries.
fn with_parts(interval: u32, budget: usize, frames: &[(u64, u32, FrameKind, &[u8])]) -> AreaIndex {
    let mut ix = list(interval * frames.len() as u32 + 1, interval, budget, 0);
    let mut cursor = reading(&ix);
    record(&mut cursor, 0, 0, 0);
    for (j, f) in (1..).zip(frames) {
        record_frame(&mut cursor, j * u64::from(interval), f.0, f.1, f.2, f.3);
    }
    absorb(&mut ix, &mut cursor, &[]);
    ix
}

/// Both parts are stored, and the saved file is refused.
fn refused_parts(ix: &AreaIndex) {
    assert_eq!(ix.stored.held.len(), 2);
    assert_eq!(reloaded(ix), Err(32));
}

fn earlier_part() {
    refused_parts(&with_parts(34, 0, &[(1, 0, FrameKind::Dst, &[]), (0, 0, FrameKind::Dst, &[])]));
}

fn other_part() {
    refused_parts(&with_parts(33, 0, &[(0, 0, FrameKind::Dst, &[]), (0, 1, FrameKind::Dst, &[])]));
    refused_parts(&with_parts(33, 0, &[(0, 0, FrameKind::Dst, &[]), (0, 0, FrameKind::Dsd, &[])]));
}

fn shorter_part() {
    refused_parts(&with_parts(33, 1, &[(0, 0, FrameKind::Dst, &[0]), (0, 0, FrameKind::Dst, &[])]));
}

fn own_sector() {
    let mut ix = list(1, 1, 0, 0);
    let mut cursor = reading(&ix);
    record_frame(&mut cursor, 0, 0, 0, FrameKind::Dst, &[]);
    assert_eq!(cursor.recorder().unwrap().checkpoints[0].back, 1);
    let absorbed = || {
        absorb(&mut ix, &mut cursor, &[]);
        reloaded(&ix).err()
    };
    below_zero(absorbed, Some(31));
}

fn no_bytes() {
    let ix = with_parts(33, 0, &[(0, 0, FrameKind::Dst, &[])]);
    assert_eq!((ix.inline_budget, ix.stored.held.len(), ix.stored.used), (0, 1, 0));
    assert_eq!(reloaded(&ix), Ok(ix));
}

/// Which of the two stays is left to the sort. Rust 1.95 sorts up to 20 hints by insertion, so that the earlier one stays.
fn two_numbers() {
    let mut short = list(1, 1, 0, 1);
    short.add_hints(vec![(0, 1), (0, 0)]);
    let mut held = list(1, 1, 0, 1);
    held.add_hints(vec![(0, 0)]);
    held.add_hints(vec![(0, 1)]);
    let mut long = list(2, 1, 0, 2);
    long.add_hints([vec![(1, 0), (0, 1)], vec![(0, 0); 19]].concat());
    let lsns = |ix: &AreaIndex| ix.samples.iter().map(|s| s.0).collect::<Vec<_>>();
    assert!(lsns(&short) == [0] && lsns(&held) == [0] && lsns(&long) == [0, 1]);
    assert!([&short, &held, &long].iter().all(|ix| ix.samples[0].1 < 2));
    println!(
        "of (0,1) and (0,0) stays {:?}; where (0,0) is held, with (0,1), {:?}; of (0,1) and 19 of (0,0), with (1,0) before, {:?}",
        short.samples[0], held.samples[0], long.samples[0]
    );
}

fn large_budget() {
    let ix = list(0, 1, 1 << 32, 0);
    assert_eq!(ix.inline_budget, 1 << 32);
    assert_eq!(reloaded(&ix).map(|new| new.inline_budget), Ok((1 << 32) - 1));
}

/// The slot is an enum of two; the range ends at most there.
fn last_sector() {
    let area = Area::new(Slot::TwoChannel, u32::MAX, u32::MAX, 0);
    let ix = AreaIndex::new(&area, 1 << 32, IndexOptions::new().with_interval(1)).unwrap();
    assert_eq!((ix.start, ix.end), ((1 << 32) - 1, 1 << 32));
    assert_eq!(reloaded(&ix), Ok(ix));
}

fn derived_range() {
    let (mut own, other) = (list(0, 1, 0, 0), list(0, 1, 0, 0));
    assert_eq!((own.start, own.end), own.key.audio_sector_range());
    assert!(own.key == other.key && own.merge(&other).is_ok());
}

fn confirmations() {
    let kept = |end: u32, lsn: u64, threshold: u32| {
        let mut ix = list(end, 1, 0, 1);
        ix.bind_fingerprint(0).unwrap();
        ix.keep_confirmation(lsn, threshold, 0);
        (ix.confirmed.len(), reloaded(&ix).err())
    };
    assert_eq!(kept(0, 0, 0), (1, Some(37)));
    assert_eq!(kept(1, 0, LIM), (1, Some(37)));
    assert_eq!(kept(1, 0, LIM - 1), (1, None));
    assert_eq!(kept(0, 1 << 32, 0), (0, None));
}

fn end_below_first() {
    assert_eq!(list(0, 1, 0, 0).hint(1, 0, 0), None);
    let with_hint = |t: u32| {
        let mut ix = list(1, 1, 0, 1);
        ix.add_hints(vec![(0, t)]);
        ix
    };
    assert_eq!(with_hint(0).hint(1, 0, 0), Some((0, 0, 4, false)));
    let ix = with_hint(1);
    below_zero(|| ix.hint(2, 0, 0), Some((0, 1, 5_368_709_122, false)));
}

fn broken_rules() {
    // The end state counts a malformed sector that is not listed.
    let mut ix = list(1, 1, 0, 0);
    let mut cursor = reading(&ix);
    record(&mut cursor, 0, 0, 0);
    finish(&mut cursor, 0, 1);
    absorb(&mut ix, &mut cursor, &[]);
    assert_eq!(reloaded(&ix), Err(35));
    // The threshold falls between the held checkpoint and the new one.
    let mut ix = list(2, 1, 0, 0);
    let mut cursor = reading(&ix);
    record(&mut cursor, 0, 1, 0);
    absorb(&mut ix, &mut cursor, &[]);
    record(&mut cursor, 1, 0, 0);
    absorb(&mut ix, &mut cursor, &[]);
    assert_eq!(reloaded(&ix), Err(31));
}

fn malformed_lists() {
    let mut ix = list(1, 1, 0, 0);
    let mut cursor = reading(&ix);
    record(&mut cursor, 0, 0, 0);
    finish(&mut cursor, 0, 0);
    absorb(&mut ix, &mut cursor, &[1, 0]);
    assert_eq!((ix.is_complete(), &ix.malformed[..]), (true, &[][..]));
    assert_eq!(reloaded(&ix), Ok(ix));
    let mut ix = list(2, 1, 0, 0);
    let mut cursor = reading(&ix);
    record(&mut cursor, 0, 0, 0);
    record(&mut cursor, 1, 0, 1);
    absorb(&mut ix, &mut cursor, &[0]);
    assert_eq!(ix.malformed, [0]);
    finish(&mut cursor, 0, 1);
    absorb(&mut ix, &mut cursor, &[1]);
    assert_eq!((ix.is_complete(), &ix.malformed[..]), (true, &[1][..]));
    assert_eq!(reloaded(&ix), Ok(ix));
}

fn malformed_full() {
    let mut ix = list(4097, 4096, 0, 0);
    let mut cursor = reading(&ix);
    record(&mut cursor, 0, 0, 0);
    record(&mut cursor, 4096, 0, 4096);
    let all: Vec<u32> = (0..4096).collect();
    absorb(&mut ix, &mut cursor, &all);
    finish(&mut cursor, 0, 4096);
    let mut same = ix.clone();
    absorb(&mut same, &mut cursor.clone(), &all);
    absorb(&mut ix, &mut cursor, &[]);
    assert_eq!((ix.is_complete(), &ix.malformed), (true, &all));
    assert_eq!(ix, same);
}

fn complete() {
    let mut ix = list(0, 1, 0, 0);
    let mut cursor = reading(&ix);
    finish(&mut cursor, 0, 0);
    absorb(&mut ix, &mut cursor, &[]);
    assert!(ix.is_complete() && ix.recorder(0).is_none());
}

/// A hint is news from the end of the reading on, or with 63 others; before that it is taken and the id is not.
fn only_hints() {
    let taken = |ended: bool| {
        let mut ix = list(1, 1, 0, 1);
        let mut hints = ix.hint_recorder().unwrap();
        let mut sector = SECTOR;
        sector[0] = 4;
        hints.see(0, &sector);
        if ended {
            hints.flush();
        }
        let mut cursor = AreaCursor { image_id: Some(0), hints: Some(hints), ..AreaCursor::default() };
        absorb(&mut ix, &mut cursor, &[]);
        (ix.image_id, ix.samples)
    };
    assert_eq!(taken(true), (Some(0), vec![(0, 0)]));
    assert_eq!(taken(false), (None, vec![(0, 0)]));
}

fn no_answer() {
    let mut ix = list(1, 1, 0, 1);
    ix.bind_fingerprint(0).unwrap();
    let () = ix.keep_confirmation(0, 0, 0);
    assert_eq!(ix.confirmed, [(0, 0, 0)]);
}

fn borrowed_part() {
    let ix = with_parts(33, 1, &[(0, 0, FrameKind::Dst, &[0])]);
    let Plan::At { lsn: 33, held: Some((_, bytes)), .. } = ix.plan(0) else { panic!("no part") };
    assert!(std::ptr::eq(bytes, &ix.stored.frames[0].bytes[..]));
}

fn refusal() {
    let area = Area::new(Slot::TwoChannel, 0, 0, 0);
    let refused = AreaIndex::new(&area, 0, IndexOptions::new().with_interval(0));
    assert!(matches!(refused, Err(Error::InvalidArgument("seek index interval must be 1 to 65536"))));
}

/// A checkpoint more than the area has boundaries.
fn unasked_list() {
    let mut ix = list(0, 1, 0, 0);
    ix.checkpoints.push(Checkpoint { next_acceptable: 0, back: 0, malformed_before: 0, digest: 0 });
    assert!(matches!(ix.plan(0), Plan::At { lsn: 0, .. }));
    assert_eq!(reloaded(&ix), Err(30));
}

fn unasked_calls() {
    // 5: a record at the end of the area; a finish before its only boundary, which the list does not take.
    let mut ix = list(0, 1, 0, 0);
    let mut cursor = reading(&ix);
    record(&mut cursor, 0, 0, 0);
    absorb(&mut ix, &mut cursor, &[]);
    assert_eq!((ix.checkpoints.len(), reloaded(&ix).err()), (1, Some(30)));
    let mut ix = list(1, 1, 0, 0);
    let mut cursor = reading(&ix);
    finish(&mut cursor, 0, 0);
    absorb(&mut ix, &mut cursor, &[]);
    assert!(!ix.is_complete() && cursor.recorder().is_none());
    // 6: an end state, and a checkpoint, that counts more malformed sectors than there are before it.
    let mut ix = list(0, 1, 0, 0);
    let mut cursor = reading(&ix);
    finish(&mut cursor, 0, 1);
    absorb(&mut ix, &mut cursor, &[]);
    assert_eq!(reloaded(&ix), Err(34));
    let mut ix = list(1, 1, 0, 0);
    let mut cursor = reading(&ix);
    record(&mut cursor, 0, 0, 1);
    absorb(&mut ix, &mut cursor, &[]);
    assert_eq!(reloaded(&ix), Err(31));
    // 7: a frame that starts behind the checkpoint's sector.
    let ix = list(1, 1, 0, 0);
    let mut cursor = reading(&ix);
    let back = || {
        record_frame(&mut cursor, 0, 1, 0, FrameKind::Dst, &[]);
        cursor.recorder().unwrap().checkpoints[0].back
    };
    below_zero(back, u32::MAX);
    // 13
    let mut ix = list(1, 1, 0, 1);
    ix.add_hints(vec![(0, LIM)]);
    assert_eq!((ix.samples.len(), reloaded(&ix).err()), (1, Some(36)));
    // 40: the file is as long as it is.
    assert_eq!(list(0, 1, 0, 0).to_bytes().len(), 112);
}

fn lowered() {
    assert_eq!(list(0, 1, 0, 65_537).max_hints, 65_536);
}

/// The file of an empty list with an M of 65,537.
fn fourth_version() {
    let mut ix = list(0, 1, 0, 0);
    ix.max_hints = 65_537;
    let file = crate::version4::lengthened(ix.to_bytes());
    let area = Area::new(Slot::TwoChannel, 0, 0, 0);
    assert_eq!((file.len(), AreaIndex::from_bytes(&area, 0, &file, usize::MAX).map_err(|e| number(&e))), (120, Err(23)));
}
