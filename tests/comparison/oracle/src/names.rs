//! Change request 7 once more: the rule of a plan, how a hint was chosen and where its upper end came from, read off the original's
//! own list and the original's own answer. The numbers are those of seek.h.

use super::*;

/// The rule of a plan: 1 area start, 2 checkpoint, 3 checkpoint with held part, 4 end state; and what it is to be counted as.
pub fn plan_rule(ix: &AreaIndex, frame: u32) -> (u64, Vec<&'static str>) {
    if let Some(e) = &ix.end_state {
        if e.next_acceptable <= frame {
            return (4, vec![if e.next_acceptable == frame { "end state, at its threshold" } else { "end state" }]);
        }
    }
    let below = if ix.end_state.as_ref().is_some_and(|e| e.next_acceptable - 1 == frame) { "one frame before the end state" } else { "" };
    let reached = ix.checkpoints.iter().filter(|c| c.next_acceptable <= frame).count();
    let Some(j) = reached.checked_sub(1) else {
        let first = ix.checkpoints.first().map(|c| c.next_acceptable - frame);
        let name = match first {
            None => "area start, no checkpoint",
            Some(1) => "area start, one frame before checkpoint 0",
            Some(_) => "area start",
        };
        return (1, vec![name, below]);
    };
    let at = if ix.checkpoints[j].next_acceptable == frame { "a checkpoint, at its threshold" } else { "" };
    match ix.stored.held.iter().find(|h| h.at as usize == j) {
        Some(h) if h.len == 0 => (3, vec!["held part of 0 bytes", at, below]),
        Some(_) => (3, vec!["held part", at, below]),
        None if j == 0 => (2, vec!["checkpoint 0", at, below]),
        None => (2, vec!["checkpoint", at, below]),
    }
}

/// Is the hint at most the reach below `first`?
fn is_near(s: &(u32, u32), first: u32) -> bool {
    s.1 < first && first <= s.1.saturating_add(HINT_REACH)
}

/// Is the reading at this sector confirmed for the frames from `first` on?
fn is_confirmed(ix: &AreaIndex, lsn: u32, first: u32) -> bool {
    ix.fingerprint_checked && ix.confirmed.iter().any(|&(l, u, _)| l == lsn && u <= first)
}

/// 1 confirmed, 2 nearest.
fn start_rule(ix: &AreaIndex, lsn: u64, first: u32) -> (u64, &'static str) {
    let near: Vec<&(u32, u32)> = ix.samples.iter().filter(|s| is_near(s, first)).collect();
    let nearest = near.iter().map(|s| (s.1, s.0)).max().is_some_and(|s| u64::from(s.1) == lsn);
    if near.iter().any(|s| is_confirmed(ix, s.0, first)) {
        let exact = ix.confirmed.iter().any(|&(l, u, _)| u64::from(l) == lsn && u == first);
        return match (nearest, exact) {
            (true, false) => (1, "confirmed, and the nearest"),
            (true, true) => (1, "confirmed, and the nearest, its threshold the first frame"),
            (false, false) => (1, "confirmed, another is nearer"),
            (false, true) => (1, "confirmed, another is nearer, its threshold the first frame"),
        };
    }
    let of_near = |f: &dyn Fn(u32) -> bool| ix.confirmed.iter().any(|&(l, u, _)| f(u) && near.iter().any(|s| s.0 == l));
    if !ix.fingerprint_checked && of_near(&|u| u <= first) {
        return (2, "nearest, the fingerprint is unchecked");
    }
    if of_near(&|u| first.checked_add(1) == Some(u)) {
        return (2, "nearest, a threshold one above the first frame");
    }
    (2, "nearest")
}

/// Sectors and frames between the hint at `i` and the last of its run, or the hint before it.
fn spacing(ix: &AreaIndex, i: usize, end: u32) -> (Option<(u64, u64)>, (u32, u32)) {
    let (lsn, t) = ix.samples[i];
    let mut last = (lsn, t);
    for &(l, n) in &ix.samples[i + 1..] {
        if n <= t || n >= end {
            break;
        }
        last = (l, n);
    }
    let apart = |a: (u32, u32), b: (u32, u32)| (u64::from(b.0 - a.0), u64::from(b.1 - a.1));
    if last.1 - t >= 3 {
        return (Some(apart((lsn, t), last)), last);
    }
    let before = i.checked_sub(1).map(|p| ix.samples[p]);
    (before.filter(|b| b.1 < t).map(|b| apart(b, (lsn, t))), last)
}

/// The end of a read at a density.
fn end_by((sectors, frames): (u64, u64), (lsn, t): (u32, u32), end: u32) -> u128 {
    let span = u128::from(end - t) * u128::from(sectors) / u128::from(frames);
    (u128::from(lsn) + span + span / 4 + 4).min(u128::from(u64::MAX))
}

/// 2 local spacing, 3 the area's average, by the larger density; of equal ones local spacing.
fn density_rule(ix: &AreaIndex, i: usize, end: u32, playtime: u32) -> (u64, &'static str) {
    let average = (ix.end - ix.start, u64::from(playtime.max(1)));
    let (Some(local), last) = spacing(ix, i, end) else { return (3, "the average alone") };
    // sectors for each frame, as fractions of one denominator
    let (l, a) = (u128::from(local.0) * u128::from(average.1), u128::from(average.0) * u128::from(local.1));
    let one_end = end_by(local, last, end) == end_by(average, last, end);
    match (l.cmp(&a), one_end) {
        (std::cmp::Ordering::Equal, _) => (2, "equal densities"),
        (std::cmp::Ordering::Greater, false) => (2, "local spacing larger"),
        (std::cmp::Ordering::Greater, true) => (2, "local spacing larger, with one upper end"),
        (std::cmp::Ordering::Less, false) => (3, "the average larger"),
        (std::cmp::Ordering::Less, true) => (3, "the average larger, with one upper end"),
    }
}

/// How far the upper end lies from the area's end, where it is there or a sector off it.
fn by_the_end(rule: u64, upper: u64, end: u64) -> &'static str {
    match (rule, i128::from(upper) - i128::from(end)) {
        (1, 0) => "area's end by a later hint",
        (2, 0) => "area's end by local spacing",
        (3, 0) => "area's end by the average",
        (1, -1) => "one below the area's end by a later hint",
        (2, -1) => "one below the area's end by local spacing",
        (3, -1) => "one below the area's end by the average",
        (2, 1) => "one above the area's end by local spacing",
        (3, 1) => "one above the area's end by the average",
        _ => "",
    }
}

/// How the hint was chosen (1, 2) and where its upper end came from (1 to 4), 0 and 0 without a hint; and what it is to be counted as.
pub fn hint_rule(ix: &AreaIndex, first: u32, end: u32, playtime: u32) -> ([u64; 2], Vec<&'static str>) {
    let Some((lsn, _, upper, later)) = ix.hint(first, end, playtime) else { return ([0, 0], vec!["no hint is near"]) };
    let (start, chosen) = start_rule(ix, lsn, first);
    let Some(i) = ix.samples.iter().position(|s| u64::from(s.0) == lsn) else { panic!("a hint that the list has not") };
    let (rule, by) = if later { (1, "a later hint") } else { density_rule(ix, i, end, playtime) };
    let names = vec![chosen, by, by_the_end(rule, upper, ix.end)];
    ([start, if upper == ix.end { 4 } else { rule }], names)
}
