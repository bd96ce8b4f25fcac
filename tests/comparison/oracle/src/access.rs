//! A child module of the original `seek.rs`: sees its private fields. It shows a list and a
//! recorder, and asks the questions of document 01 that the original does not ask.

use super::*;
use crate::file::AreaNumbers;
use crate::lent::Raw;
use crate::script::number;
use crate::text::{Sum, put, put_sum};
use crate::version4::{self, SHORT};

pub mod differences;
pub mod names;

include!(concat!(env!("OUT_DIR"), "/persist_cuts.rs"));

/// One more than the largest frame number: 01's LIM.
pub const LIM: u32 = MAX_NEXT_ACCEPTABLE;

fn put_checkpoints(out: &mut Vec<u8>, list: &[Checkpoint]) {
    let mut sum = Sum::new();
    for c in list {
        sum.u32(c.next_acceptable).u32(c.back).u64(c.malformed_before).u64(c.digest);
    }
    put_sum(out, list.len(), &sum);
}

/// Frames, frame bytes and parts: a count and a sum each.
fn put_stored(out: &mut Vec<u8>, st: &Stored) {
    let (mut heads, mut bytes, mut parts) = (Sum::new(), Sum::new(), Sum::new());
    let mut used = 0;
    for f in &st.frames {
        heads.u32(f.start as u32).u32(f.bytes.len() as u32);
        bytes.bytes(&f.bytes);
        used += f.bytes.len();
    }
    for h in &st.held {
        parts.u32(h.at).u32(h.frame).u32(h.len).u32(h.number).u32(h.remaining as u32);
        parts.u32(u32::from(h.kind == FrameKind::Dsd));
    }
    assert_eq!(used, st.used, "the original's count of stored bytes is off");
    put_sum(out, st.frames.len(), &heads);
    put_sum(out, used, &bytes);
    put_sum(out, st.held.len(), &parts);
}

fn put_option(out: &mut Vec<u8>, mark: u64, value: u64) {
    put(out, mark);
    put(out, value);
}

/// The numbers and tables of a list, as tests/README.md fixes them.
pub fn put_list(out: &mut Vec<u8>, ix: &AreaIndex) {
    put(out, u64::from(ix.interval));
    put(out, ix.inline_budget as u64);
    put(out, u64::from(ix.hint_spacing));
    put(out, ix.max_hints as u64);
    let end = ix.end_state.unwrap_or(EndState { next_acceptable: 0, malformed: 0 });
    put(out, u64::from(ix.end_state.is_some()));
    put_option(out, u64::from(end.next_acceptable), end.malformed);
    let mark = if ix.fingerprint.is_none() { 0 } else { 1 + u64::from(ix.fingerprint_checked) };
    put_option(out, mark, ix.fingerprint.unwrap_or(0));
    put_option(out, u64::from(ix.image_id.is_some()), ix.image_id.unwrap_or(0));
    put_checkpoints(out, &ix.checkpoints);
    put_stored(out, &ix.stored);
    let (mut mal, mut hints, mut conf) = (Sum::new(), Sum::new(), Sum::new());
    for &m in &ix.malformed {
        mal.u32(m);
    }
    for &(lsn, t) in &ix.samples {
        hints.u32(lsn).u32(t);
    }
    for &(lsn, u, d) in &ix.confirmed {
        conf.u32(lsn).u32(u).u64(d);
    }
    put_sum(out, ix.malformed.len(), &mal);
    put_sum(out, ix.samples.len(), &hints);
    put_sum(out, ix.confirmed.len(), &conf);
}

/// A list in full, for a reader of a difference.
pub fn show_list(ix: &AreaIndex) -> String {
    format!(
        "interval {} budget {} spacing {} M {} end {:?} fingerprint {:?} checked {} image {:?}\n\
         checkpoints {:?}\nframes {:?}\nparts {:?}\nmalformed {:?}\nhints {:?}\nconfirmations {:?}\n",
        ix.interval,
        ix.inline_budget,
        ix.hint_spacing,
        ix.max_hints,
        ix.end_state,
        ix.fingerprint,
        ix.fingerprint_checked,
        ix.image_id,
        ix.checkpoints,
        ix.stored.frames,
        ix.stored.held,
        ix.malformed,
        ix.samples,
        ix.confirmed
    )
}

/// What a limit took away when `bytes` (an accepted file) were loaded: lowered budget, dropped
/// frames, lowered M, thinned hints, dropped confirmations.
pub fn limited(ix: &AreaIndex, budget: u64, f: u32, m: Option<u32>, s: Option<u32>, c: Option<u32>) -> [bool; 5] {
    [
        (ix.inline_budget as u64) < budget,
        ix.stored.frames.len() < f as usize,
        ix.max_hints < m.map_or(DEFAULT_MAX_HINTS, |m| m as usize),
        s.is_some_and(|s| ix.samples.len() < s as usize),
        c.is_some_and(|c| ix.confirmed.len() < c as usize),
    ]
}

/// Boundaries, budget and M: the numbers that question 3 measures tables by.
pub fn sizes(ix: &AreaIndex) -> (usize, usize, usize) {
    (ix.boundaries(), ix.inline_budget, ix.max_hints)
}

/// How many checkpoints a list has.
pub fn checkpoints(ix: &AreaIndex) -> usize {
    ix.checkpoints.len()
}

/// Whether a list is complete.
pub fn complete(ix: &AreaIndex) -> bool {
    ix.end_state.is_some()
}

/// How many frame bytes a list holds.
pub fn used(ix: &AreaIndex) -> usize {
    ix.stored.used
}

/// Whether a list has a fingerprint.
pub fn fingerprint(ix: &AreaIndex) -> bool {
    ix.fingerprint.is_some()
}

pub fn kinds(ix: &AreaIndex) -> String {
    let shared = ix.stored.held.windows(2).any(|w| w[0].frame == w[1].frame);
    let surplus = ix.stored.frames.iter().enumerate().any(|(i, f)| {
        let longest = ix.stored.held.iter().filter(|h| h.frame as usize == i).map(|h| h.len).max();
        longest.is_some_and(|l| (l as usize) < f.bytes.len())
    });
    let list: [(&str, bool); 14] = [
        ("empty area", ix.start == ix.end),
        ("no checkpoint", ix.checkpoints.is_empty()),
        ("complete", ix.end_state.is_some()),
        ("not complete", ix.end_state.is_none()),
        ("all boundaries but not complete", ix.end_state.is_none() && ix.boundaries() == ix.checkpoints.len()),
        ("parts share a frame", shared),
        ("frame longer than its parts", surplus),
        ("zero-length part", ix.stored.held.iter().any(|h| h.len == 0)),
        (
            "held part with back 32 or less",
            ix.stored.held.iter().any(|h| u64::from(ix.checkpoints[h.at as usize].back) <= REPLAY_SECTORS),
        ),
        (
            "malformed list capped",
            ix.end_state.map_or(ix.checkpoints.last().map_or(0, |c| c.malformed_before), |e| e.malformed)
                > MAX_MALFORMED_WARNINGS as u64,
        ),
        ("hints", !ix.samples.is_empty()),
        ("fingerprint", ix.fingerprint.is_some()),
        ("confirmations", !ix.confirmed.is_empty()),
        ("M is 0", ix.max_hints == 0),
    ];
    list.iter().filter(|k| k.1).map(|k| k.0).collect::<Vec<_>>().join(",")
}

/// Whether loading would accept what the list holds: Ok, or the number.
pub fn loadable(ix: &AreaIndex) -> Result<(), u32> {
    let area = Area::new(ix.key.slot, ix.key.start, ix.key.end, ix.key.channels);
    loaded(&area, ix.key.image_sectors, &saved(ix), u64::MAX).map(|_| ())
}

// ---- limits above 65,536, which the original has not

/// A list from a file: by the original, or of version 4 by the request's words. These are held to the original by every file of versions 1 to 3, and by the
/// twin of a file of version 4.
pub fn loaded(area: &Area, image: u64, bytes: &[u8], limit: u64) -> Result<AreaIndex, u32> {
    let original =
        |bytes: &[u8]| AreaIndex::from_bytes(area, image, bytes, limit as usize).map_err(|e| number(&e));
    let found = version4::judge(&numbers(area, image), bytes);
    if version4::version(bytes) != 4 {
        let made = original(bytes);
        assert_eq!(made.as_ref().err(), found.as_ref().err(), "the model of loading and the original differ");
        if let (Ok(ix), Ok(h)) = (&made, found) {
            assert_eq!(hinting(ix, h.header), h.limited(limit), "the model's hints and the original's differ");
        }
        return made;
    }
    let made = found.map(|h| {
        let mut ix = original(&without_hints(bytes, h.header)).unwrap_or_else(|n| panic!("refused with {n} without hints"));
        let h = h.limited(limit);
        (ix.hint_spacing, ix.max_hints, ix.fingerprint) = (h.spacing, h.most as usize, h.fingerprint);
        (ix.samples, ix.confirmed) = (h.hints, h.confirmations);
        ix
    });
    if let Some(twin) = version4::twin(bytes) {
        let same = match (&made, original(&twin)) {
            (Err(a), Err(b)) => *a == b,
            (Ok(ix), Ok(twin)) => {
                let most = twin.max_hints == ix.max_hints.min(SHORT as usize);
                most && AreaIndex { max_hints: ix.max_hints, ..twin }.to_bytes() == ix.to_bytes()
            }
            _ => false,
        };
        assert!(same, "a file of version 4 and its twin differ");
    }
    made
}

fn numbers(area: &Area, image: u64) -> AreaNumbers {
    let key = AreaKey::new(area, image);
    let (start, end) = key.audio_sector_range();
    let slot = u8::from(key.slot == crate::Slot::Multichannel);
    AreaNumbers { slot, key_start: key.start, key_end: key.end, channels: key.channels, image, start, end }
}

fn hinting(ix: &AreaIndex, header: usize) -> version4::Hinting {
    version4::Hinting {
        spacing: ix.hint_spacing,
        most: ix.max_hints as u32,
        fingerprint: ix.fingerprint,
        hints: ix.samples.clone(),
        confirmations: ix.confirmed.clone(),
        header,
    }
}

/// The file of version 2 with the sections before the hint header, no hint and an M of 1.
fn without_hints(bytes: &[u8], header: usize) -> Vec<u8> {
    let mut out = bytes[..header].to_vec();
    out[8] = 2;
    out[14] &= 1;
    out.extend_from_slice(&[0; 32]);
    out[header + 12] = 1;
    crate::file::mend(&mut out);
    out
}

/// A list's file: the original's, or of version 4.
pub fn saved(ix: &AreaIndex) -> Vec<u8> {
    if ix.max_hints > SHORT as usize { version4::lengthened(ix.to_bytes()) } else { ix.to_bytes() }
}

/// A new list's M, which the original would lower to 65,536.
pub fn raise(ix: &mut AreaIndex, most: u64) {
    ix.max_hints = most.min(u64::from(version4::MOST)) as usize;
}

/// `merge` by the original, and hints and confirmations by the words beside it. Where both lists have very many confirmations the original would take
/// minutes: these are then the words' alone.
pub fn merged(own: &AreaIndex, other: &AreaIndex) -> Result<AreaIndex, Error> {
    let mut new = own.clone();
    let many = own.confirmed.len() as u64 * other.confirmed.len() as u64 > 1 << 28;
    if many {
        new.merge(&AreaIndex { confirmed: Vec::new(), ..other.clone() })?;
    } else {
        new.merge(other)?;
    }
    if !hints_clash(own, &other.samples) {
        let hints = version4::added(&own.samples, &other.samples, (own.start, own.end), own.max_hints);
        assert!(new.samples == hints, "the model's merged hints and the original's differ");
    }
    let keeps = own.fingerprint_checked && own.max_hints > 0;
    let others: &[_] = if keeps { &other.confirmed } else { &[] };
    let confirmed = version4::kept(&own.confirmed, others, own.max_hints);
    assert!(many || new.confirmed == confirmed, "the model's merged confirmations and the original's differ");
    new.confirmed = confirmed;
    Ok(new)
}

/// `merge` as `merged`; where an LSN comes under two numbers, which the original leaves open, the arriving one stays (change request 5).
pub fn merged_newer(own: &AreaIndex, other: &AreaIndex) -> Result<AreaIndex, Error> {
    if !hints_clash(own, &other.samples) {
        return merged(own, other);
    }
    let mut new = merged(own, &AreaIndex { samples: Vec::new(), ..other.clone() })?;
    let mut held = own.samples.clone();
    held.retain(|h| other.samples.iter().all(|s| s.0 != h.0));
    new.samples = version4::added(&held, &other.samples, (own.start, own.end), own.max_hints);
    Ok(new)
}

/// Whether the original merges one list into the other: 0, or the number that it refuses with.
pub fn join_number(own: &AreaIndex, other: &AreaIndex) -> u32 {
    let bare = |ix: &AreaIndex| AreaIndex { samples: Vec::new(), confirmed: Vec::new(), ..ix.clone() };
    bare(own).merge(&bare(other)).map_or_else(|e| number(&e), |()| 0)
}

pub fn set_image(ix: &mut AreaIndex, image: Option<u64>) {
    ix.image_id = image;
}

/// `add_hints` by the original, and by the words beside it.
pub fn add_hints(ix: &mut AreaIndex, list: Vec<(u32, u32)>) {
    let hints = version4::added(&ix.samples, &list, (ix.start, ix.end), ix.max_hints);
    ix.add_hints(list);
    assert!(ix.samples == hints, "the model's added hints and the original's differ");
}

/// Whether two of the hints held and given, in the area, have one LSN and two numbers: 01 leaves
/// these out of the comparison (the original sorts them unstably).
pub fn hints_clash(ix: &AreaIndex, list: &[(u32, u32)]) -> bool {
    if ix.max_hints == 0 || list.is_empty() {
        return false;
    }
    let inside = |&(l, _): &(u32, u32)| (ix.start..ix.end).contains(&u64::from(l));
    let mut all: Vec<(u32, u32)> = ix.samples.clone();
    all.extend(list.iter().copied().filter(inside));
    all.sort();
    all.windows(2).any(|w| w[0].0 == w[1].0 && w[0].1 != w[1].1)
}

pub fn samples(ix: &AreaIndex) -> &[(u32, u32)] {
    &ix.samples
}

/// Question 13.
/// Are these its hints and its confirmations?
pub fn holds(ix: &AreaIndex, hints: &[(u32, u32)], confirmed: &[(u32, u32, u64)]) -> bool {
    ix.samples == hints && ix.confirmed == confirmed
}

pub fn refuses_hints(list: &[(u32, u32)]) -> bool {
    list.len() > 65_536 || list.iter().any(|s| s.1 >= LIM)
}

/// Question 14, then the original's call: None where refused, else whether it kept anything.
pub fn confirm(ix: &mut AreaIndex, lsn: u64, u: u32, digest: u64) -> Option<bool> {
    if !(ix.start..ix.end).contains(&lsn) || u >= LIM {
        return None;
    }
    let keeps = ix.fingerprint_checked && ix.max_hints > 0;
    ix.keep_confirmation(lsn, u, digest);
    Some(keeps)
}

/// The numbers and tables of a running or finished recorder.
pub fn put_recorder(out: &mut Vec<u8>, r: &Recorder) {
    put(out, u64::from(r.end_state.is_some()));
    put(out, u64::from(r.interval));
    put(out, r.budget as u64);
    put(out, u64::from(r.first));
    put(out, r.from);
    let end = r.end_state.unwrap_or(EndState { next_acceptable: 0, malformed: 0 });
    put_option(out, u64::from(end.next_acceptable), end.malformed);
    put_checkpoints(out, &r.checkpoints);
    put_stored(out, &r.stored);
}

fn last_of(r: &Recorder) -> (u32, u64) {
    r.checkpoints.last().map_or((0, 0), |c| (c.next_acceptable, c.malformed_before))
}

fn boundaries_of(r: &Recorder) -> u64 {
    let (start, end) = r.key.audio_sector_range();
    (end - start).div_ceil(u64::from(r.interval))
}

/// Questions 5, 6 and 7 of `record`: 0 where none refuses. Fault 18: the area's end may be recorded.
pub fn refuses_record(
    wrong: u32,
    r: &Recorder,
    lsn: u64,
    thr: u32,
    mal: u64,
    frame: Option<(u64, u32)>,
    len: usize,
) -> u32 {
    let (start, end) = r.key.audio_sector_range();
    let past = if wrong == 18 { lsn > end } else { lsn >= end };
    if r.end_state.is_some() || !r.due(lsn) || past || len != SECTOR_SIZE {
        return 5;
    }
    let last = last_of(r);
    let j = u64::from(r.first) + r.checkpoints.len() as u64;
    if thr < last.0 || thr > LIM || mal < last.1 || mal > j * u64::from(r.interval) {
        return 6;
    }
    match frame {
        Some((at, number)) if at < start || at >= lsn || number >= LIM => 7,
        _ => 0,
    }
}

/// Whether 01's added test alone passes a part over: the original then stores what its own loader
/// refuses, and 01 leaves the call out of the comparison.
pub fn added_test_alone(st: &Stored) -> bool {
    let frames = st.frames.windows(2).any(|w| w[0].start >= w[1].start);
    let parts = st.held.windows(2).any(|w| {
        w[0].frame == w[1].frame && (w[0].number != w[1].number || w[0].kind != w[1].kind || w[0].len > w[1].len)
    });
    frames || parts
}

pub fn stored_of(r: &Recorder) -> &Stored {
    &r.stored
}

/// Questions 5 and 6 of `finish`: 0 where neither refuses.
pub fn refuses_finish(r: &Recorder, thr: u32, mal: u64) -> u32 {
    let (start, end) = r.key.audio_sector_range();
    let passed = u64::from(r.first) + r.checkpoints.len() as u64;
    if r.end_state.is_some() || passed != boundaries_of(r) {
        return 5;
    }
    let last = last_of(r);
    if thr < last.0 || thr > LIM || mal < last.1 || mal > end - start {
        return 6;
    }
    0
}

/// What question 12 finds wrong with `new`, which an absorb of a reading with the malformed LSNs
/// `list` made from `old`.
pub enum Twelve {
    Passes,
    Refuses,
    /// The original stored a part that 01's added test passes over.
    Outside,
}

/// Fault 17: it does not ask whether the list opens with the held one.
pub fn question_12(wrong: u32, old: &AreaIndex, new: &AreaIndex, list: &[u32]) -> Twelve {
    if new.frontier() <= old.frontier() {
        return Twelve::Passes;
    }
    if added_test_alone(&new.stored) {
        return Twelve::Outside;
    }
    let counted = match new.end_state {
        Some(e) => e.malformed,
        None => new.checkpoints.last().map_or(0, |c| c.malformed_before),
    };
    let cap = MAX_MALFORMED_WARNINGS;
    let below = list.iter().filter(|&&m| u64::from(m) < new.frontier()).count().min(cap);
    let rising = list.windows(2).all(|w| w[0] < w[1]);
    let opens =
        wrong == 17 || list.len() >= old.malformed.len() && list[..old.malformed.len()] == old.malformed[..];
    if !rising || !opens || below as u64 != counted.min(cap as u64) || loadable(new).is_err() {
        return Twelve::Refuses;
    }
    Twelve::Passes
}

/// The hint recorder: spacing, last, tail, list.
pub fn put_hint_recorder(out: &mut Vec<u8>, hr: &HintRecorder) {
    put(out, u64::from(hr.spacing));
    put_option(out, u64::from(hr.last.is_some()), u64::from(hr.last.unwrap_or(0)));
    let tail = hr.tail.unwrap_or((0, 0));
    put(out, u64::from(hr.tail.is_some()));
    put_option(out, u64::from(tail.0), u64::from(tail.1));
    put_pairs(out, &hr.list);
}

pub fn put_pairs(out: &mut Vec<u8>, list: &[(u32, u32)]) {
    let mut sum = Sum::new();
    for &(lsn, t) in list {
        sum.u32(lsn).u32(t);
    }
    put_sum(out, list.len(), &sum);
}

/// What is large about a list, for the counts only.
pub fn large(ix: &AreaIndex) -> Vec<&'static str> {
    let list = [
        ("more than 1,024 checkpoints", ix.checkpoints.len() > 1024),
        ("65,536 checkpoints", ix.checkpoints.len() == 65_536),
        ("more than 131,072 frame bytes", ix.stored.used > 131_072),
        ("a malformed list of 4,096", ix.malformed.len() == MAX_MALFORMED_WARNINGS),
        ("65,536 hints", ix.samples.len() == 65_536),
        ("49,152 hints", ix.samples.len() == 49_152),
        ("65,536 confirmations", ix.confirmed.len() == 65_536),
        ("M 65,536", ix.max_hints == 65_536),
        ("M 65,537", ix.max_hints == 65_537),
        ("M 262,143", ix.max_hints == 262_143),
        ("M 262,144", ix.max_hints == 262_144),
        ("65,537 hints", ix.samples.len() == 65_537),
        ("196,608 hints", ix.samples.len() == 196_608),
        ("262,143 hints", ix.samples.len() == 262_143),
        ("262,144 hints", ix.samples.len() == 262_144),
        ("65,537 confirmations", ix.confirmed.len() == 65_537),
        ("262,143 confirmations", ix.confirmed.len() == 262_143),
        ("262,144 confirmations", ix.confirmed.len() == 262_144),
    ];
    list.iter().filter(|k| k.1).map(|k| k.0).collect()
}

/// A list of hints that is large, or is thinned by an M.
pub fn large_hints(ix: &AreaIndex, list: &[(u32, u32)], branch: Option<&str>) -> Vec<String> {
    let mut out = Vec::new();
    if list.len() == 65_536 {
        let rising = list.windows(2).all(|w| w[0].0 < w[1].0);
        out.push(format!("65,536 at once, {}", if rising { "rising" } else { "not rising" }));
    }
    if list.len() > 1024 && matches!(branch, Some("thinned" | "no hints kept")) {
        out.push(format!("more than 1,024 at once, M {}", ix.max_hints));
    }
    out
}

// ---- lists and recorders in lent tables

fn key_words(words: &mut [u64; 24], key: &AreaKey, range: (u64, u64)) {
    words[0] = u64::from(key.slot == crate::Slot::Multichannel);
    (words[1], words[2], words[3]) = (u64::from(key.channels), u64::from(key.start), u64::from(key.end));
    (words[4], words[5], words[6]) = (key.image_sectors, range.0, range.1);
}

/// The bytes of the tables that lists and recorders have: checkpoints, frames, frame bytes, parts.
fn raw_tables(list: &[Checkpoint], st: &Stored) -> Vec<Vec<u8>> {
    let mut out = vec![Vec::new(); 4];
    for c in list {
        out[0].extend_from_slice(&c.next_acceptable.to_le_bytes());
        out[0].extend_from_slice(&c.back.to_le_bytes());
        out[0].extend_from_slice(&c.malformed_before.to_le_bytes());
        out[0].extend_from_slice(&c.digest.to_le_bytes());
    }
    for f in &st.frames {
        out[1].extend_from_slice(&(f.start as u32).to_le_bytes());
        out[1].extend_from_slice(&(f.bytes.len() as u32).to_le_bytes());
        out[2].extend_from_slice(&f.bytes);
    }
    for h in &st.held {
        let kind = u32::from(h.kind == FrameKind::Dsd);
        for v in [h.at, h.frame, h.len, h.number, h.remaining as u32, kind] {
            out[3].extend_from_slice(&v.to_le_bytes());
        }
    }
    out
}

pub fn raw_list(ix: &AreaIndex) -> Raw {
    let mut words = [0; 24];
    key_words(&mut words, &ix.key, (ix.start, ix.end));
    (words[7], words[8]) = (u64::from(ix.interval), ix.inline_budget as u64);
    (words[9], words[10]) = (u64::from(ix.hint_spacing), ix.max_hints as u64);
    let counts = [ix.checkpoints.len(), ix.stored.frames.len(), ix.stored.held.len(), ix.malformed.len()];
    for (i, n) in counts.into_iter().chain([ix.samples.len(), ix.confirmed.len()]).enumerate() {
        words[11 + i] = n as u64;
    }
    if let Some(e) = ix.end_state {
        (words[17], words[18], words[19]) = (1, u64::from(e.next_acceptable), e.malformed);
    }
    if let Some(f) = ix.fingerprint {
        (words[20], words[21]) = (1 + u64::from(ix.fingerprint_checked), f);
    }
    if let Some(id) = ix.image_id {
        (words[22], words[23]) = (1, id);
    }
    let mut tables = raw_tables(&ix.checkpoints, &ix.stored);
    tables.push(ix.malformed.iter().flat_map(|m| m.to_le_bytes()).collect());
    tables.push(ix.samples.iter().flat_map(|s| [s.0.to_le_bytes(), s.1.to_le_bytes()].concat()).collect());
    let confirmed = |c: &(u32, u32, u64)| [&c.0.to_le_bytes()[..], &c.1.to_le_bytes(), &c.2.to_le_bytes()].concat();
    tables.push(ix.confirmed.iter().flat_map(confirmed).collect());
    Raw { words, tables }
}

pub fn raw_recorder(r: &Recorder, stopped: bool) -> Raw {
    let mut words = [0; 24];
    key_words(&mut words, &r.key, r.key.audio_sector_range());
    (words[7], words[8]) = (u64::from(r.interval), r.budget as u64);
    (words[9], words[10], words[11]) = (u64::from(r.first), r.from, r.checkpoints.len() as u64);
    (words[12], words[13]) = (r.stored.frames.len() as u64, r.stored.held.len() as u64);
    match r.end_state {
        _ if stopped => words[14] = 2,
        None => {}
        Some(e) => (words[14], words[15], words[16]) = (1, u64::from(e.next_acceptable), e.malformed),
    }
    Raw { words, tables: raw_tables(&r.checkpoints, &r.stored) }
}

/// The recorder that a complete list gives, which the original does not hold: stopped.
pub fn stopped_recorder(ix: &AreaIndex, from: u64) -> Recorder {
    let mut open = ix.clone();
    open.end_state = None;
    open.recorder(from).map_or_else(|| panic!("no recorder of a list that is not complete"), |r| *r)
}

/// What an accepted absorb leaves of a recorder.
pub fn drained(r: &Recorder) -> Recorder {
    let first = r.first + r.checkpoints.len() as u32;
    Recorder { first, checkpoints: Vec::new(), stored: Stored::default(), end_state: None, ..r.clone() }
}

/// Where a jump to a frame starts: an LSN.
pub fn jump(ix: &AreaIndex, (start, end): (u64, u64), frame: u32) -> u64 {
    match ix.plan(frame) {
        Plan::Start => start,
        Plan::At { lsn, .. } => lsn,
        Plan::End(_) => end,
    }
}

/// The values of `plan`'s answer.
pub fn put_plan(out: &mut Vec<u8>, ix: &AreaIndex, frame: u32) {
    match ix.plan(frame) {
        Plan::Start => put(out, 0),
        Plan::End(e) => {
            put(out, 2);
            put_option(out, u64::from(e.next_acceptable), e.malformed);
        }
        Plan::At { lsn, checkpoint: c, held } => {
            put(out, 1);
            for v in [lsn, u64::from(c.next_acceptable), u64::from(c.back), c.malformed_before, c.digest] {
                put(out, v);
            }
            put(out, u64::from(held.is_some()));
            if let Some((h, bytes)) = held {
                put(out, u64::from(h.kind == FrameKind::Dsd));
                put(out, u64::from(h.number));
                put(out, u64::from(h.remaining as u32));
                let mut sum = Sum::new();
                sum.bytes(bytes);
                put_sum(out, bytes.len(), &sum);
            }
        }
    }
}

/// What a program with fault `wrong` makes of a loaded list: true where it refuses it with 32.
pub fn wrong_load(wrong: u32, ix: &mut AreaIndex, file: &crate::script::Sections, bytes: &[u8]) -> bool {
    match wrong {
        4 => {
            let near = |h: &Held| u64::from(ix.checkpoints[h.at as usize].back) <= REPLAY_SECTORS;
            return ix.stored.held.iter().any(near);
        }
        5 if file.s.is_some_and(|s| s as usize > ix.max_hints) => ix.thin_hints(ix.max_hints - ix.max_hints / 4),
        6 if ix.stored.frames.len() < file.f as usize => {
            while ix.stored.frames.last().is_some_and(|f| f.bytes.is_empty()) {
                ix.stored.frames.pop();
                let gone = ix.stored.frames.len() as u32;
                ix.stored.held.retain(|h| h.frame != gone);
            }
        }
        7 => {
            for (i, c) in ix.confirmed.iter_mut().enumerate() {
                let b = &bytes[file.confirmations + 8 + 16 * i..];
                let at = |i: usize| u32::from_le_bytes([b[i], b[i + 1], b[i + 2], b[i + 3]]);
                *c = (at(0), at(4), u64::from(at(8)) | u64::from(at(12)) << 32);
            }
        }
        // A limit of fewer than 16 bytes for each confirmation.
        9 if ix.confirmed.len() > 1 && file.c.is_some_and(|c| c as usize > ix.confirmed.len()) => {
            ix.confirmed.remove(0);
        }
        _ => {}
    }
    false
}

/// Fault 11: a merge takes the other's checked mark. Fault 12: it leaves the malformed list. Fault 19: it takes the other's
/// where both have as many checkpoints. Fault 20: a part is measured by the last part, not by the last frame.
pub fn wrong_merge(wrong: u32, new: &mut AreaIndex, own: &AreaIndex, other: &AreaIndex) {
    match wrong {
        11 => new.fingerprint_checked |= other.fingerprint_checked,
        12 => new.malformed.clone_from(&own.malformed),
        19 if own.end_state.is_none() && own.checkpoints.len() == other.checkpoints.len() => {
            new.malformed.clone_from(&other.malformed);
        }
        20 => {
            let mut short = own.clone();
            shorten(&mut short.stored);
            if short.merge(other).is_ok() && grown(&own.stored, &short.stored) {
                *new = short;
            }
        }
        _ => {}
    }
}

/// The last frame without the bytes that its last part does not need.
fn shorten(st: &mut Stored) {
    if let (Some(h), Some(f)) = (st.held.last(), st.frames.last_mut()) {
        st.used -= f.bytes.len() - h.len as usize;
        f.bytes.truncate(h.len as usize);
    }
}

/// Has the last frame of `old` a part more in `new`?
fn grown(old: &Stored, new: &Stored) -> bool {
    old.frames.len().checked_sub(1).is_some_and(|last| {
        new.held.get(old.held.len()).is_some_and(|h| h.frame as usize == last)
    })
}

/// What a program with fault `wrong` answers to an absorb of `r` that the original accepts or refuses: fault 15 compares
/// digests too, fault 16 no end states.
pub fn wrong_absorb(wrong: u32, old: &AreaIndex, r: Option<&Recorder>, n: u32) -> u32 {
    let Some(r) = r else { return n };
    let first = r.first as usize;
    let digests = r.checkpoints.iter().enumerate().any(|(i, c)| {
        old.checkpoints.get(first + i).is_some_and(|held| held.digest != c.digest)
    });
    let ends = matches!((old.end_state, r.end_state), (Some(a), Some(b)) if a != b);
    match wrong {
        15 if n == 0 && digests => 11,
        16 if n == 11 && ends => 0,
        _ => n,
    }
}

/// Fault 13: `flush` moves the last number listed.
pub fn wrong_flush(wrong: u32, hr: &mut HintRecorder) {
    if let (13, Some(tail)) = (wrong, hr.tail) {
        hr.last = Some(tail.1);
    }
}

// ---- branches, for the counts only

/// How a part was taken: the original's own `add`, on a store that it may change.
fn way(st: &mut Stored, at: u32, start: u64, h: (u32, FrameKind, i32), data: &[u8], budget: usize) -> &'static str {
    let (frames, used) = (st.frames.len(), st.used);
    let same = st.frames.last().is_some_and(|f| f.start == start);
    if st.add(at, start, h, data, budget) {
        return match (st.frames.len() > frames, st.used > used) {
            (true, _) => "part: a frame of its own",
            (false, true) => "part: the last frame grown",
            (false, false) => "part: joined to the last frame",
        };
    }
    if data.len() > crate::audio::MAX_FRAME_BYTES {
        return "part: passed over, longer than a frame";
    }
    let unlike = st.frames.last().is_some_and(|f| {
        let common = f.bytes.len().min(data.len());
        f.bytes[..common] != data[..common]
    });
    match (same, same && unlike) {
        (_, true) => "part: passed over, other bytes than the last frame",
        (true, _) => "part: passed over, growth past the budget",
        _ => "part: passed over, a frame past the budget",
    }
}

/// The ways of the parts of `from` for checkpoints `first` to `end` into `own`.
fn ways(own: &AreaIndex, from: &Stored, list: &[Checkpoint], first: usize, end: usize) -> Vec<&'static str> {
    let mut st = own.stored.clone();
    let mut out = Vec::new();
    for j in own.checkpoints.len()..end {
        if let Some((h, bytes)) = from.get(j as u32) {
            let start = own.checkpoint_lsn(j) - u64::from(list[j - first].back);
            out.push(way(&mut st, j as u32, start, (h.number, h.kind, h.remaining), bytes, own.inline_budget));
        }
    }
    out
}

/// What an accepted merge did.
pub fn merge_branches(own: &AreaIndex, other: &AreaIndex) -> Vec<&'static str> {
    let (n, m) = (own.checkpoints.len(), other.checkpoints.len());
    let news = own.end_state.is_none() && (other.end_state.is_some() || m > n);
    let mut out = match (news, m > n, m == n) {
        (false, _, true) => vec!["nothing new, as many checkpoints"],
        (false, ..) => vec!["nothing new, fewer checkpoints"],
        (true, true, _) if other.end_state.is_some() => vec!["checkpoints and end state"],
        (true, true, _) => vec!["checkpoints"],
        (true, ..) => vec!["end state only"],
    };
    if news {
        out.extend(ways(own, &other.stored, &other.checkpoints, 0, m));
    }
    if own.malformed != other.malformed {
        out.push(if news { "another malformed list taken" } else { "another malformed list not taken" });
    }
    if own.fingerprint.is_none() && other.fingerprint.is_some() {
        out.push("fingerprint taken");
    }
    if own.image_id.is_none() && other.image_id.is_some() {
        out.push("image id taken");
    }
    out.extend(hint_list_branch(own, &other.samples).map(|b| match b {
        "thinned" => "hints thinned",
        "no hints kept" => "no hints kept",
        _ => "hints added",
    }));
    if other.confirmed.iter().any(|_| own.fingerprint_checked && own.max_hints > 0) {
        out.push("confirmations kept");
    }
    out
}

/// What an accepted absorb of `r` does.
pub fn absorb_branches(own: &AreaIndex, r: Option<&Recorder>) -> Vec<&'static str> {
    let Some(r) = r else { return vec!["a stopped recorder"] };
    let (n, first, m) = (own.checkpoints.len(), r.first as usize, r.first as usize + r.checkpoints.len());
    let mut out = Vec::new();
    out.push(match (m > n, r.checkpoints.is_empty(), first < n) {
        (true, _, true) => "checkpoints, some of them held already",
        (true, ..) => "checkpoints, none of them held already",
        (_, true, _) => "no checkpoint recorded",
        _ => "all checkpoints held already",
    });
    if r.end_state.is_some() {
        out.push(if own.end_state.is_some() { "an end state that is held" } else { "a new end state" });
    }
    if r.from < own.frontier() {
        out.push("recorder from before the frontier");
    }
    if m > n {
        out.extend(ways(own, &r.stored, &r.checkpoints, first, m));
    }
    if own.malformed.len() == MAX_MALFORMED_WARNINGS {
        out.push("malformed list full");
    }
    out
}

/// What `record` does with the frame under assembly.
pub fn record_branch(old: &Recorder, new: &Recorder, frame: Option<(u64, u32, FrameKind, i32, &[u8])>) -> &'static str {
    let Some((start, number, kind, remaining, bytes)) = frame else { return "no frame under assembly" };
    if new.checkpoints.last().is_some_and(|c| u64::from(c.back) <= REPLAY_SECTORS) {
        return "part: none, back 32 or less";
    }
    let at = old.first + old.checkpoints.len() as u32;
    way(&mut old.stored.clone(), at, start, (number, kind, remaining), bytes, old.budget)
}

/// How a list of hints goes to the held ones; None where there is none.
pub fn hint_list_branch(ix: &AreaIndex, list: &[(u32, u32)]) -> Option<&'static str> {
    if list.is_empty() {
        return None;
    }
    if ix.max_hints == 0 {
        return Some("no hints kept");
    }
    let inside = |l: u32| (ix.start..ix.end).contains(&u64::from(l));
    let mut all: Vec<u32> = ix.samples.iter().map(|s| s.0).chain(list.iter().map(|s| s.0).filter(|&l| inside(l))).collect();
    all.sort_unstable();
    all.dedup();
    let rising = list.windows(2).all(|w| w[0].0 < w[1].0);
    Some(match (all.len() > ix.max_hints, rising, ix.samples.last().is_none_or(|s| s.0 < list[0].0)) {
        (true, ..) => "thinned",
        (_, true, true) => "rising, behind the held ones",
        (_, true, false) => "rising, among the held ones",
        (_, false, _) => "not rising",
    })
}

/// What `keep_confirmation` does.
pub fn confirm_branch(ix: &AreaIndex, lsn: u64, u: u32, digest: u64) -> &'static str {
    if !ix.fingerprint_checked {
        return "nothing kept, fingerprint not checked";
    }
    if ix.max_hints == 0 {
        return "nothing kept, M is 0";
    }
    match ix.confirmed.iter().find(|c| u64::from(c.0) == lsn) {
        Some(c) if c.2 != digest => "another digest replaces",
        Some(c) if u < c.1 => "the same digest, a lower threshold",
        Some(_) => "the same digest, no lower threshold",
        None if ix.confirmed.len() < ix.max_hints => "a new one",
        None if ix.confirmed.first().is_some_and(|c| u64::from(c.0) > lsn) => "a new one, which is dropped",
        None => "a new one, the lowest is dropped",
    }
}

/// The branches of `hint`.
pub fn hint_branches(ix: &AreaIndex, first: u32, end: u32, playtime: u32) -> Vec<&'static str> {
    let Some((lsn, t, upper, later)) = ix.hint(first, end, playtime) else {
        return vec![if ix.samples.is_empty() { "none, no hints" } else { "none, none in reach" }];
    };
    let near = |s: &(u32, u32)| s.1 < first && first - s.1 <= HINT_REACH;
    let nearest = ix.samples.iter().filter(|s| near(s)).max_by_key(|s| (s.1, s.0));
    let confirmed = ix.confirmation(lsn, first).is_some();
    let mut out = vec![match (confirmed, nearest.is_some_and(|s| u64::from(s.0) == lsn)) {
        (true, true) => "a confirmed one, also the nearest",
        (true, false) => "a confirmed one, another is nearer",
        _ => "the nearest, none confirmed",
    }];
    if ix.samples.iter().filter(|s| near(s) && s.1 == t).count() > 1 {
        out.push("several of its number");
    }
    if later {
        out.push("through a later hint");
        return out;
    }
    let Some(i) = ix.samples.iter().position(|s| u64::from(s.0) == lsn) else { return out };
    let run = ix.samples[i + 1..].iter().take_while(|s| s.1 > t && s.1 < end).last().copied();
    let before = i.checked_sub(1).map(|p| ix.samples[p]).filter(|s| s.1 < t);
    if ix.samples[i + 1..].iter().any(|s| s.1 >= end) {
        out.push("a later hint too far past the end");
    }
    let average = (ix.end - ix.start, playtime.max(1));
    let local = match (run, before) {
        (Some(r), _) if r.1 - t >= 3 => {
            out.push("spacing of the run behind it");
            Some((u64::from(r.0) - lsn, r.1 - t))
        }
        (r, b) => {
            if r.is_some() {
                out.push("a run of fewer than 3 frames");
            }
            out.push(if b.is_some() { "spacing to the hint before" } else { "no local spacing" });
            b.map(|b| (lsn - u64::from(b.0), t - b.1))
        }
    };
    let larger =
        local.is_some_and(|l| u128::from(l.0) * u128::from(average.1) > u128::from(average.0) * u128::from(l.1));
    out.push(if larger { "the local spacing is larger" } else { "the average is larger, or alone" });
    if upper == u64::MAX {
        out.push("saturated");
    }
    out
}

/// What `see` does.
pub fn see_branch(hr: &HintRecorder, lsn: u64, sector: &[u8; SECTOR_SIZE]) -> &'static str {
    let Some(t) = first_record(sector) else { return "no number" };
    if lsn > u64::from(u32::MAX) {
        return "an LSN above 32 bits";
    }
    match hr.last {
        None => "listed, the first",
        _ if hr.list.len() >= MAX_HINTS => "the tail, list full",
        Some(l) if t < l => "listed, a lower number",
        Some(l) if t >= l.saturating_add(hr.spacing) => "listed, the spacing reached",
        _ => "the tail",
    }
}

/// What `flush` does.
pub fn flush_branch(hr: &HintRecorder) -> &'static str {
    match hr.tail {
        Some(_) if hr.list.len() < MAX_HINTS => "the tail listed",
        Some(_) => "the tail lost, list full",
        None => "no tail",
    }
}

/// Where a jump starts.
pub fn plan_branch(ix: &AreaIndex, frame: u32) -> &'static str {
    match ix.plan(frame) {
        Plan::Start => "the start",
        Plan::End(_) => "the end",
        Plan::At { held: Some(_), .. } => "a checkpoint, part held",
        Plan::At { checkpoint, .. } if checkpoint.back == 0 => "a checkpoint, no frame under assembly",
        Plan::At { .. } => "a checkpoint, no part held",
    }
}
