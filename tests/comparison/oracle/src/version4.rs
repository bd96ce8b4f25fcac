//! Version 4 of a file, and limits above 65,536 (change request 12), in the words of the request and of document 01. It shares nothing with the library's
//! crates. What it says of a file that the original can hold is held to the original (`access::loaded`): of versions 1 to 3 by the file itself, of version 4
//! by its twin.

use std::collections::BTreeMap;

use crate::file::{AreaNumbers, LIM, mend};
use crate::text::sum_of;

/// The most that M may be, and the most in versions 1 to 3.
pub const MOST: u32 = 262_144;
pub const SHORT: u32 = 65_536;

/// What a file's hint and confirmation sections say.
#[derive(Clone, PartialEq, Debug)]
pub struct Hinting {
    pub spacing: u32,
    pub most: u32,
    pub fingerprint: Option<u64>,
    pub hints: Vec<(u32, u32)>,
    pub confirmations: Vec<(u32, u32, u64)>,
    /// Where the hint header lies, or would.
    pub header: usize,
}

fn four(b: &[u8], at: usize) -> u32 {
    b.get(at..at + 4).map_or(0, |w| u32::from_le_bytes([w[0], w[1], w[2], w[3]]))
}

fn eight(b: &[u8], at: usize) -> u64 {
    u64::from(four(b, at)) | u64::from(four(b, at + 4)) << 32
}

/// A file's version field; 0 where there is none.
pub fn version(file: &[u8]) -> u32 {
    four(file, 8)
}

/// The bytes of a body that are not read yet.
struct Rest<'a> {
    body: &'a [u8],
    at: usize,
}

impl<'a> Rest<'a> {
    fn left(&self) -> u64 {
        (self.body.len() - self.at) as u64
    }

    /// The next n bytes; 20 where they are missing.
    fn take(&mut self, n: u64) -> Result<&'a [u8], u32> {
        if n > self.left() {
            return Err(20);
        }
        let from = self.at;
        self.at += n as usize;
        Ok(&self.body[from..self.at])
    }
}

/// 20 to 38 of a file of versions 1 to 4, asked in 01's order; of a file that passes, its hints.
pub fn judge(a: &AreaNumbers, file: &[u8]) -> Result<Hinting, u32> {
    let Some(end) = file.len().checked_sub(8) else { return Err(20) };
    header(a, file)?;
    let mut rest = Rest { body: &file[..end], at: 80 };
    let (complete, interval) = (file[14] & 1 == 1, u64::from(four(file, 32)));
    let last = records(a, &mut rest, interval)?;
    let counted = end_state(a, file, complete, last)?;
    let read = u64::from(four(file, 36)).saturating_sub(1) * interval;
    let frontier = if complete { a.end } else { a.start + read };
    malformed(a, &mut rest, frontier, counted)?;
    let mut found = Hinting {
        spacing: 8,
        most: 2048,
        fingerprint: None,
        hints: Vec::new(),
        confirmations: Vec::new(),
        header: rest.at,
    };
    hint_section(a, file, &mut rest, &mut found)?;
    confirmation_section(a, file, &mut rest, &mut found)?;
    if rest.left() == 0 { Ok(found) } else { Err(38) }
}

/// 34, or 28 of a list that is not complete. How many malformed sectors are counted in all.
fn end_state(a: &AreaNumbers, file: &[u8], complete: bool, last: (u32, u64)) -> Result<u64, u32> {
    let (threshold, malformed) = (four(file, 64), eight(file, 72));
    let bad = threshold < last.0 || threshold > LIM || malformed < last.1 || malformed > a.end - a.start;
    match (complete, bad, threshold != 0 || malformed != 0) {
        (true, true, _) => Err(34),
        (true, ..) => Ok(malformed),
        (false, _, true) => Err(28),
        (false, ..) => Ok(last.1),
    }
}

/// 21 to 30: the header.
fn header(a: &AreaNumbers, file: &[u8]) -> Result<(), u32> {
    let end = file.len() - 8;
    if end < 80 || file[..8] != *b"SBSEEKIX" {
        return Err(21);
    }
    if sum_of(&file[..end]) != eight(file, end) {
        return Err(22);
    }
    let version = version(file);
    let key = (file[12], four(file, 16), four(file, 20), file[13], eight(file, 24));
    let interval = four(file, 32);
    let asked = [
        (23, (1..=4).contains(&version)),
        (24, file[12] <= 1),
        (25, file[14] & !(if version == 1 { 1 } else { 3 }) == 0 && file[15] == 0),
        (26, key == (a.slot, a.key_start, a.key_end, a.channels, a.image)),
        (27, (1..=65_536).contains(&interval)),
        (28, four(file, 52) == 0),
        (29, eight(file, 56) <= u64::from(u32::MAX)),
        (28, four(file, 68) == 0),
    ];
    if let Some(no) = asked.iter().find(|q| !q.1) {
        return Err(no.0);
    }
    let [n, f, h, m] = [36, 40, 44, 48].map(|at| u64::from(four(file, at)));
    let boundaries = (a.end - a.start).div_ceil(u64::from(interval));
    let headers = [0, 0, 24, 32, 32][version as usize];
    let fixed = 24 * n + 8 * f + 24 * h + 4 * m + headers;
    let counts = n <= boundaries && (file[14] & 1 == 0 || n == boundaries) && h <= n && f <= h && m <= 4096;
    if counts && fixed <= end as u64 - 80 { Ok(()) } else { Err(30) }
}

/// 31: the checkpoints; threshold, malformed count and back of each.
fn checkpoints(rest: &mut Rest<'_>, interval: u64) -> Result<Vec<(u32, u64, u64)>, u32> {
    let mut all: Vec<(u32, u64, u64)> = Vec::new();
    for j in 0..u64::from(four(rest.body, 36)) {
        let c = rest.take(24)?;
        let (threshold, back, counted) = (four(c, 0), u64::from(four(c, 4)), eight(c, 8));
        let (before, read) = (all.last().map_or((0, 0), |c| (c.0, c.1)), j * interval);
        if threshold < before.0 || threshold > LIM || counted < before.1 || counted > read || back > read {
            return Err(31);
        }
        all.push((threshold, counted, back));
    }
    Ok(all)
}

/// 32: the frames; start and length of each.
fn frames(a: &AreaNumbers, rest: &mut Rest<'_>) -> Result<Vec<(u64, u32)>, u32> {
    let (mut all, mut used): (Vec<(u64, u32)>, u64) = (Vec::new(), 0);
    for _ in 0..four(rest.body, 40) {
        let header = rest.take(8)?;
        let (start, length) = (u64::from(four(header, 0)), four(header, 4));
        used += u64::from(length);
        let rises = all.last().is_none_or(|l| l.0 < start);
        if !rises || start < a.start || start >= a.end || length > 65_536 || used > eight(rest.body, 56) {
            return Err(32);
        }
        rest.take(u64::from(length))?;
        all.push((start, length));
    }
    Ok(all)
}

/// 32 and 33: the parts. `starts` says of a checkpoint, a frame and a length whether the frame starts where the checkpoint's does and is as long.
fn parts(rest: &mut Rest<'_>, starts: impl Fn(u32, u32, u32) -> bool) -> Result<(), u32> {
    // Of the last part: its checkpoint, frame, length, number and kind.
    let mut before: Option<[u32; 5]> = None;
    for _ in 0..four(rest.body, 44) {
        let p = rest.take(24)?;
        let [at, frame, length, number, kind] = [0, 4, 8, 12, 20].map(|i| four(p, i));
        if kind > 1 {
            return Err(33);
        }
        let follows = match before {
            None => frame == 0,
            Some(b) => {
                let same = frame == b[1] && length >= b[2] && number == b[3] && kind == b[4];
                at > b[0] && (same || u64::from(frame) == u64::from(b[1]) + 1)
            }
        };
        if !starts(at, frame, length) || !follows || number >= LIM {
            return Err(32);
        }
        before = Some([at, frame, length, number, kind]);
    }
    let held = before.map_or(0, |b| u64::from(b[1]) + 1);
    if held == u64::from(four(rest.body, 40)) { Ok(()) } else { Err(32) }
}

/// 31 to 33: checkpoints, frames, parts. The last checkpoint's threshold and malformed count.
fn records(a: &AreaNumbers, rest: &mut Rest<'_>, interval: u64) -> Result<(u32, u64), u32> {
    let checkpoints = checkpoints(rest, interval)?;
    let frames = frames(a, rest)?;
    parts(rest, |at, frame, length| match (checkpoints.get(at as usize), frames.get(frame as usize)) {
        (Some(&(_, _, back)), Some(held)) => {
            back > 0 && a.start + u64::from(at) * interval - back == held.0 && length <= held.1
        }
        _ => false,
    })?;
    Ok(checkpoints.last().map_or((0, 0), |c| (c.0, c.1)))
}

/// 35: the malformed LSNs.
fn malformed(a: &AreaNumbers, rest: &mut Rest<'_>, frontier: u64, counted: u64) -> Result<(), u32> {
    let m = u64::from(four(rest.body, 48));
    if m != counted.min(4096) {
        return Err(35);
    }
    let mut before = None;
    for _ in 0..m {
        let lsn = u64::from(four(rest.take(4)?, 0));
        if lsn < a.start || lsn >= frontier || before.is_some_and(|b| lsn <= b) {
            return Err(35);
        }
        before = Some(lsn);
    }
    Ok(())
}

/// Are these LSNs in the area and rising, and the numbers below 01's LIM?
fn in_order(a: &AreaNumbers, list: impl Iterator<Item = (u32, u32)>) -> bool {
    let mut before = None;
    for (lsn, number) in list {
        if !(a.start..a.end).contains(&u64::from(lsn)) || number >= LIM || before.is_some_and(|b| lsn <= b) {
            return false;
        }
        before = Some(lsn);
    }
    true
}

/// 20, 28, 36 of the hints, which a file has from version 2 on.
fn hint_section(a: &AreaNumbers, file: &[u8], rest: &mut Rest<'_>, found: &mut Hinting) -> Result<(), u32> {
    let (version, flag) = (version(file), file[14] & 2 != 0);
    if version < 2 {
        return Ok(());
    }
    let h = rest.take(24)?;
    let (fingerprint, [spacing, most, count, reserved]) = (eight(h, 0), [8, 12, 16, 20].map(|i| four(h, i)));
    if reserved != 0 {
        return Err(28);
    }
    // A file of version 4 has the limits that the others cannot have.
    let limits = if version == 4 { SHORT + 1..=MOST } else { 0..=SHORT };
    let adds = version > 2 || flag || count > 0 || (spacing, most) != (8, 2048);
    let there = 8 * u64::from(count) <= rest.left();
    if !adds || (!flag && fingerprint != 0) || !limits.contains(&most) || count > most || !there {
        return Err(36);
    }
    let bytes = rest.take(8 * u64::from(count))?;
    found.hints = bytes.chunks_exact(8).map(|b| (four(b, 0), four(b, 4))).collect();
    if !in_order(a, found.hints.iter().copied()) {
        return Err(36);
    }
    (found.spacing, found.most, found.fingerprint) = (spacing, most, flag.then_some(fingerprint));
    Ok(())
}

/// 20, 37 of the confirmations, which a file has from version 3 on.
fn confirmation_section(a: &AreaNumbers, file: &[u8], rest: &mut Rest<'_>, found: &mut Hinting) -> Result<(), u32> {
    let (version, flag) = (version(file), file[14] & 2 != 0);
    if version < 3 {
        return Ok(());
    }
    let h = rest.take(8)?;
    let (count, reserved) = (four(h, 0), four(h, 4));
    // In version 4 the flag is optional; the count may be 0, and is 0 without the flag.
    let may = if version == 4 { flag || count == 0 } else { flag && count > 0 };
    if reserved != 0 || !may || count > found.most || 16 * u64::from(count) > rest.left() {
        return Err(37);
    }
    let bytes = rest.take(16 * u64::from(count))?;
    found.confirmations = bytes.chunks_exact(16).map(|b| (four(b, 0), four(b, 4), eight(b, 8))).collect();
    if in_order(a, found.confirmations.iter().map(|c| (c.0, c.1))) { Ok(()) } else { Err(37) }
}

impl Hinting {
    /// What a load limit leaves: M and hints by 8 bytes each, confirmations by 16.
    pub fn limited(mut self, limit: u64) -> Hinting {
        self.most = u64::from(self.most).min(limit / 8) as u32;
        self.hints = thinned(&self.hints, self.most as usize);
        let keep = u64::from(self.most).min(limit / 16) as usize;
        self.confirmations.drain(..self.confirmations.len().saturating_sub(keep));
        self
    }
}

/// At most `most` of the hints: those closest, in frames, to the one before them go first, the lower place among equals. The first hint, and one whose
/// number is not above the one before, are 2^32 - 1 from it.
pub fn thinned(hints: &[(u32, u32)], most: usize) -> Vec<(u32, u32)> {
    let excess = hints.len().saturating_sub(most);
    let gap = |i: usize| match i.checked_sub(1).map(|b| hints[b].1) {
        Some(before) if before < hints[i].1 => hints[i].1 - before,
        _ => u32::MAX,
    };
    let mut order: Vec<(u32, usize)> = (0..hints.len()).map(|i| (gap(i), i)).collect();
    order.sort_unstable();
    let mut stays = vec![true; hints.len()];
    order[..excess].iter().for_each(|&(_, i)| stays[i] = false);
    hints.iter().zip(stays).filter(|h| h.1).map(|h| *h.0).collect()
}

/// The held hints with those of a list that lie in the area; at one LSN the held one stays. Above M they are thinned to three quarters of it.
pub fn added(held: &[(u32, u32)], list: &[(u32, u32)], range: (u64, u64), most: usize) -> Vec<(u32, u32)> {
    if most == 0 {
        return held.to_vec();
    }
    let inside = |h: &&(u32, u32)| (range.0..range.1).contains(&u64::from(h.0));
    let mut all: BTreeMap<u32, u32> = BTreeMap::new();
    for &(lsn, number) in held.iter().chain(list.iter().filter(inside)) {
        all.entry(lsn).or_insert(number);
    }
    let all: Vec<(u32, u32)> = all.into_iter().collect();
    if all.len() > most { thinned(&all, most - most / 4) } else { all }
}

/// The held confirmations with others, one after the other: at one LSN another digest replaces, of the same one the lower threshold stays; above M the
/// lowest LSN goes.
pub fn kept(held: &[(u32, u32, u64)], others: &[(u32, u32, u64)], most: usize) -> Vec<(u32, u32, u64)> {
    let mut all: BTreeMap<u32, (u32, u64)> = held.iter().map(|&(lsn, u, d)| (lsn, (u, d))).collect();
    for &(lsn, u, d) in others {
        let now = all.entry(lsn).or_insert((u, d));
        *now = if now.1 == d { (now.0.min(u), d) } else { (u, d) };
        if all.len() > most {
            all.pop_first();
        }
    }
    all.into_iter().map(|(lsn, (u, d))| (lsn, u, d)).collect()
}

/// The file of a list whose limit is above 65,536, from the same sections as version 2 or 3: in version 4 the confirmation header is there always.
pub fn lengthened(mut file: Vec<u8>) -> Vec<u8> {
    if version(&file) == 2 {
        let end = file.len() - 8;
        file.splice(end..end, [0; 8]);
    }
    file[8..12].copy_from_slice(&4u32.to_le_bytes());
    mend(&mut file);
    file
}

/// Where the hint header of a file lies by its counts; None where the body ends before it does.
fn hint_header(file: &[u8]) -> Option<usize> {
    let end = file.len().checked_sub(8)? as u64;
    let [n, f, h, m] = [36, 40, 44, 48].map(|at| u64::from(four(file, at)));
    let mut at = 80 + 24 * n;
    for _ in 0..f {
        if at + 8 > end {
            return None;
        }
        at += 8 + u64::from(four(file, at as usize + 4));
    }
    at += 24 * h + 4 * m;
    (at + 24 <= end).then_some(at as usize)
}

/// The file of version 3 that the original must answer as this one of version 4: with M lowered to 65,536, or refused where version 4 refuses M; an empty
/// confirmation section is cut, and the version then 2. The sum is right where it was. None where it holds more than the original can.
pub fn twin(file: &[u8]) -> Option<Vec<u8>> {
    let mut out = file.to_vec();
    let Some(end) = file.len().checked_sub(8).filter(|&e| e >= 80) else { return Some(out) };
    let summed = sum_of(&file[..end]) == eight(file, end);
    let put = |out: &mut Vec<u8>, at: usize, v: u32| out[at..at + 4].copy_from_slice(&v.to_le_bytes());
    put(&mut out, 8, 3);
    if let Some(at) = hint_header(file) {
        let (most, count) = (four(file, at + 12), four(file, at + 16));
        match most {
            0..=SHORT => put(&mut out, at + 12, SHORT + 1),
            0..=MOST => put(&mut out, at + 12, SHORT),
            _ => {}
        }
        let more = |n: u32, width: usize, from: usize| {
            n > SHORT && n <= most && most <= MOST && from + width * n as usize <= end
        };
        if more(count, 8, at + 24) {
            return None;
        }
        let section = at + 24 + 8 * count as usize;
        if section + 8 <= end {
            if more(four(file, section), 16, section + 8) {
                return None;
            }
            if eight(file, section) == 0 {
                put(&mut out, 8, 2);
                out.drain(section..section + 8);
            }
        }
    }
    if summed {
        mend(&mut out);
    }
    Some(out)
}
