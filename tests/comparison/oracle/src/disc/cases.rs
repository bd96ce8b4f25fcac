//! Cases from a seed: disc files to be loaded, and pairs of lists to be saved.

use super::broken::{AREAS, BREAKS, Break, Draft, MOVES};
use super::counts::Counts;
use super::model::{Edit, Load, MAX32, OUTPUT, Pair, ROOM, body, contents, enough, needs};
use crate::damage;
use crate::file::{self, AreaNumbers, List, Reading};
use crate::generate;
use crate::rng::Rng;
use crate::script::sizes;
use crate::seek::{AreaIndex, access};

/// A line for the program, and its answer by the model.
pub type Case = (Vec<u8>, Vec<u8>);

/// The areas of a disc and some lists of each.
pub struct Source {
    areas: [AreaNumbers; 2],
    lists: [Vec<List>; 2],
}

pub fn source(rng: &mut Rng, small: bool) -> Source {
    let mut one = |slot: u8| {
        let shape = generate::shape(rng, small);
        let area = AreaNumbers { slot, ..file::area(rng, shape.boundaries, shape.k) };
        let mut reading = Reading::of(rng, shape, area);
        reading.free_digests(rng);
        let mut lists = Vec::new();
        for _ in 0..rng.range(1, 3) {
            let mut l = generate::list(rng, &reading, sizes().most as u64);
            while small && l.encode().bytes.len() > 600 {
                l = generate::list(rng, &reading, sizes().most as u64);
            }
            if rng.chance(1, 4) {
                l.lengthen(rng);
            }
            lists.push(l);
        }
        (area, lists)
    };
    let (zero, first) = (one(0), one(1));
    Source { areas: [zero.0, first.0], lists: [zero.1, first.1] }
}

/// The lengths of the tables lent for a list: as needed or a little more; one of them too short where asked for.
fn lent_for(rng: &mut Rng, ix: Option<&AreaIndex>, short: bool) -> [u64; 7] {
    let Some(ix) = ix else {
        return if rng.chance(1, 2) { [0; 7] } else { ROOM.map(|n| rng.below(n + 1)) };
    };
    let need = needs(ix);
    let mut lent = need;
    if rng.chance(1, 3) {
        lent = need.map(|n| n + rng.below(40));
    }
    if short {
        let some: Vec<usize> = (0..7).filter(|&k| need[k] > 0).collect();
        let k = *rng.pick(&some);
        lent[k] = if rng.chance(2, 3) { need[k] - 1 } else { rng.below(need[k]) };
    }
    for (l, most) in lent.iter_mut().zip(ROOM) {
        *l = (*l).min(most);
    }
    lent
}

/// An output for a file of this length: exactly that, one byte less, more, or any.
fn output_for(rng: &mut Rng, length: u64) -> u64 {
    let n = match rng.below(8) {
        0..=2 => length,
        3 | 4 => length.saturating_sub(1),
        5 => length + rng.range(1, 100),
        6 => 0,
        _ => rng.below(length + 1),
    };
    n.min(OUTPUT)
}

/// The bytes of a list's file, broken where asked for.
fn body_bytes(rng: &mut Rng, list: &List, broken: bool) -> Vec<u8> {
    let file = list.encode();
    match (broken, rng.chance(1, 6)) {
        (false, _) => file.bytes,
        (true, true) => damage::reshaped(&file, rng).0,
        (true, false) => damage::damaged(&file, rng).0,
    }
}

/// What is to be broken.
#[derive(PartialEq)]
enum Plan {
    Nothing,
    Table,
    Bodies,
    Areas,
    Rooms,
    Moved,
}

fn plan(rng: &mut Rng) -> Plan {
    match rng.below(100) {
        0..=21 => Plan::Nothing,
        22..=49 => Plan::Table,
        50..=76 => Plan::Bodies,
        77..=83 => Plan::Areas,
        84..=93 => Plan::Rooms,
        _ => Plan::Moved,
    }
}

/// In which ways a load was broken, for the counts.
#[derive(Default)]
pub struct Ways {
    pub table: Option<&'static str>,
    pub area: Option<&'static str>,
    /// The bodies are those of the other slots.
    pub exchanged: bool,
}

/// The lists of a disc file with their slots, and a limit for them.
fn bodies(rng: &mut Rng, src: &Source, plan: &Plan, exchanged: bool) -> (Vec<(u64, Vec<u8>)>, u64) {
    let slots: &[usize] = *rng.pick(&[&[0][..], &[1], &[0, 1], &[0, 1], &[0, 1]]);
    // Which bodies are broken: bit 0 the first, bit 1 the second.
    let broken = match plan {
        Plan::Bodies => rng.range(1, 3),
        Plan::Rooms => *rng.pick(&[0, 0, 1, 2]),
        Plan::Table | Plan::Areas => *rng.pick(&[0, 0, 0, 1, 2, 3]),
        _ => 0,
    };
    let (mut lists, mut limit) = (Vec::new(), 0);
    for (i, &slot) in slots.iter().enumerate() {
        let list = rng.pick(&src.lists[if exchanged { 1 - slot } else { slot }]);
        if i == 0 || rng.chance(1, 2) {
            limit = generate::limit(rng, list);
        }
        lists.push((slot as u64, body_bytes(rng, list, broken >> i & 1 == 1 && !exchanged)));
    }
    (lists, limit)
}

/// A load with its answer.
pub fn load_case(rng: &mut Rng, src: &Source, counts: &mut Counts) -> Result<Case, String> {
    let plan = plan(rng);
    let exchanged = plan == Plan::Bodies && rng.chance(1, 12);
    let mut ways = Ways { exchanged, ..Ways::default() };
    let (lists, limit) = bodies(rng, src, &plan, exchanged);
    let mut draft = Draft::new(&lists);
    let whole = lists.iter().all(|l| l.1.len() > 8);
    if whole && (plan == Plan::Table || plan == Plan::Areas && rng.chance(1, 4)) {
        ways.table = Some(change(rng, &mut draft, &BREAKS));
    }
    if whole && plan == Plan::Moved {
        counts.add("bodies that the table cuts elsewhere", change(rng, &mut draft, &MOVES));
    }
    let mut load = Load { areas: src.areas, limit, lent: [[0; 7]; 2], out: 0, file: draft.bytes() };
    if let (Some(way), Some(_)) = (ways.table, contents(&load.file)) {
        return Err(format!("the generator's way \"{way}\" broke no rule"));
    }
    if plan == Plan::Areas {
        ways.area = area_change(rng, &mut load.areas);
    }
    let read = load.read();
    // Whose tables are too short: bit 0 the first body's, bit 1 the second's.
    let short = if plan == Plan::Rooms { rng.range(1, 3) } else { u64::from(rng.chance(1, 40)) };
    for s in 0..2 {
        let at = read.bodies.iter().position(|b| b.0 == s);
        let ix = at.and_then(|i| read.bodies[i].1.as_ref().ok());
        load.lent[s] = lent_for(rng, ix, at.is_some_and(|i| short >> i & 1 == 1));
    }
    let found = load.find(read);
    let held = (0..2).filter_map(|s| found.list(s, found.number != 0));
    let length = 4 + held.map(|ix| 12 + access::saved(ix).len() as u64).sum::<u64>();
    load.out = output_for(rng, length);
    let (answer, saved) = load.answer(&found);
    counts.load(&load, &found, &ways);
    if let Some(saved) = saved {
        counts.saved(if lists.len() == 1 { "one list" } else { "both lists" }, saved, length, load.out);
    }
    Ok((load.line(), answer))
}

/// Changes the draft in one of these ways; answers its name.
fn change(rng: &mut Rng, draft: &mut Draft, ways: &[Break]) -> &'static str {
    loop {
        let (name, way) = rng.pick(ways);
        let mut d = draft.clone();
        if way(&mut d, rng) {
            *draft = d;
            return name;
        }
    }
}

/// Areas that differ: those of another disc, or in a way that question 1 refuses, whose name is the answer.
fn area_change(rng: &mut Rng, areas: &mut [AreaNumbers; 2]) -> Option<&'static str> {
    if rng.chance(2, 3) {
        let (name, way) = rng.pick(&AREAS);
        way(areas, rng);
        return Some(name);
    }
    let a = &mut areas[rng.below(2) as usize];
    let (mut start, mut end, mut channels, mut image) = (a.key_start, a.key_end, a.channels, a.image);
    match rng.below(4) {
        0 => start = start.wrapping_add(1),
        1 => end = end.wrapping_add(1),
        2 => channels ^= 1,
        _ => image += 1,
    }
    *a = AreaNumbers::new(a.slot, start, end, channels, image);
    None
}

/// Two lists of a disc, or of one slot, changed and saved; None where they do not load into the program's tables.
pub fn pair_case(rng: &mut Rng, src: &Source, counts: &mut Counts) -> Option<Case> {
    let slots = *rng.pick(&[[0, 1], [1, 0], [0, 1], [1, 0], [0, 0], [1, 1]]);
    let lists = slots.map(|s: usize| rng.pick(&src.lists[s]).clone());
    let of = rng.pick(&lists).clone();
    let limit = generate::limit(rng, &of);
    let areas = slots.map(|s| src.areas[s]);
    let files = [lists[0].encode().bytes, lists[1].encode().bytes];
    let loaded = [body(&areas[0], &files[0], limit).ok()?, body(&areas[1], &files[1], limit).ok()?];
    let lent = [lent_for(rng, Some(&loaded[0]), false), lent_for(rng, Some(&loaded[1]), false)];
    if (0..2).any(|i| !enough(&lent[i], &needs(&loaded[i]))) {
        return None;
    }
    let edits = [0, 1].map(|i| if rng.chance(1, 4) { Some(edit(rng, &areas[i], &loaded[i])) } else { None });
    let saved = [access::saved(&loaded[0]), access::saved(&loaded[1])];
    let (first, second) = (saved[0].len() as u64, saved[1].len() as u64);
    let lengths = [28 + first + second, 16 + first, 16 + second];
    let near = *rng.pick(&lengths);
    let out = output_for(rng, near);
    let pair = Pair { areas, limit, lent, out, files, edits };
    let (answer, numbers) = pair.answer(&saved);
    counts.pair(&pair, numbers, lengths);
    Some((pair.line(), answer))
}

/// A change of a list that 1, 2, 3 or 4 finds, or that is not saved.
pub fn edit(rng: &mut Rng, area: &AreaNumbers, ix: &AreaIndex) -> Edit {
    let (boundaries, _, _) = access::sizes(ix);
    let need = needs(ix);
    let word = |number, at, value| Edit { number, what: 7, at, value };
    match rng.below(12) {
        // No head: a word wider than its number, a mark that there is not.
        10 => {
            let (at, value) = *rng.pick(&[(0, 256), (1, 1 << 63), (7, 1 << 32), (11, 1 << 32), (16, 1 << 40)]);
            word(3, at, value)
        }
        11 => {
            let (at, value) = *rng.pick(&[(17, 2), (20, 3), (22, 2), (23, 1)]);
            word(3, at, value)
        }
        0 => word(1, 0, rng.range(2, 255)),
        1 => word(1, 5, area.end + 1),
        2 => word(2, 7, *rng.pick(&[0, 65_537])),
        3 => word(2, 8, MAX32 + 1),
        4 | 5 => {
            let some: Vec<u64> = (0..7).filter(|&k| need[k as usize] > 0).collect();
            let k = *rng.pick(&some);
            Edit { number: 3, what: 8, at: k, value: need[k as usize] - 1 }
        }
        6 if access::checkpoints(ix) > 0 => {
            let (at, value) = *rng.pick(&[(3, 255), (4, 1), (7, 1)]);
            Edit { number: 4, what: 0, at, value }
        }
        6 | 7 => word(4, 11, boundaries as u64 + 1),
        8 if access::fingerprint(ix) => word(0, 20, 2),
        _ => word(0, 22, 1),
    }
}
