//! What occurred, and what must.

use std::collections::BTreeMap;

use super::broken::{AREAS, BREAKS, MOVES};
use super::cases::Ways;
use super::model::{Found, Load, Pair, area_ok, wides};
use crate::script::sections;
use crate::seek::access;
use crate::version4::version;

/// How often each thing occurred, by group and name.
#[derive(Default)]
pub struct Counts(pub BTreeMap<(&'static str, String), u64>);

/// What a limit does to a list, in the order of `access::limited`.
pub const LIMITS: [&str; 5] = ["lowers the budget", "drops frames", "lowers M", "thins hints", "drops confirmations"];

impl Counts {
    pub fn add(&mut self, group: &'static str, name: impl Into<String>) {
        *self.0.entry((group, name.into())).or_default() += 1;
    }

    /// A load, by its number and by the ways in which it was broken.
    pub fn load(&mut self, load: &Load, found: &Found, ways: &Ways) {
        let n = found.number;
        self.add("load", format!("{n}"));
        match (n, ways.table, ways.area) {
            (54, Some(way), _) => self.add("54 of a file", way),
            (1, table, Some(area)) => {
                self.add("1", area);
                let absent = |s: usize| found.read.bodies.iter().all(|b| b.0 != s);
                if table.is_some() {
                    self.add("1", "and the table is broken");
                } else if (0..2).any(|s| !area_ok(&load.areas[s], s as u8) && absent(s)) {
                    self.add("1", "of an area whose list the file has not");
                }
            }
            (26, ..) if ways.exchanged => self.add("26", "the body is of the other slot"),
            (26, ..) => self.add("26", "the body is of another area"),
            (0, ..) => self.accepted(load, found),
            _ => {}
        }
        if n != 1 && n != 0 && n != 54 {
            self.refused(n, &found.numbers);
        }
    }

    fn accepted(&mut self, load: &Load, found: &Found) {
        let entries = found.read.contents.iter().flatten();
        let slots: Vec<u64> = entries.clone().map(|e| e.slot).collect();
        let which = match slots[..] {
            [0] => "the list of slot 0",
            [1] => "the list of slot 1",
            _ => "both lists",
        };
        self.add("accepted", which);
        let mut same = true;
        for e in entries.clone() {
            let bytes = &load.file[e.offset as usize..(e.offset + e.length) as usize];
            let Some(ix) = found.list(e.slot as usize, false) else { continue };
            let saved = access::saved(ix);
            same &= saved == bytes;
            let x = sections(bytes);
            if x.version == 4 {
                let at = entries.clone().position(|b| b.slot == e.slot);
                let beside = entries.clone().filter(|b| version(&load.file[b.offset as usize..]) == 4).count();
                self.add(
                    "a body of version 4",
                    match (slots.len(), beside, at) {
                        (1, ..) => "the only one",
                        (_, 2, _) => "one of two",
                        (_, _, Some(0)) => "the first, beside another version",
                        _ => "the second, beside another version",
                    },
                );
                self.add("a body of version 4", format!("then saved as version {}", version(&saved)));
            }
            let took = access::limited(ix, x.budget, x.f, x.most, x.s, x.c);
            for name in LIMITS.iter().zip(took).filter(|l| l.1).map(|l| *l.0) {
                self.add("the limit", name);
            }
        }
        self.add("accepted", if same { "saved as its own bytes" } else { "saved as other bytes, by the limit" });
    }

    /// A body's own number, by whose it is.
    fn refused(&mut self, n: u32, numbers: &[u32]) {
        let whose = match numbers {
            [_] => "the only body",
            [_, 0] => "the first body",
            [0, _] => "the second body",
            _ => "both bodies fail",
        };
        self.add("a body's own number", format!("{n:02}: {whose}"));
        let &[a, b] = numbers else { return };
        match (a, b) {
            (3, 3) => self.add("both bodies fail", "3 and 3"),
            (3, 20..) => self.add("both bodies fail", "the first with 3, the second before 3"),
            (20.., 3) => self.add("both bodies fail", "the first before 3, the second with 3"),
            (20.., 20..) if a < b => self.add("both bodies fail", "the first with the lower number"),
            (20.., 20..) if a > b => self.add("both bodies fail", "the first with the higher number"),
            _ => {}
        }
    }

    /// What saving a file of `length` bytes into `out` bytes answered.
    pub fn saved(&mut self, what: &str, answer: u64, length: u64, out: u64) {
        let name = match answer {
            40 if out + 1 == length => "40, one byte short".to_string(),
            n if n < 88 => format!("{n}"),
            n if n == out => "written, the output exactly as long".to_string(),
            _ => "written, the output longer".to_string(),
        };
        self.add("save", format!("{what}: {name}"));
    }

    /// What saving both lists and each of them answered, with the lengths that their files have.
    pub fn pair(&mut self, pair: &Pair, numbers: [u64; 3], lengths: [u64; 3]) {
        for (i, what) in ["both lists", "one list", "one list"].into_iter().enumerate() {
            self.saved(what, numbers[i], lengths[i], pair.out);
        }
        for e in pair.edits.iter().flatten().filter(|e| e.number == 0) {
            self.add("not saved", if e.at == 20 { "a checked mark" } else { "an image id" });
        }
        let (both, short) = (numbers[0], pair.out < lengths[0]);
        match (both, pair.areas[0].slot == pair.areas[1].slot) {
            (54, _) if short => self.add("order of saving", "54 before 40"),
            (1..=4, true) => self.add("order of saving", format!("{both} before 54")),
            (1..=4, false) if short => self.add("order of saving", format!("{both} before 40")),
            _ => {}
        }
        let own = pair.edits.map(|e| e.map_or(0, |e| e.number));
        if own[0] != own[1] && own[0] * own[1] != 0 {
            self.add("order of saving", "the two lists refused with different numbers");
        }
    }
}

/// Everything that must occur.
pub fn expected() -> Vec<(&'static str, String)> {
    let mut all: Vec<(&'static str, String)> = Vec::new();
    let mut need = |group: &'static str, names: &[&str]| all.extend(names.iter().map(|n| (group, n.to_string())));
    need("54 of a file", &BREAKS.map(|b| b.0));
    need("bodies that the table cuts elsewhere", &MOVES.map(|b| b.0));
    need("1", &AREAS.map(|b| b.0));
    need("1", &["and the table is broken", "of an area whose list the file has not"]);
    need("26", &["the body is of the other slot", "the body is of another area"]);
    need("accepted", &["the list of slot 0", "the list of slot 1", "both lists"]);
    need("accepted", &["saved as its own bytes", "saved as other bytes, by the limit"]);
    need("the limit", &LIMITS);
    need("a body of version 4", &["the only one", "one of two"]);
    need("a body of version 4", &["the first, beside another version", "the second, beside another version"]);
    for n in 2..=4 {
        need("a body of version 4", &[&format!("then saved as version {n}")]);
    }
    need("not saved", &["a checked mark", "an image id"]);
    need(
        "both bodies fail",
        &["3 and 3", "the first with 3, the second before 3", "the first before 3, the second with 3"],
    );
    need("both bodies fail", &["the first with the lower number", "the first with the higher number"]);
    need("order of saving", &["54 before 40", "1 before 54", "2 before 54", "3 before 54", "4 before 54"]);
    need("order of saving", &["1 before 40", "2 before 40", "3 before 40", "4 before 40"]);
    need("order of saving", &["the two lists refused with different numbers"]);
    for what in ["one list", "both lists"] {
        for name in ["1", "2", "3", "4", "40", "40, one byte short"] {
            need("save", &[&format!("{what}: {name}")]);
        }
        need("save", &[&format!("{what}: written, the output exactly as long")]);
        need("save", &[&format!("{what}: written, the output longer")]);
    }
    need("save", &["both lists: 54"]);
    for (name, _) in wides() {
        need("four bytes", &[name]);
    }
    for n in [0, 1, 3, 54].into_iter().chain(20..=38) {
        need("load", &[&format!("{n}")]);
    }
    for n in [3].into_iter().chain(20..=38) {
        for name in ["the only body", "the first body", "the second body", "both bodies fail"] {
            need("a body's own number", &[&format!("{n:02}: {name}")]);
        }
    }
    all
}

pub fn tables(counts: &Counts) -> String {
    let mut out = "| | | times |\n|---|---|---:|\n".to_string();
    for ((group, name), count) in &counts.0 {
        out += &format!("| {group} | {name} | {count} |\n");
    }
    out
}
