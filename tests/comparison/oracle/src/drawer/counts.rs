//! What occurred, and what must.

use std::collections::BTreeMap;

use super::model::{File, Found, MOST, Set, Turns, in_turn};
use crate::seek::{AreaIndex, access};
use crate::version4::version;

/// How often each thing occurred, by group and name.
#[derive(Default)]
pub struct Counts(pub BTreeMap<(&'static str, String), u64>);

fn place(i: usize) -> &'static str {
    match i {
        0 => "the first file",
        1 => "the second file",
        2 => "the third file",
        _ => "a later file",
    }
}

/// What must occur, beside the numbers.
const MUST: [(&str, &str); 40] = [
    ("20 past the buffer", "one byte past the buffer"),
    ("20 past the buffer", "2^64 - 1"),
    ("20 past the buffer", "2^32 to 2^63 more"),
    ("20 past the buffer", "the sum wraps"),
    ("20 past the buffer", "the buffer is a byte shorter"),
    ("20 past the buffer", "the first file"),
    ("20 past the buffer", "a later file"),
    ("20 past the buffer", "files behind it"),
    ("20 of load", "a file of no bytes"),
    ("a refused file", "a file past the buffer behind it"),
    ("3 of the working tables", "the first file"),
    ("3 of the working tables", "the second file"),
    ("3 of the working tables", "the third file"),
    ("3 of the working tables", "a later file"),
    ("3 of the working tables", "all of length 0"),
    ("3 of the working tables", "a refused file behind it"),
    ("a refused file", "the working tables are too short for a later one"),
    ("a refused file", "two lists before it cannot be merged"),
    ("44", "no file"),
    ("44", "17 files"),
    ("44", "more than 17"),
    ("44", "a refused file in it"),
    ("1 to 4", "with 44"),
    ("1 to 4", "with a refused file"),
    ("a pair", "41: the own list and a file"),
    ("a pair", "42: the own list and a file"),
    ("a pair", "42: two files"),
    ("a pair", "43: the own list and a file"),
    ("a pair", "43: two files"),
    ("a pair", "another number than merging in turn meets"),
    ("accepted", "16 files of 88 bytes"),
    ("accepted", "a file twice"),
    ("accepted", "M is 0"),
    ("accepted", "limit 0"),
    ("accepted", "the own list is complete, no file is"),
    ("accepted", "the last file ends with the buffer"),
    ("accepted", "bytes behind the last file"),
    ("accepted", "bytes behind the lengths"),
    ("accepted", "an LSN under two numbers"),
    ("accepted", "a file of version 4"),
];

impl Counts {
    pub fn add(&mut self, group: &'static str, name: impl Into<String>) {
        *self.0.entry((group, name.into())).or_default() += 1;
    }

    pub fn set(&mut self, set: &Set, own: &AreaIndex, files: &[File], found: &Found, length: Option<&'static str>) {
        self.add("answer", format!("{:02}", found.number()));
        let refused = |from: usize| files.iter().skip(from).any(|f| matches!(f, File::Refused(_)));
        match *found {
            Found::Own(n) => {
                self.add("1 to 4", format!("{n}"));
                self.when("1 to 4", "with 44", set.lengths.is_empty() || set.lengths.len() > MOST);
                self.when("1 to 4", "with a refused file", refused(0));
            }
            Found::Size => {
                let n = set.lengths.len();
                self.add(
                    "44",
                    if n == 0 {
                        "no file"
                    } else if n == 17 {
                        "17 files"
                    } else {
                        "more than 17"
                    },
                );
                self.when("44", "a refused file in it", refused(0));
            }
            Found::Past(i) => {
                self.add("20 past the buffer", if i == 0 { "the first file" } else { "a later file" });
                if let Some(how) = length {
                    self.add("20 past the buffer", how);
                }
                self.when("20 past the buffer", "files behind it", i + 1 < set.lengths.len());
            }
            Found::File(i, n) => {
                if n == 20 {
                    self.when("20 of load", "a file of no bytes", set.lengths[i] == 0);
                }
                self.when(
                    "a refused file",
                    "a file past the buffer behind it",
                    matches!(files.last(), Some(File::Past)),
                );
                let short = files.iter().skip(i + 1).any(|f| f.list().is_some() && !super::cases::fits(set, f));
                self.when("a refused file", "the working tables are too short for a later one", short);
                let before: Vec<&AreaIndex> = files[..i].iter().filter_map(File::list).collect();
                self.when(
                    "a refused file",
                    "two lists before it cannot be merged",
                    matches!(in_turn(own, &before), Turns::Refused(_)),
                );
            }
            Found::Room(i) => {
                self.add("3 of the working tables", place(i));
                self.when("3 of the working tables", "all of length 0", set.work == [0; 7]);
                self.when("3 of the working tables", "a refused file behind it", refused(i + 1));
            }
            Found::Pair(i, _, n) => {
                self.add("a pair", format!("{n}: {}", if i == 0 { "the own list and a file" } else { "two files" }));
                let lists: Vec<&AreaIndex> = files.iter().filter_map(File::list).collect();
                let turn = matches!(in_turn(own, &lists), Turns::Refused(m) if m != n);
                self.when("a pair", "another number than merging in turn meets", turn);
            }
            Found::List(ref ix) => self.accepted(set, own, files, ix),
        }
    }

    fn when(&mut self, group: &'static str, name: &str, occurs: bool) {
        if occurs {
            self.add(group, name);
        }
    }

    fn accepted(&mut self, set: &Set, own: &AreaIndex, files: &[File], ix: &AreaIndex) {
        let n = set.lengths.len();
        self.add("files of an accepted set", format!("{n:02}"));
        let bytes: Vec<&[u8]> = (0..n).filter_map(|i| set.bytes(i)).collect();
        let all = |f: &dyn Fn(&AreaIndex) -> bool| files.iter().all(|l| l.list().is_some_and(f));
        let clash = |l: &File| l.list().is_some_and(|l| access::hints_clash(own, access::samples(l)));
        let end: usize = bytes.iter().map(|b| b.len()).sum();
        let of = [
            ("16 files of 88 bytes", n == MOST && bytes.iter().all(|b| b.len() == 88)),
            ("a file twice", (0..n).any(|i| bytes[..i].contains(&bytes[i]))),
            ("M is 0", access::sizes(own).2 == 0),
            ("limit 0", set.limit == 0),
            ("the own list is complete, no file is", access::complete(own) && all(&|l| !access::complete(l))),
            ("the last file ends with the buffer", end == set.buffer.len()),
            ("bytes behind the last file", end < set.buffer.len()),
            ("bytes behind the lengths", !set.rest.is_empty()),
            ("an LSN under two numbers", files.iter().any(clash)),
            ("a file of version 4", bytes.iter().any(|b| version(b) == 4)),
            ("the own list is changed", access::saved(own) != access::saved(ix)),
        ];
        for (name, occurs) in of {
            self.when("accepted", name, occurs);
        }
    }
}

/// What must occur.
pub fn expected() -> Vec<(&'static str, String)> {
    let numbers = [0, 1, 2, 3, 4].into_iter().chain(20..=38).chain(41..=44).map(|n| ("answer", format!("{n:02}")));
    let own = (1..=4).map(|n| ("1 to 4", format!("{n}")));
    let sizes = (1..=16).map(|n| ("files of an accepted set", format!("{n:02}")));
    numbers.chain(own).chain(sizes).chain(MUST.map(|(g, n)| (g, n.to_string()))).collect()
}

/// The counts as tables.
pub fn tables(counts: &Counts) -> String {
    let (mut out, mut last) = (String::new(), "");
    for ((group, name), n) in &counts.0 {
        if *group != last {
            out += &format!("\n| {group} | |\n|---|---:|\n");
            last = group;
        }
        out += &format!("| {name} | {n} |\n");
    }
    out
}
