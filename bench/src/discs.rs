//! Calls for disc files: of each of three lists, one on a disc and both. The Rust has none, and does what it has for the same lists.

use crate::limits::Work;
use crate::lists::{Area, List, theirs, three, u32s};
use crate::raw::BLOCK;
use crate::report::{Report, Row};
use crate::rounds::{Round, fresh, repeat};
use crate::tables::{self, Tables, word};
use oracle::seek::AreaIndex;
use std::hint::black_box;

const CALLS: [&str; 5] = ["disc contents", "disc sizes", "disc load", "disc saved length", "disc save"];

pub fn rows(r: &Report) {
    if !r.wants_any(&CALLS) {
        return;
    }
    for (case, list) in three() {
        Case::new(r, format!("{case}: one list"), &list, 1).rows();
        Case::new(r, format!("{case}: both lists"), &list, 2).rows();
    }
}

/// A disc with the list in slot 0, or in both slots.
struct Case<'a> {
    r: &'a Report,
    case: String,
    lists: [List; 2],
    count: usize,
    bodies: Vec<Vec<u8>>,
    file: Vec<u8>,
}

/// The disc file of list files, by slot.
fn file_of(bodies: &[Vec<u8>]) -> Vec<u8> {
    let mut at = 4 + 12 * bodies.len();
    let mut out = Vec::with_capacity(at + bodies.iter().map(Vec::len).sum::<usize>());
    u32s(&mut out, &[bodies.len() as u32]);
    for (slot, body) in bodies.iter().enumerate() {
        u32s(&mut out, &[slot as u32, at as u32, body.len() as u32]);
        at += body.len();
    }
    bodies.iter().for_each(|body| out.extend_from_slice(body));
    out
}

impl<'a> Case<'a> {
    fn new(r: &'a Report, case: String, list: &List, count: usize) -> Case<'a> {
        let lists = [0, 1].map(|slot| List { slot, ..list.clone() });
        let bodies: Vec<Vec<u8>> = lists[..count].iter().map(List::file).collect();
        let file = file_of(&bodies);
        Case { r, case, lists, count, bodies, file }
    }

    fn rows(&self) {
        self.check();
        self.contents();
        self.load();
        self.save();
    }

    fn areas(&self) -> [Area; 2] {
        [self.lists[0].area(), self.lists[1].area()]
    }

    /// The lists' tables, made by `make`; those of a list that is not there are empty.
    fn tables(&self, make: fn(&List) -> Tables) -> [Tables; 2] {
        [make(&self.lists[0]), if self.count > 1 { make(&self.lists[1]) } else { Tables::absent() }]
    }

    fn theirs(&self) -> [Option<AreaIndex>; 2] {
        [0, 1].map(|slot| self.bodies.get(slot).map(|body| theirs(&self.lists[slot].area(), body)))
    }

    /// Both sides, once.
    fn check(&self) {
        let ([mut a, mut b], mut answer) = (self.tables(Tables::new), [0; BLOCK]);
        let lengths = [&a, &b].map(|t| t.tables.each_ref().map(|t| t.len() as u64));
        assert_eq!(tables::disc_sizes(&self.areas(), &self.file, &mut answer), 0, "{}: no sizes", self.case);
        assert_eq!([0, 8].map(|k| std::array::from_fn(|i| word(&answer, k + i))), lengths, "{}: the sizes differ", self.case);
        assert_eq!(a.disc_load(&mut b, &self.areas(), &self.file, &mut answer), 0, "{}: refused", self.case);
        assert!(self.bodies.iter().zip([&mut a, &mut b]).all(|(body, t)| t.file() == *body), "{}: the lists differ", self.case);
        let mut out = vec![0; self.saved_length(&mut a, &b) as usize];
        assert_eq!(self.saved(&mut a, &b, &mut out), out.len() as u64, "{}: not saved", self.case);
        assert!(out == self.file, "{}: saved bytes differ", self.case);
        assert!(their_file(&self.theirs()) == self.file, "{}: the original's saved bytes differ", self.case);
    }

    fn saved_length(&self, a: &mut Tables, b: &Tables) -> u64 {
        if self.count > 1 { a.disc_saved_length_both(b) } else { a.disc_saved_length() }
    }

    fn saved(&self, a: &mut Tables, b: &Tables, out: &mut [u8]) -> u64 {
        if self.count > 1 { a.disc_save_both(b, out) } else { a.disc_save(out) }
    }

    fn row(&self, call: &'static str, least: Work, four: bool, ours: Round<'_>, theirs: Option<(&str, Round<'_>)>) {
        let lists = &self.lists[..self.count];
        let mut asked: Vec<Tables> = lists.iter().map(Tables::loaded).collect();
        let four = four.then(|| repeat(move || asked.iter_mut().for_each(Tables::four)));
        let said = theirs.as_ref().map_or(String::new(), |(what, _)| format!("; the Rust: {}{what}", ["", "two "][self.count - 1]));
        self.r.row(Row { call, case: format!("{}{said}", self.case), ours, theirs: theirs.map(|t| t.1), four, least, goal: None });
    }

    /// Each byte of the bodies, once; their sums do not wait for each other.
    fn bytes(&self) -> Work {
        let lengths: Vec<usize> = self.bodies.iter().map(Vec::len).collect();
        Work { sum: lengths[0], beside: lengths[1..].iter().sum(), copy: lengths.iter().sum(), ..Work::default() }
    }

    fn contents(&self) {
        let mut answer = [0; BLOCK];
        assert_eq!(tables::disc_contents(&self.file, &mut answer), 0, "{}: no contents", self.case);
        assert_eq!((word(&answer, 2), word(&answer, 5)), (self.bodies[0].len() as u64, self.bodies.get(1).map_or(0, Vec::len) as u64));
        self.row("disc contents", Work::default(), false, repeat(move || tables::disc_contents(black_box(&self.file), &mut answer)), None);
    }

    fn load(&self) {
        let (areas, mut answer) = (self.areas(), [0; BLOCK]);
        let sizes = repeat(move || tables::disc_sizes(black_box(&areas), &self.file, &mut answer));
        self.row("disc sizes", Work { copy: 0, ..self.bytes() }, false, sizes, None);
        let [mut a, mut b] = self.tables(Tables::new);
        let load = repeat(move || a.disc_load(&mut b, black_box(&areas), &self.file, &mut answer));
        self.row("disc load", self.bytes(), false, load, Some(("from_bytes", fresh(|| (), |_| black_box(self).theirs()))));
    }

    fn save(&self) {
        let [mut a, b] = self.tables(Tables::loaded);
        let read = Work { read: a.read() + b.read(), ..Work::default() };
        let length = repeat(move || self.saved_length(black_box(&mut a), &b));
        self.row("disc saved length", read, true, length, None);
        let ([mut a, b], mut out, theirs) = (self.tables(Tables::loaded), vec![0; self.file.len()], self.theirs());
        let save = repeat(move || self.saved(black_box(&mut a), &b, &mut out));
        let their_save = fresh(|| (), move |_| their_file(black_box(&theirs)));
        self.row("disc save", self.bytes(), true, save, Some(("to_bytes into one buffer", their_save)));
    }
}

/// What the Rust would write.
fn their_file(lists: &[Option<AreaIndex>; 2]) -> Vec<u8> {
    match lists.each_ref().map(|list| list.as_ref().map(AreaIndex::to_bytes)) {
        [Some(first), Some(second)] => file_of(&[first, second]),
        [only, _] => file_of(&[only.expect("a list of slot 0")]),
    }
}
