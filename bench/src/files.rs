//! Calls on one list that leave it as it is, or make it: three lists.

use crate::limits::Work;
use crate::lists::{List, longest, their_area, theirs, three};
use crate::raw::BLOCK;
use crate::report::{Report, Row};
use crate::rounds::{Round, fresh, repeat};
use crate::tables::{self, Tables};
use oracle::calls;
use oracle::seek::{AreaIndex, IndexOptions};
use std::hint::black_box;

const LOADS: [&str; 3] = ["load", "file sizes", "file area"];
const SAVES: [&str; 2] = ["save", "saved length"];
const RECORDERS: [&str; 2] = ["recorder", "hint recorder"];

pub fn rows(r: &Report) {
    if !r.wants_any(&[&LOADS[..], &SAVES, &RECORDERS, &["plan", "new", "fingerprint"]].concat()) {
        return;
    }
    for (case, list) in three() {
        Case { r, case, list: &list, file: list.file() }.rows();
    }
    let case = "262,144 hints and confirmations";
    if r.has(case) && r.wants_any(&["load", "save"]) {
        let list = longest(0, true);
        Case { r, case, list: &list, file: list.file() }.version4();
    }
}

struct Case<'a> {
    r: &'a Report,
    case: &'static str,
    list: &'a List,
    file: Vec<u8>,
}

impl Case<'_> {
    fn row(&self, call: &'static str, least: Work, four: bool, ours: Round<'_>, theirs: Option<Round<'_>>) {
        let mut asked = Tables::loaded(self.list);
        let four = four.then(|| repeat(move || asked.four()));
        self.r.row(Row { call, case: self.case.to_string(), ours, theirs, four, least, goal: None });
    }

    fn rows(&self) {
        let mut ours = Tables::loaded(self.list);
        let theirs = self.list.theirs();
        assert_eq!(ours.file(), self.file, "{}: saved bytes differ", self.case);
        assert_eq!(theirs.to_bytes(), self.file, "{}: the original's saved bytes differ", self.case);
        if self.r.wants_any(&LOADS) {
            self.load();
        }
        if self.r.wants_any(&SAVES) {
            self.save(theirs.clone());
        }
        if self.r.wants("plan") {
            self.plan(&theirs);
        }
        if self.r.wants("new") {
            self.create();
        }
        if self.r.wants("fingerprint") {
            self.fingerprint(theirs.clone());
        }
        if self.r.wants_any(&RECORDERS) {
            self.recorders(&theirs);
        }
    }

    /// Load and save of a file that the original does not read.
    fn version4(&self) {
        let (mut ours, a) = (Tables::new(self.list), self.list.area());
        assert_eq!(Tables::loaded(self.list).file(), self.file, "{}: saved bytes differ", self.case);
        let load = repeat(move || ours.load(black_box(&a), &self.file));
        self.row("load", self.bytes(), false, load, None);
        let (mut ours, mut out) = (Tables::loaded(self.list), vec![0; self.file.len()]);
        self.row("save", self.bytes(), true, repeat(move || black_box(&mut ours).save(&mut out)), None);
    }

    /// Each byte of the file, once.
    fn bytes(&self) -> Work {
        Work { sum: self.file.len(), copy: self.file.len(), ..Work::default() }
    }

    /// Each byte that question 4 asks of, once.
    fn reading(&self) -> Work {
        Work { read: Tables::loaded(self.list).read(), ..Work::default() }
    }

    fn load(&self) {
        let (mut ours, a) = (Tables::new(self.list), self.list.area());
        let load = repeat(move || ours.load(black_box(&a), &self.file));
        self.row("load", self.bytes(), false, load, Some(fresh(|| (), move |_| theirs(black_box(&a), &self.file))));
        let mut answer = [0; BLOCK];
        let sizes = repeat(move || tables::file_sizes(black_box(&a), &self.file, &mut answer));
        self.row("file sizes", Work { sum: self.file.len(), ..Work::default() }, false, sizes, None);
        let mut answer = [0; BLOCK];
        self.row("file area", Work::default(), false, repeat(move || tables::file_area(black_box(&self.file), &mut answer)), None);
    }

    fn save(&self, theirs: AreaIndex) {
        let (mut ours, mut out) = (Tables::loaded(self.list), vec![0; self.file.len()]);
        let save = repeat(move || black_box(&mut ours).save(&mut out));
        self.row("save", self.bytes(), true, save, Some(fresh(|| (), move |_| black_box(&theirs).to_bytes())));
        let mut ours = Tables::loaded(self.list);
        self.row("saved length", self.reading(), true, repeat(move || black_box(&mut ours).saved_length()), None);
    }

    fn plan(&self, theirs: &AreaIndex) {
        let (mut ours, a) = (Tables::loaded(self.list), self.list.area());
        for frame in [0, 1, self.list.checkpoints / 2, self.list.checkpoints + 5] {
            assert_eq!(ours.jump(frame), oracle::jump(theirs, (a.start, a.end), frame), "plans differ at {frame}");
        }
        let (frame, mut answer) = (self.list.checkpoints / 2, [0; BLOCK]);
        let plan = repeat(move || ours.plan(black_box(frame), &mut answer));
        let theirs = repeat(move || oracle::jump(black_box(theirs), (a.start, a.end), black_box(frame)));
        self.row("plan", self.reading(), true, plan, Some(theirs));
    }

    fn create(&self) {
        let (mut ours, a, l) = (Tables::new(self.list), self.list.area(), self.list);
        let area = their_area(&a);
        let options = IndexOptions::new().with_interval(l.interval).with_inline_budget(l.budget as usize).with_hints(8, l.most as usize);
        let made = AreaIndex::new(&area, a.sectors, options).expect("the original makes no list");
        assert_eq!(ours.create(&a, l.interval, l.budget, 8, l.most), 0, "no list is made");
        assert_eq!(ours.file(), made.to_bytes(), "the new lists differ");
        let new = repeat(move || ours.create(black_box(&a), l.interval, l.budget, 8, l.most));
        self.row("new", Work::default(), false, new, Some(repeat(move || AreaIndex::new(black_box(&area), a.sectors, options).is_ok())));
    }

    fn fingerprint(&self, mut theirs: AreaIndex) {
        let mut ours = Tables::loaded(self.list);
        assert!(ours.fingerprint(7) == 0 && calls::fingerprint(&mut theirs, 7), "the fingerprint is refused");
        assert_eq!(ours.file(), theirs.to_bytes(), "the lists with a fingerprint differ");
        let stated = repeat(move || ours.fingerprint(black_box(7)));
        self.row("fingerprint", self.reading(), true, stated, Some(repeat(move || calls::fingerprint(black_box(&mut theirs), 7))));
    }

    fn recorders(&self, theirs: &AreaIndex) {
        let (mut ours, mut block, from) = (Tables::loaded(self.list), [0; BLOCK], self.list.area().start);
        let recorder = repeat(move || ours.recorder(black_box(from), &mut block));
        self.row("recorder", self.reading(), true, recorder, Some(repeat(move || calls::Recorder::new(black_box(theirs), from))));
        let mut ours = Tables::loaded(self.list);
        let recorder = repeat(move || black_box(&mut ours).hint_recorder(&mut block));
        self.row("hint recorder", self.reading(), true, recorder, Some(repeat(move || calls::Hints::new(black_box(theirs)))));
    }
}
