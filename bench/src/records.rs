//! Recorders: a whole area recorded and absorbed, and the calls of it.

use crate::limits::Work;
use crate::lists::{List, START, list};
use crate::plain;
use crate::report::{Report, Row, grouped};
use crate::rounds::{Clock, fresh, partly, repeat};
use crate::tables::{Recorder, Tables};
use oracle::calls;
use oracle::seek::AreaIndex;
use std::hint::black_box;

/// The image that is read.
const IMAGE: u64 = 9;

/// A reading of an area: the sector and the frame that are met at each checkpoint.
struct Reading {
    list: List,
    sector: [u8; 2048],
    frame: Vec<u8>,
}

pub fn rows(r: &Report) {
    let reading = Reading::of(7_400);
    if r.wants("record") {
        for held in [1, 64, 7_399] {
            reading.recorded(r, held);
        }
    }
    if r.wants("record and absorb") {
        for stretch in [64, 1_024, 7_400] {
            reading.whole(r, stretch);
        }
    }
    if r.wants("absorb") {
        for (held, stretch) in [(0, 64), (7_336, 64), (3_700, 3_700), (0, 7_400)] {
            reading.absorbed(r, held, stretch);
        }
    }
    if r.wants("finish") {
        for n in [64, 1_024, 7_400] {
            Reading::of(n).finished(r);
        }
    }
}

impl Reading {
    /// Of an area of `n` checkpoints.
    fn of(n: u32) -> Reading {
        let mut sector = [0; 2048];
        sector.copy_from_slice(&plain::bytes(2048));
        Reading { list: List { checkpoints: 0, budget: 1 << 20, ..list(n, 64) }, sector, frame: plain::bytes(8_192) }
    }

    fn lsn(&self, j: u32) -> u64 {
        u64::from(START + j * self.list.interval)
    }

    /// Checkpoint `j`; a frame starts five sectors before each but the first.
    fn record(&self, r: &mut Recorder, j: u32) {
        let frame = (j > 0).then(|| (self.lsn(j) - 5, &self.frame[..]));
        assert_eq!(r.record(self.lsn(j), j, frame, &self.sector), 0, "checkpoint {j} is refused");
    }

    fn their_record(&self, r: &mut calls::Recorder, j: u32) {
        let frame = (j > 0).then(|| calls::Frame { start: self.lsn(j) - 5, number: j, bytes: &self.frame });
        r.record(self.lsn(j), j, 0, frame, black_box(&self.sector));
    }

    fn recorder(&self, t: &mut Tables) -> Recorder {
        let mut r = Recorder::new(&self.list);
        assert_eq!(t.recorder(u64::from(START), &mut r.block), 0, "no recorder");
        r
    }

    /// The first `n` checkpoints, recorded and absorbed.
    fn held(&self, n: u32) -> (Tables, AreaIndex) {
        let (mut ours, mut theirs) = (Tables::loaded(&self.list), self.list.theirs());
        let (mut a, mut b) = (self.recorder(&mut ours), calls::Recorder::new(&theirs, u64::from(START)));
        for j in 0..n {
            self.record(&mut a, j);
            self.their_record(&mut b, j);
        }
        assert!(ours.absorb(&mut a, IMAGE) == 0 && b.absorb(&mut theirs, IMAGE), "not absorbed");
        (ours, theirs)
    }

    /// The whole area, absorbed after each stretch.
    fn read(&self, t: &mut Tables, r: &mut Recorder, stretch: u32) {
        for j in 0..self.list.boundaries {
            self.record(r, j);
            if (j + 1) % stretch == 0 {
                assert_eq!(t.absorb(r, IMAGE), 0, "not absorbed");
            }
        }
        assert_eq!(r.finish(self.list.boundaries, 0), 0, "not finished");
        assert_eq!(t.absorb(r, IMAGE), 0, "not absorbed");
    }

    fn their_read(&self, ix: &mut AreaIndex, r: &mut calls::Recorder, stretch: u32) {
        for j in 0..self.list.boundaries {
            self.their_record(r, j);
            if (j + 1) % stretch == 0 {
                assert!(r.absorb(ix, IMAGE), "not absorbed");
            }
        }
        r.finish(self.list.boundaries, 0);
        assert!(r.absorb(ix, IMAGE), "not absorbed");
    }

    fn whole(&self, r: &Report, stretch: u32) {
        let n = self.list.boundaries as usize;
        let (mut ours, mut theirs) = (Tables::loaded(&self.list), self.list.theirs());
        let mut recorder = self.recorder(&mut ours);
        let (start, block) = (ours.copy(), recorder.block);
        let empty = theirs.clone();
        self.read(&mut ours, &mut recorder, stretch);
        self.their_read(&mut theirs, &mut calls::Recorder::new(&empty, u64::from(START)), stretch);
        assert_eq!(ours.file(), theirs.to_bytes(), "the recorded lists differ");
        let (mut t, mut rec) = (ours.copy(), recorder.copy());
        r.row(Row {
            call: "record and absorb",
            case: format!("7,400 checkpoints in stretches of {}", grouped(u64::from(stretch))),
            ours: partly(|clock| {
                t.restore(&start);
                rec.block = block;
                clock.time(|| self.read(&mut t, &mut rec, stretch));
            }),
            theirs: Some(fresh(
                || (empty.clone(), calls::Recorder::new(&empty, u64::from(START))),
                |(ix, rec)| self.their_read(ix, rec, stretch),
            )),
            four: Some(partly(|clock| {
                ours.restore(&start);
                recorder.block = block;
                self.asked(&mut ours, &mut recorder, stretch, clock);
            })),
            least: Work { sum: 2048 * n, copy: 2 * 24 * n, ..Work::default() },
            goal: Some((1.0, false)),
        });
    }

    /// The same reading; only the questions 1 to 4 of its calls are timed.
    fn asked(&self, t: &mut Tables, r: &mut Recorder, stretch: u32, clock: &mut Clock) {
        for j in 0..self.list.boundaries {
            clock.time(|| r.four());
            self.record(r, j);
            if (j + 1) % stretch == 0 {
                clock.time(|| (t.four(), r.four()));
                assert_eq!(t.absorb(r, IMAGE), 0, "not absorbed");
            }
        }
        clock.time(|| (t.four(), r.four(), r.four()));
    }

    /// `stretch` checkpoints into a list of `held`.
    fn absorbed(&self, r: &Report, held: u32, stretch: u32) {
        let (mut start, theirs) = self.held(held);
        let (mut recorder, mut theirs_from) = (self.recorder(&mut start), calls::Recorder::new(&theirs, u64::from(START)));
        for j in held..held + stretch {
            self.record(&mut recorder, j);
            self.their_record(&mut theirs_from, j);
        }
        let block = recorder.block;
        let (mut ours, mut same) = (start.copy(), theirs.clone());
        assert!(ours.absorb(&mut recorder, IMAGE) == 0 && theirs_from.clone().absorb(&mut same, IMAGE), "not absorbed");
        assert_eq!(ours.file(), same.to_bytes(), "the absorbed lists differ");
        let (mut asked, mut asked_recorder) = (start.copy(), recorder.copy());
        asked_recorder.block = block;
        r.row(Row {
            call: "absorb",
            case: format!("{} checkpoints into {}", grouped(u64::from(stretch)), grouped(u64::from(held))),
            ours: partly(|clock| {
                ours.restore(&start);
                recorder.block = block;
                clock.time(|| ours.absorb(&mut recorder, IMAGE));
            }),
            theirs: Some(fresh(|| (theirs.clone(), theirs_from.clone()), |(ix, rec)| rec.absorb(ix, IMAGE))),
            four: Some(repeat(move || (asked.four(), asked_recorder.four()))),
            least: Work { read: start.read() + 24 * stretch as usize, copy: 24 * stretch as usize, ..Work::default() },
            goal: Some((1.0, false)),
        });
    }

    /// Recorders with the first `n` checkpoints, not yet absorbed.
    fn begun(&self, n: u32) -> (Recorder, calls::Recorder) {
        let mut t = Tables::loaded(&self.list);
        let (mut ours, mut theirs) = (self.recorder(&mut t), calls::Recorder::new(&self.list.theirs(), u64::from(START)));
        for j in 0..n {
            self.record(&mut ours, j);
            self.their_record(&mut theirs, j);
        }
        (ours, theirs)
    }

    /// One checkpoint more.
    fn recorded(&self, r: &Report, n: u32) {
        let (mut recorder, theirs) = self.begun(n);
        let (block, mut asked) = (recorder.block, recorder.copy());
        r.row(Row {
            call: "record",
            case: format!("with {} recorded", grouped(u64::from(n))),
            ours: partly(|clock| {
                recorder.block = block;
                clock.time(|| self.record(&mut recorder, n));
            }),
            theirs: Some(fresh(|| theirs.clone(), |rec| self.their_record(rec, n))),
            four: Some(repeat(move || asked.four())),
            least: Work { sum: 2048, read: 24 * n as usize, ..Work::default() },
            goal: Some((1.0, false)),
        });
    }

    fn finished(&self, r: &Report) {
        let n = self.list.boundaries;
        let (mut recorder, mut theirs) = self.begun(n);
        let (block, mut asked) = (recorder.block, recorder.copy());
        r.row(Row {
            call: "finish",
            case: format!("{} checkpoints", grouped(u64::from(n))),
            ours: partly(|clock| {
                recorder.block = block;
                clock.time(|| recorder.finish(n, 0));
            }),
            theirs: Some(repeat(move || black_box(&mut theirs).finish(n, 0))),
            four: Some(repeat(move || asked.four())),
            least: Work { read: 24 * n as usize, ..Work::default() },
            goal: None,
        });
    }
}
