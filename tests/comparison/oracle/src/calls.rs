//! Calls that the original keeps to itself, for the benches.

use crate::audio::{AreaCursor, FrameKind};
use crate::image::SECTOR_SIZE;
use crate::seek::{AreaIndex, Assembling, HintRecorder, access};

/// A frame under assembly: the sector that it starts in, its number and its bytes so far.
#[derive(Clone, Copy)]
pub struct Frame<'a> {
    pub start: u64,
    pub number: u32,
    pub bytes: &'a [u8],
}

/// The index of a file of version 4, which the original does not read.
pub fn loaded(area: &crate::toc::Area, sectors: u64, file: &[u8]) -> AreaIndex {
    access::loaded(area, sectors, file, u64::MAX).expect("a file of version 4 is refused")
}

/// The file of an index, of version 4 where its limit is above 65,536.
pub fn saved(ix: &AreaIndex) -> Vec<u8> {
    access::saved(ix)
}

/// A recorder in a cursor.
#[derive(Clone)]
pub struct Recorder(AreaCursor);

impl Recorder {
    #[inline]
    pub fn new(ix: &AreaIndex, from: u64) -> Recorder {
        Recorder(AreaCursor { recorder: ix.recorder(from), ..AreaCursor::default() })
    }

    #[inline]
    pub fn record(
        &mut self,
        lsn: u64,
        threshold: u32,
        malformed: u64,
        frame: Option<Frame<'_>>,
        sector: &[u8; SECTOR_SIZE],
    ) {
        let under = frame.map(|f| Assembling {
            start_lsn: f.start,
            number: f.number,
            kind: FrameKind::Dst,
            remaining: 3,
            data: f.bytes,
        });
        if let Some(r) = self.0.recorder_mut() {
            r.record(lsn, threshold, malformed, under, sector);
        }
    }

    #[inline]
    pub fn finish(&mut self, threshold: u32, malformed: u64) {
        if let Some(r) = self.0.recorder_mut() {
            r.finish(threshold, malformed);
        }
    }

    /// Taken into an index: whether it was accepted.
    #[inline]
    pub fn absorb(&mut self, ix: &mut AreaIndex, image: u64) -> bool {
        self.0.image_id = Some(image);
        ix.absorb(&mut self.0).is_ok()
    }
}

/// A hint recorder.
#[derive(Clone)]
pub struct Hints(Box<HintRecorder>);

impl Hints {
    #[inline]
    pub fn new(ix: &AreaIndex) -> Option<Hints> {
        ix.hint_recorder().map(Hints)
    }

    #[inline]
    pub fn see(&mut self, lsn: u64, sector: &[u8; SECTOR_SIZE]) {
        self.0.see(lsn, sector);
    }

    #[inline]
    pub fn flush(&mut self) {
        self.0.flush();
    }

    #[inline]
    pub fn take(&mut self) -> Vec<(u32, u32)> {
        self.0.take()
    }
}

#[inline]
pub fn add_hints(ix: &mut AreaIndex, list: Vec<(u32, u32)>) {
    ix.add_hints(list);
}

#[inline]
pub fn keep_confirmation(ix: &mut AreaIndex, lsn: u64, threshold: u32, digest: u64) -> Option<bool> {
    access::confirm(ix, lsn, threshold, digest)
}

#[inline]
pub fn hint(ix: &AreaIndex, first: u32, end: u32, playtime: u32) -> Option<(u64, u32, u64, bool)> {
    ix.hint(first, end, playtime)
}

#[inline]
pub fn fingerprint(ix: &mut AreaIndex, value: u64) -> bool {
    ix.bind_fingerprint(value).is_ok()
}

#[inline]
pub fn first_record(sector: &[u8]) -> Option<u32> {
    crate::seek::first_record(sector)
}
