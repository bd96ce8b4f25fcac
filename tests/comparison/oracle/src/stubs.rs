//! Stand-ins for the modules of the original that are not at hand: the least that lets `seek.rs`
//! and `seek/persist.rs` compile. What reads an image or a TOC is never called here.

/// The original's errors, as far as the two files make or hand on any.
pub mod error {
    #[derive(Debug)]
    pub enum Error {
        InvalidArgument(&'static str),
    }

    #[derive(Clone, Copy, Debug, PartialEq, Eq, Hash)]
    pub enum Slot {
        TwoChannel,
        Multichannel,
    }

    impl std::fmt::Display for Slot {
        fn fmt(&self, f: &mut std::fmt::Formatter<'_>) -> std::fmt::Result {
            write!(f, "{self:?}")
        }
    }
}

/// An image that is never read.
pub mod image {
    use crate::error::Error;

    pub const SECTOR_SIZE: usize = 2048;

    pub struct Image<R>(pub std::marker::PhantomData<R>);

    #[derive(PartialEq)]
    pub enum ReadOutcome {
        OutOfRange,
    }

    impl<R> Image<R> {
        pub fn sector_count(&self) -> u64 {
            0
        }

        pub fn id(&self) -> u64 {
            0
        }

        pub fn log(&self) {}

        pub fn check_cancel(&self) -> Result<(), Error> {
            Err(Error::InvalidArgument("no image here"))
        }

        pub fn read_into(&mut self, _at: u64, _out: &mut [u8]) -> Result<ReadOutcome, Error> {
            Ok(ReadOutcome::OutOfRange)
        }
    }
}

/// Log lines are formatted and dropped.
pub mod log {
    macro_rules! sb_log {
        ($log:expr, $level:ident, $($text:tt)*) => {{
            let () = $log;
            let _ = format_args!($($text)*);
        }};
    }
    pub(crate) use sb_log;
}

/// The fields of the TOC that `toc_fingerprint` and `layout_suspect` name, and the area.
pub mod toc {
    use crate::error::Slot;

    pub struct Version {
        pub major: u8,
        pub minor: u8,
    }

    pub struct Genre {
        pub category: u8,
        pub index: u8,
    }

    #[derive(Clone, Copy)]
    pub struct AreaPointers {
        pub toc1_lsn: u32,
        pub toc2_lsn: u32,
        pub toc_sectors: u16,
    }

    impl AreaPointers {
        pub fn is_used(&self) -> bool {
            self.toc1_lsn != 0 || self.toc2_lsn != 0
        }
    }

    pub struct Date {
        pub year: u16,
        pub month: u8,
        pub day: u8,
    }

    pub struct Playtime {
        pub minutes: u8,
        pub seconds: u8,
        pub frames: u8,
    }

    pub struct Track {
        pub number: u8,
        pub start_flags: u8,
        pub duration_flags: u8,
        pub start_lsn: u32,
        pub length_sectors: u32,
        pub start_frame: u32,
        pub duration_frames: u32,
        pub isrc: Option<String>,
    }

    pub struct Area {
        pub slot: Slot,
        pub audio_start_lsn: u32,
        pub audio_end_lsn: u32,
        pub channel_count: u8,
        pub version: Version,
        pub max_byte_rate: u32,
        pub sample_frequency_code: u8,
        pub frame_format: u8,
        pub area_config: u8,
        pub max_available_channels: u8,
        pub area_mute_flags: u8,
        pub track_attribute: u8,
        pub playtime: Playtime,
        pub track_offset: u8,
        pub tracks: Vec<Track>,
    }

    impl Area {
        /// An area with the four fields that the seek index reads.
        pub fn new(slot: Slot, audio_start_lsn: u32, audio_end_lsn: u32, channel_count: u8) -> Self {
            Area {
                slot,
                audio_start_lsn,
                audio_end_lsn,
                channel_count,
                version: Version { major: 0, minor: 0 },
                max_byte_rate: 0,
                sample_frequency_code: 0,
                frame_format: 0,
                area_config: 0,
                max_available_channels: 0,
                area_mute_flags: 0,
                track_attribute: 0,
                playtime: Playtime { minutes: 0, seconds: 0, frames: 0 },
                track_offset: 0,
                tracks: Vec::new(),
            }
        }
    }

    pub struct Master {
        pub version: Version,
        pub album_set_size: u16,
        pub album_sequence_number: u16,
        pub album_catalog_number_stored: Vec<u8>,
        pub disc_catalog_number_stored: Vec<u8>,
        pub album_genres: Vec<Genre>,
        pub disc_genres: Vec<Genre>,
        pub two_channel: AreaPointers,
        pub multichannel: AreaPointers,
        pub disc_flags: u8,
        pub date: Date,
    }

    pub enum SectorFormat {
        Plain,
        Raw2054,
        Raw2064,
    }

    pub struct Toc {
        pub sectors: u64,
        pub sector_format: SectorFormat,
        pub master: Master,
        pub areas: Vec<Area>,
    }

    impl Toc {
        pub fn area(&self, slot: Slot) -> Option<&Area> {
            self.areas.iter().find(|a| a.slot == slot)
        }
    }
}

/// The cuts of `audio.rs`, and a cursor that reads nothing: it holds a recorder, an image id and
/// the warnings, which is what an index takes from one.
pub mod audio {
    use crate::error::{Error, Slot};
    use crate::image::{Image, SECTOR_SIZE};
    use crate::seek::{AreaIndex, Claim, HintRecorder, Provisional, Recorder, ResumedFrom};
    use crate::toc::Area;

    include!(concat!(env!("OUT_DIR"), "/audio_cuts.rs"));

    #[derive(Clone, Debug)]
    pub struct Warning {
        pub lsn: Option<u32>,
    }

    #[derive(Clone, Debug, Default)]
    pub struct AreaCursor {
        pub(crate) recorder: Option<Box<Recorder>>,
        pub(crate) image_id: Option<u64>,
        pub(crate) warnings: Vec<Warning>,
        /// None in scripts, which have a hint recorder of their own, and `add_hints`.
        pub(crate) hints: Option<Box<HintRecorder>>,
    }

    impl AreaCursor {
        pub(crate) fn recorder(&self) -> Option<&Recorder> {
            self.recorder.as_deref()
        }

        pub(crate) fn recorder_mut(&mut self) -> Option<&mut Recorder> {
            self.recorder.as_deref_mut()
        }

        pub(crate) fn stop_recording(&mut self) {
            self.recorder = None;
        }

        pub(crate) fn image_id(&self) -> Option<u64> {
            self.image_id
        }

        pub(crate) fn warnings(&self) -> &[Warning] {
            &self.warnings
        }

        pub(crate) fn has_news(&self) -> bool {
            self.recorder.as_deref().is_some_and(Recorder::has_news)
                || self.hints.as_deref().is_some_and(HintRecorder::has_news)
        }

        pub(crate) fn take_hints(&mut self) -> Vec<(u32, u32)> {
            self.hints.as_mut().map(|h| h.take()).unwrap_or_default()
        }

        pub(crate) fn hints_stale(&mut self) -> bool {
            false
        }

        pub(crate) fn unregistered_claim(&mut self) -> Option<std::sync::Arc<Claim>> {
            None
        }

        pub(crate) fn take_provisional_checkpoints(&mut self) -> Vec<(u64, Provisional)> {
            Vec::new()
        }

        pub(crate) fn slot(&self) -> Slot {
            Slot::TwoChannel
        }

        pub(crate) fn resume(_index: &AreaIndex, _first: u32) -> Self {
            Self::default()
        }

        pub(crate) fn resumed_from(&self) -> ResumedFrom {
            ResumedFrom::Start
        }

        pub(crate) fn scan_to<R>(&mut self, _image: &mut Image<R>, _stop: u64) -> Result<bool, Error> {
            Err(Error::InvalidArgument("no image here"))
        }

        pub(crate) fn state_at<R>(
            _index: &AreaIndex,
            _lsn: u64,
            _image: &mut Image<R>,
        ) -> Result<Option<(u32, Option<u32>, u64)>, Error> {
            Err(Error::InvalidArgument("no image here"))
        }
    }

    pub(crate) fn read_sector<R>(_image: &mut Image<R>, _lsn: u64) -> Result<[u8; SECTOR_SIZE], Error> {
        Err(Error::InvalidArgument("no image here"))
    }

    pub trait SeekCursor: sealed::Sealed {}

    pub(crate) mod sealed {
        pub trait Sealed {
            fn area_cursor_mut(&mut self) -> &mut super::AreaCursor;
        }
    }

    impl SeekCursor for AreaCursor {}

    impl sealed::Sealed for AreaCursor {
        fn area_cursor_mut(&mut self) -> &mut AreaCursor {
            self
        }
    }
}
