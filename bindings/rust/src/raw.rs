//! The functions of include/seek.h.

/// The bytes of a block: 24 words of eight bytes, lowest byte first.
pub const BLOCK: usize = 192;

/// A record of a shelf's table.
#[repr(C)]
#[derive(Clone, Copy, Debug, Default, PartialEq, Eq)]
pub struct ShelfRecord {
    pub slot: u8,
    pub channels: u8,
    pub key_start: u32,
    pub key_end: u32,
    pub sectors: u64,
    pub start: u64,
    pub end: u64,
    pub length: u64,
    pub stamp: u64,
}

/// The numbers of a shelf.
#[repr(C)]
#[derive(Clone, Copy, Debug, Default, PartialEq, Eq)]
pub struct ShelfNumbers {
    pub present: u64,
    pub count: u64,
    pub limit: u64,
}

/// What a call on a shelf answers.
#[repr(C)]
#[derive(Clone, Copy, Debug, PartialEq, Eq)]
pub struct ShelfAnswer {
    pub number: u32,
    pub absent: u32,
    pub present: u64,
    pub count: u64,
}

const _: () = assert!(size_of::<ShelfRecord>() == 56 && size_of::<ShelfNumbers>() == 24 && size_of::<ShelfAnswer>() == 24);

unsafe extern "C" {
    pub fn seek_raw_sum(bytes: *const u8, length: usize) -> u64;
    pub fn seek_raw_first_record(sector: *const u8, length: usize, answer: *mut u8, answer_length: usize) -> u32;
    pub fn seek_raw_sizes(
        slot: u8, channels: u8, key_start: u32, key_end: u32, sectors: u64, start: u64, end: u64, interval: u32, budget: u64, most: u32,
        answer: *mut u8, answer_length: usize,
    ) -> u32;
    pub fn seek_raw_file_area(file: *const u8, length: usize, answer: *mut u8, answer_length: usize) -> u32;
    pub fn seek_raw_file_sizes(
        slot: u8, channels: u8, key_start: u32, key_end: u32, sectors: u64, start: u64, end: u64, file: *const u8, length: usize, limit: u64,
        answer: *mut u8, answer_length: usize,
    ) -> u32;
    pub fn seek_raw_new(
        head: *mut u8, head_length: usize, slot: u8, channels: u8, key_start: u32, key_end: u32, sectors: u64, start: u64, end: u64, interval: u32,
        budget: u64, spacing: u32, most: u32, t0: *const u8, l0: usize, t1: *const u8, l1: usize, t2: *const u8, l2: usize, t3: *const u8, l3: usize,
        t4: *const u8, l4: usize, t5: *const u8, l5: usize, t6: *const u8, l6: usize,
    ) -> u32;
    pub fn seek_raw_load(
        role: u32, head: *mut u8, head_length: usize, slot: u8, channels: u8, key_start: u32, key_end: u32, sectors: u64, start: u64, end: u64,
        file: *const u8, length: usize, limit: u64, t0: *mut u8, l0: usize, t1: *mut u8, l1: usize, t2: *mut u8, l2: usize, t3: *mut u8, l3: usize,
        t4: *mut u8, l4: usize, t5: *mut u8, l5: usize, t6: *mut u8, l6: usize,
    ) -> u32;
    pub fn seek_raw_saved_length(
        head: *const u8, head_length: usize, t0: *const u8, l0: usize, t1: *const u8, l1: usize, t2: *const u8, l2: usize, t3: *const u8, l3: usize,
        t4: *const u8, l4: usize, t5: *const u8, l5: usize, t6: *const u8, l6: usize,
    ) -> u64;
    pub fn seek_raw_save(
        role: u32, head: *const u8, head_length: usize, t0: *const u8, l0: usize, t1: *const u8, l1: usize, t2: *const u8, l2: usize, t3: *const u8, l3: usize,
        t4: *const u8, l4: usize, t5: *const u8, l5: usize, t6: *const u8, l6: usize, out: *mut u8, out_length: usize,
    ) -> u64;
    pub fn seek_raw_view_length(
        role: u32, head: *const u8, head_length: usize, t0: *const u8, l0: usize, t1: *const u8, l1: usize, t2: *const u8, l2: usize, t3: *const u8,
        l3: usize, t4: *const u8, l4: usize, t5: *const u8, l5: usize, t6: *const u8, l6: usize,
    ) -> u64;
    pub fn seek_raw_view(
        role: u32, head: *const u8, head_length: usize, t0: *const u8, l0: usize, t1: *const u8, l1: usize, t2: *const u8, l2: usize, t3: *const u8,
        l3: usize, t4: *const u8, l4: usize, t5: *const u8, l5: usize, t6: *const u8, l6: usize, out: *mut u8, out_length: usize,
    ) -> u64;
    pub fn seek_raw_plan(
        head: *const u8, head_length: usize, frame: u32, answer: *mut u8, answer_length: usize, t0: *const u8, l0: usize, t1: *const u8, l1: usize,
        t2: *const u8, l2: usize, t3: *const u8, l3: usize, t4: *const u8, l4: usize, t5: *const u8, l5: usize, t6: *const u8, l6: usize,
    ) -> u32;
    pub fn seek_raw_fingerprint(
        head: *mut u8, head_length: usize, value: u64, t0: *const u8, l0: usize, t1: *const u8, l1: usize, t2: *const u8, l2: usize, t3: *const u8,
        l3: usize, t4: *const u8, l4: usize, t5: *const u8, l5: usize, t6: *const u8, l6: usize,
    ) -> u32;
    pub fn seek_raw_merge(
        role: u32, head: *mut u8, head_length: usize, other: *const u8, other_length: usize, t0: *mut u8, l0: usize, t1: *mut u8, l1: usize, t2: *mut
        u8, l2: usize, t3: *mut u8, l3: usize, t4: *mut u8, l4: usize, t5: *mut u8, l5: usize, t6: *mut u8, l6: usize, u0: *const u8, m0:
        usize, u1: *const u8, m1: usize, u2: *const u8, m2: usize, u3: *const u8, m3: usize, u4: *const u8, m4: usize, u5: *const u8, m5:
        usize, u6: *const u8, m6: usize,
    ) -> u32;
    pub fn seek_raw_adds(
        head: *const u8, head_length: usize, other: *const u8, other_length: usize, answer: *mut u8, answer_length: usize, t0: *const u8,
        l0: usize, t1: *const u8, l1: usize, t2: *const u8, l2: usize, t3: *const u8, l3: usize, t4: *const u8, l4: usize, t5: *const u8,
        l5: usize, t6: *const u8, l6: usize, u0: *const u8, m0: usize, u1: *const u8, m1: usize, u2: *const u8, m2: usize, u3: *const u8,
        m3: usize, u4: *const u8, m4: usize, u5: *const u8, m5: usize, u6: *const u8, m6: usize,
    ) -> u32;
    pub fn seek_raw_lacks(
        head: *const u8, head_length: usize, other: *const u8, other_length: usize, answer: *mut u8, answer_length: usize, t0: *const u8,
        l0: usize, t1: *const u8, l1: usize, t2: *const u8, l2: usize, t3: *const u8, l3: usize, t4: *const u8, l4: usize, t5: *const u8,
        l5: usize, t6: *const u8, l6: usize, u0: *const u8, m0: usize, u1: *const u8, m1: usize, u2: *const u8, m2: usize, u3: *const u8,
        m3: usize, u4: *const u8, m4: usize, u5: *const u8, m5: usize, u6: *const u8, m6: usize,
    ) -> u32;
    pub fn seek_raw_coarse(
        head: *const u8, head_length: usize, interval: u32, coarse: *mut u8, coarse_length: usize, t0: *const u8, l0: usize, t1: *const u8,
        l1: usize, t2: *const u8, l2: usize, t3: *const u8, l3: usize, t4: *const u8, l4: usize, t5: *const u8, l5: usize, t6: *const u8,
        l6: usize, u0: *mut u8, m0: usize, u1: *mut u8, m1: usize, u2: *mut u8, m2: usize, u3: *mut u8, m3: usize, u4: *mut u8, m4: usize,
        u5: *mut u8, m5: usize, u6: *mut u8, m6: usize,
    ) -> u32;
    pub fn seek_raw_merge_all(
        role: u32, head: *mut u8, head_length: usize, lengths: *const u8, lengths_length: usize, files: *const u8, files_length: usize, limit: u64, t0: *mut
        u8, l0: usize, t1: *mut u8, l1: usize, t2: *mut u8, l2: usize, t3: *mut u8, l3: usize, t4: *mut u8, l4: usize, t5: *mut u8, l5: usize,
        t6: *mut u8, l6: usize, u0: *mut u8, m0: usize, u1: *mut u8, m1: usize, u2: *mut u8, m2: usize, u3: *mut u8, m3: usize, u4: *mut u8,
        m4: usize, u5: *mut u8, m5: usize, u6: *mut u8, m6: usize,
    ) -> u32;
    pub fn seek_raw_add_hints(
        head: *mut u8, head_length: usize, list: *const u8, length: usize, t0: *const u8, l0: usize, t1: *const u8, l1: usize, t2: *const
        u8, l2: usize, t3: *const u8, l3: usize, t4: *const u8, l4: usize, t5: *mut u8, l5: usize, t6: *const u8, l6: usize,
    ) -> u32;
    pub fn seek_raw_keep_hint(
        head: *const u8, head_length: usize, lsn: u64, t0: *const u8, l0: usize, t1: *const u8, l1: usize, t2: *const u8, l2: usize, t3: *const u8,
        l3: usize, t4: *const u8, l4: usize, t5: *mut u8, l5: usize, t6: *const u8, l6: usize,
    ) -> u32;
    pub fn seek_raw_recorder(
        head: *const u8, head_length: usize, from: u64, block: *mut u8, block_length: usize, t0: *const u8, l0: usize, t1: *const u8, l1:
        usize, t2: *const u8, l2: usize, t3: *const u8, l3: usize, t4: *const u8, l4: usize, t5: *const u8, l5: usize, t6: *const u8, l6:
        usize,
    ) -> u32;
    pub fn seek_raw_record(
        block: *mut u8, block_length: usize, lsn: u64, threshold: u32, malformed: u64, mark: u8, start: u64, number: u32, kind: u8,
        remaining: i32, bytes: *const u8, length: usize, sector: *const u8, sector_length: usize, u0: *mut u8, m0: usize, u1: *mut u8, m1:
        usize, u2: *mut u8, m2: usize, u3: *mut u8, m3: usize,
    ) -> u32;
    pub fn seek_raw_finish(
        block: *mut u8, block_length: usize, threshold: u32, malformed: u64, u0: *const u8, m0: usize, u1: *const u8, m1: usize, u2: *const
        u8, m2: usize, u3: *const u8, m3: usize,
    ) -> u32;
    pub fn seek_raw_absorb(
        head: *mut u8, head_length: usize, block: *mut u8, block_length: usize, mark: u8, image: u64, given: *const u8, given_length: usize,
        t0: *mut u8, l0: usize, t1: *mut u8, l1: usize, t2: *mut u8, l2: usize, t3: *mut u8, l3: usize, t4: *mut u8, l4: usize, t5: *const
        u8, l5: usize, t6: *const u8, l6: usize, u0: *const u8, m0: usize, u1: *const u8, m1: usize, u2: *const u8, m2: usize, u3: *const
        u8, m3: usize,
    ) -> u32;
    pub fn seek_raw_hint_recorder(
        head: *const u8, head_length: usize, block: *mut u8, block_length: usize, t0: *const u8, l0: usize, t1: *const u8, l1: usize, t2:
        *const u8, l2: usize, t3: *const u8, l3: usize, t4: *const u8, l4: usize, t5: *const u8, l5: usize, t6: *const u8, l6: usize,
    ) -> u32;
    pub fn seek_raw_see(block: *mut u8, block_length: usize, lsn: u64, sector: *const u8, sector_length: usize, list: *mut u8, length: usize) -> u32;
    pub fn seek_raw_flush(block: *mut u8, block_length: usize, list: *mut u8, length: usize) -> u32;
    pub fn seek_raw_take(block: *mut u8, block_length: usize, answer: *mut u8, answer_length: usize, list: *const u8, length: usize) -> u32;
    pub fn seek_raw_keep_confirmation(
        head: *mut u8, head_length: usize, lsn: u64, threshold: u32, digest: u64, answer: *mut u8, answer_length: usize, t0: *const u8, l0:
        usize, t1: *const u8, l1: usize, t2: *const u8, l2: usize, t3: *const u8, l3: usize, t4: *const u8, l4: usize, t5: *const u8, l5:
        usize, t6: *mut u8, l6: usize,
    ) -> u32;
    pub fn seek_raw_hint(
        head: *const u8, head_length: usize, first: u32, end: u32, playtime: u32, answer: *mut u8, answer_length: usize, t0: *const u8, l0:
        usize, t1: *const u8, l1: usize, t2: *const u8, l2: usize, t3: *const u8, l3: usize, t4: *const u8, l4: usize, t5: *const u8, l5:
        usize, t6: *const u8, l6: usize,
    ) -> u32;
    pub fn seek_raw_disc_contents(file: *const u8, length: usize, answer: *mut u8, answer_length: usize) -> u32;
    pub fn seek_raw_disc_sizes(
        slot0: u8, channels0: u8, key_start0: u32, key_end0: u32, sectors0: u64, start0: u64, end0: u64, slot1: u8, channels1: u8, key_start1: u32,
        key_end1: u32, sectors1: u64, start1: u64, end1: u64, file: *const u8, length: usize, limit: u64, answer: *mut u8, answer_length: usize,
    ) -> u32;
    pub fn seek_raw_disc_load(
        role: u32, head: *mut u8, head_length: usize, other: *mut u8, other_length: usize, slot0: u8, channels0: u8, key_start0: u32, key_end0: u32, sectors0:
        u64, start0: u64, end0: u64, slot1: u8, channels1: u8, key_start1: u32, key_end1: u32, sectors1: u64, start1: u64, end1: u64, file: *const
        u8, length: usize, limit: u64, answer: *mut u8, answer_length: usize, t0: *mut u8, l0: usize, t1: *mut u8, l1: usize, t2: *mut u8, l2:
        usize, t3: *mut u8, l3: usize, t4: *mut u8, l4: usize, t5: *mut u8, l5: usize, t6: *mut u8, l6: usize, u0: *mut u8, m0: usize, u1: *mut u8,
        m1: usize, u2: *mut u8, m2: usize, u3: *mut u8, m3: usize, u4: *mut u8, m4: usize, u5: *mut u8, m5: usize, u6: *mut u8, m6: usize,
    ) -> u32;
    pub fn seek_raw_disc_saved_length(
        head: *const u8, head_length: usize, t0: *const u8, l0: usize, t1: *const u8, l1: usize, t2: *const u8, l2: usize, t3: *const u8, l3: usize,
        t4: *const u8, l4: usize, t5: *const u8, l5: usize, t6: *const u8, l6: usize,
    ) -> u64;
    pub fn seek_raw_disc_saved_length_both(
        head: *const u8, head_length: usize, other: *const u8, other_length: usize, t0: *const u8, l0: usize, t1: *const u8, l1: usize, t2: *const
        u8, l2: usize, t3: *const u8, l3: usize, t4: *const u8, l4: usize, t5: *const u8, l5: usize, t6: *const u8, l6: usize, u0: *const u8, m0:
        usize, u1: *const u8, m1: usize, u2: *const u8, m2: usize, u3: *const u8, m3: usize, u4: *const u8, m4: usize, u5: *const u8, m5: usize, u6:
        *const u8, m6: usize,
    ) -> u64;
    pub fn seek_raw_disc_save(
        role: u32, head: *const u8, head_length: usize, t0: *const u8, l0: usize, t1: *const u8, l1: usize, t2: *const u8, l2: usize, t3: *const u8, l3: usize,
        t4: *const u8, l4: usize, t5: *const u8, l5: usize, t6: *const u8, l6: usize, out: *mut u8, out_length: usize,
    ) -> u64;
    pub fn seek_raw_disc_save_both(
        role: u32, head: *const u8, head_length: usize, other: *const u8, other_length: usize, t0: *const u8, l0: usize, t1: *const u8, l1: usize, t2: *const
        u8, l2: usize, t3: *const u8, l3: usize, t4: *const u8, l4: usize, t5: *const u8, l5: usize, t6: *const u8, l6: usize, u0: *const u8, m0:
        usize, u1: *const u8, m1: usize, u2: *const u8, m2: usize, u3: *const u8, m3: usize, u4: *const u8, m4: usize, u5: *const u8, m5: usize, u6:
        *const u8, m6: usize, out: *mut u8, out_length: usize,
    ) -> u64;
    pub fn seek_raw_sum32(bytes: *const u8, length: usize) -> u32;
    pub fn seek_raw_fold32(sum: u32, k: u32, answer: *mut u8, answer_length: usize) -> u32;
    pub fn seek_raw_fold64(sum: u64, k: u32, answer: *mut u8, answer_length: usize) -> u32;
    pub fn seek_raw_shelf_enter(table: *mut ShelfRecord, records: usize, shelf: ShelfNumbers, list: ShelfRecord) -> ShelfAnswer;
    pub fn seek_raw_shelf_jump(table: *mut ShelfRecord, records: usize, shelf: ShelfNumbers, list: ShelfRecord) -> ShelfAnswer;
    pub fn seek_raw_due(block: *const u8, block_length: usize, answer: *mut u8, answer_length: usize) -> u32;
    pub fn seek_raw_boundary(head: *const u8, head_length: usize, number: u32, answer: *mut u8, answer_length: usize) -> u32;
    pub fn seek_raw_frontier(head: *const u8, head_length: usize, answer: *mut u8, answer_length: usize) -> u32;
    pub fn seek_raw_version() -> u32;
}
