//! Disc files: one file for the lists of both areas of a disc, by slot.

use crate::error::answer;
use crate::raw::{self, BLOCK};
use crate::view::workshop;
use crate::{Area, Error, List, Role, saved, sizes_in, word, zeros};
use std::ops::Range;

/// Where the list files of slots 0 and 1 lie in a disc file; none for a list that is not there.
pub fn contents(file: &[u8]) -> Result<[Option<Range<usize>>; 2], Error> {
    let mut b = [0; BLOCK];
    // Safety: pointers and lengths are those of two slices, and the block overlaps nothing.
    answer(unsafe { raw::seek_raw_disc_contents(file.as_ptr(), file.len(), b.as_mut_ptr(), BLOCK) })?;
    Ok([0, 3].map(|i| (word(&b, i) != 0).then(|| word(&b, i + 1) as usize..(word(&b, i + 1) + word(&b, i + 2)) as usize)))
}

/// The lists of a disc file, under the areas of slots 0 and 1, with a limit as [`List::load`]'s: all of them, or an error.
pub fn load_disc(role: Role, a0: Area, a1: Area, file: &[u8], limit: u64) -> Result<[Option<List>; 2], Error> {
    let asked = workshop(role)?;
    let mut b = [0; BLOCK];
    // Safety: pointers and lengths are those of two slices, and the block overlaps nothing.
    answer(unsafe {
        raw::seek_raw_disc_sizes(
            a0.slot, a0.channels, a0.key_start, a0.key_end, a0.sectors, a0.start, a0.end, a1.slot, a1.channels, a1.key_start, a1.key_end, a1.sectors,
            a1.start, a1.end, file.as_ptr(), file.len(), limit, b.as_mut_ptr(), BLOCK,
        )
    })?;
    let (mut first, mut second) = (List::zeroed(sizes_in(&b, 0)?)?, List::zeroed(sizes_in(&b, 8)?)?);
    let (head, [t0, t1, t2, t3, t4, t5, t6]) = first.tables_mut();
    let (other, [u0, u1, u2, u3, u4, u5, u6]) = second.tables_mut();
    // Safety: each pointer is that of a slice of the length behind it, and no two overlap.
    answer(unsafe {
        raw::seek_raw_disc_load(
            asked, head.as_mut_ptr(), BLOCK, other.as_mut_ptr(), BLOCK, a0.slot, a0.channels, a0.key_start, a0.key_end, a0.sectors, a0.start, a0.end,
            a1.slot, a1.channels, a1.key_start, a1.key_end, a1.sectors, a1.start, a1.end, file.as_ptr(), file.len(), limit, b.as_mut_ptr(), BLOCK,
            t0.as_mut_ptr(), t0.len(), t1.as_mut_ptr(), t1.len(), t2.as_mut_ptr(), t2.len(), t3.as_mut_ptr(), t3.len(), t4.as_mut_ptr(), t4.len(),
            t5.as_mut_ptr(), t5.len(), t6.as_mut_ptr(), t6.len(), u0.as_mut_ptr(), u0.len(), u1.as_mut_ptr(), u1.len(), u2.as_mut_ptr(), u2.len(),
            u3.as_mut_ptr(), u3.len(), u4.as_mut_ptr(), u4.len(), u5.as_mut_ptr(), u5.len(), u6.as_mut_ptr(), u6.len(),
        )
    })?;
    Ok([(word(&b, 0) != 0).then_some(first), (word(&b, 1) != 0).then_some(second)])
}

/// The disc file of one list, or of two, whichever is given first.
pub fn save_disc(role: Role, list: &List, other: Option<&List>) -> Result<Vec<u8>, Error> {
    let asked = workshop(role)?;
    match other {
        None => save_one(asked, list),
        Some(other) => save_both(asked, list, other),
    }
}

fn save_one(asked: u32, list: &List) -> Result<Vec<u8>, Error> {
    let [t0, t1, t2, t3, t4, t5, t6] = list.tables();
    // Safety: each pointer is that of a slice of the length behind it.
    let length = unsafe {
        raw::seek_raw_disc_saved_length(
            list.head.as_ptr(), BLOCK, t0.as_ptr(), t0.len(), t1.as_ptr(), t1.len(), t2.as_ptr(), t2.len(), t3.as_ptr(), t3.len(), t4.as_ptr(),
            t4.len(), t5.as_ptr(), t5.len(), t6.as_ptr(), t6.len(),
        )
    };
    let mut out = zeros(saved(length)?)?;
    // Safety: the same, and the output is a slice of its own.
    let written = unsafe {
        raw::seek_raw_disc_save(
            asked, list.head.as_ptr(), BLOCK, t0.as_ptr(), t0.len(), t1.as_ptr(), t1.len(), t2.as_ptr(), t2.len(), t3.as_ptr(), t3.len(), t4.as_ptr(),
            t4.len(), t5.as_ptr(), t5.len(), t6.as_ptr(), t6.len(), out.as_mut_ptr(), out.len(),
        )
    };
    out.truncate(saved(written)?);
    Ok(out)
}

fn save_both(asked: u32, list: &List, other: &List) -> Result<Vec<u8>, Error> {
    let [t0, t1, t2, t3, t4, t5, t6] = list.tables();
    let [u0, u1, u2, u3, u4, u5, u6] = other.tables();
    // Safety: each pointer is that of a slice of the length behind it.
    let length = unsafe {
        raw::seek_raw_disc_saved_length_both(
            list.head.as_ptr(), BLOCK, other.head.as_ptr(), BLOCK, t0.as_ptr(), t0.len(), t1.as_ptr(), t1.len(), t2.as_ptr(), t2.len(), t3.as_ptr(),
            t3.len(), t4.as_ptr(), t4.len(), t5.as_ptr(), t5.len(), t6.as_ptr(), t6.len(), u0.as_ptr(), u0.len(), u1.as_ptr(), u1.len(), u2.as_ptr(),
            u2.len(), u3.as_ptr(), u3.len(), u4.as_ptr(), u4.len(), u5.as_ptr(), u5.len(), u6.as_ptr(), u6.len(),
        )
    };
    let mut out = zeros(saved(length)?)?;
    // Safety: the same, and the output is a slice of its own.
    let written = unsafe {
        raw::seek_raw_disc_save_both(
            asked, list.head.as_ptr(), BLOCK, other.head.as_ptr(), BLOCK, t0.as_ptr(), t0.len(), t1.as_ptr(), t1.len(), t2.as_ptr(), t2.len(), t3.as_ptr(),
            t3.len(), t4.as_ptr(), t4.len(), t5.as_ptr(), t5.len(), t6.as_ptr(), t6.len(), u0.as_ptr(), u0.len(), u1.as_ptr(), u1.len(), u2.as_ptr(),
            u2.len(), u3.as_ptr(), u3.len(), u4.as_ptr(), u4.len(), u5.as_ptr(), u5.len(), u6.as_ptr(), u6.len(), out.as_mut_ptr(), out.len(),
        )
    };
    out.truncate(saved(written)?);
    Ok(out)
}
