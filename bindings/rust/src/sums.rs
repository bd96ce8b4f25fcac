//! Short sums: 32-bit FNV-1a, and sums folded to fewer bits.

use crate::error::{Error, answer};
use crate::raw::{self, BLOCK};
use crate::word;

/// 32-bit FNV-1a.
pub fn sum32(bytes: &[u8]) -> u32 {
    // Safety: pointer and length are those of one slice.
    unsafe { raw::seek_raw_sum32(bytes.as_ptr(), bytes.len()) }
}

/// A 32-bit sum folded to k bits, 16 to 31: the sum shifted right by k, xored with the sum modulo 2^k.
pub fn fold32(sum: u32, k: u32) -> Result<u32, Error> {
    let mut block = [0; BLOCK];
    // Safety: the block is a slice of its own.
    answer(unsafe { raw::seek_raw_fold32(sum, k, block.as_mut_ptr(), BLOCK) })?;
    Ok(word(&block, 0) as u32)
}

/// A 64-bit sum folded likewise, to 32 to 63 bits.
pub fn fold64(sum: u64, k: u32) -> Result<u64, Error> {
    let mut block = [0; BLOCK];
    // Safety: the block is a slice of its own.
    answer(unsafe { raw::seek_raw_fold64(sum, k, block.as_mut_ptr(), BLOCK) })?;
    Ok(word(&block, 0))
}
