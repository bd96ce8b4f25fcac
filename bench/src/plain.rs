//! Plain Rust.

/// The sum of no bytes.
const EMPTY: u64 = 0xcbf2_9ce4_8422_2325;

/// A sum with one byte more.
fn step(h: u64, &b: &u8) -> u64 {
    (h ^ u64::from(b)).wrapping_mul(0x0100_0000_01b3)
}

/// The sum of bytes.
pub fn fnv(bytes: &[u8]) -> u64 {
    bytes.iter().fold(EMPTY, step)
}

/// The 32-bit sum of bytes.
pub fn fnv32(bytes: &[u8]) -> u32 {
    bytes.iter().fold(0x811c_9dc5, |h: u32, &b| (h ^ u32::from(b)).wrapping_mul(0x0100_0193))
}

/// A 32-bit sum folded to k bits, none where k is not 16 to 31.
pub fn fold32(sum: u32, k: u32) -> Option<u32> {
    (16..32).contains(&k).then(|| sum >> k ^ sum & ((1 << k) - 1))
}

/// A 64-bit sum folded to k bits, none where k is not 32 to 63.
pub fn fold64(sum: u64, k: u32) -> Option<u64> {
    (32..64).contains(&k).then(|| sum >> k ^ sum & ((1 << k) - 1))
}

/// Two sums in one pass; the second is of as many bytes at most.
pub fn sums(bytes: &[u8], beside: &[u8]) -> (u64, u64) {
    let (with, alone) = bytes.split_at(beside.len());
    let (h, k) = with.iter().zip(beside).fold((EMPTY, EMPTY), |(h, k), (b, c)| (step(h, b), step(k, c)));
    (alone.iter().fold(h, step), k)
}

/// Every word of the bytes, read once.
pub fn read(bytes: &[u8]) -> u64 {
    let word = |c: &[u8]| u64::from_le_bytes([c[0], c[1], c[2], c[3], c[4], c[5], c[6], c[7]]);
    bytes.chunks_exact(8).fold(0, |s, c| word(c).wrapping_add(s))
}

/// `n` bytes without a pattern, the same in every run.
pub fn bytes(n: usize) -> Vec<u8> {
    let mut x = 0x9e37_79b9_7f4a_7c15_u64;
    let next = || {
        x ^= x << 13;
        x ^= x >> 7;
        x ^= x << 17;
        (x >> 32) as u8
    };
    std::iter::repeat_with(next).take(n).collect()
}

/// A list in another order, the same in every run.
pub fn shuffled<T: Clone>(list: &[T]) -> Vec<T> {
    let (mut out, random) = (list.to_vec(), bytes(4 * list.len()));
    for i in (1..out.len()).rev() {
        let r = u32::from_le_bytes([random[4 * i], random[4 * i + 1], random[4 * i + 2], random[4 * i + 3]]) as usize;
        out.swap(i, r % (i + 1));
    }
    out
}
