//! Short sums through the wrapper.

use seek::{Error, fold32, fold64, sum, sum32};

#[test]
fn vectors_of_the_hash_text() {
    assert_eq!(sum32(b""), 0x811c_9dc5);
    assert_eq!(sum32(b"a"), 0xe40c_292c);
    assert_eq!(sum32(b"a\0"), 0x2b24_d044);
    assert_eq!(sum32(b"foobar"), 0xbf9c_f968);
}

#[test]
fn sums_are_folded() {
    assert_eq!(fold32(sum32(b"foobar"), 16), Ok(0x46f4));
    assert_eq!(fold32(sum32(b"foobar"), 24), Ok(0x9cf9d7));
    assert_eq!(fold32(sum32(b"\xe8\xc8"), 16), Ok(49));
    assert_eq!(fold64(sum(b"foobar"), 32), Ok(0x72ad_2699));
    assert_eq!(fold64(sum(b"foobar"), 63), Ok(0x0594_4171_f739_67e9));
    assert_eq!(fold64(u64::MAX, 32), Ok(0));
}

#[test]
fn another_k_is_refused() {
    for k in [0, 15, 32, u32::MAX] {
        assert_eq!(fold32(0xbf9c_f968, k), Err(Error::Fold));
    }
    for k in [0, 31, 64, u32::MAX] {
        assert_eq!(fold64(u64::MAX, k), Err(Error::Fold));
    }
    assert_eq!(Error::Fold.number(), 49);
}
