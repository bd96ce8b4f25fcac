//! Scripts of kind sectors: where the time bytes of sectors lie, told by `first_record` and passed through by `see`.

use super::lent::{Asked, trouble};
use super::{Script, fresh, hex};
use crate::file::AreaNumbers;
use crate::rng::Rng;

macro_rules! say {
    ($s:expr, $($text:tt)*) => { $s.line(format_args!($($text)*)) };
}

/// The longest sector of the table: a script has each length up to it, of one header byte.
pub const TABLE: usize = 20;

/// A sector of any length around the end of its time bytes, or of about 2,048 bytes.
fn sector(rng: &mut Rng) -> Vec<u8> {
    let n = if rng.chance(1, 4) { 2047 + rng.below(3) } else { rng.below(24) } as usize;
    let mut bytes: Vec<u8> = (0..n.min(24)).map(|_| rng.below(256) as u8).collect();
    if let (Some(h), true) = (bytes.first_mut(), rng.chance(1, 2)) {
        // Low numbers, so that a list's spacing is met and missed.
        *h = (*h & 0x03) | 4;
        bytes.iter_mut().skip(1).for_each(|b| *b %= 3);
    }
    bytes.resize(n, 0);
    bytes
}

fn lsn(rng: &mut Rng, a: &AreaNumbers) -> u64 {
    match rng.below(5) {
        0 => u64::from(u32::MAX) - 1 + rng.below(4),
        1 => u64::MAX - rng.below(2),
        _ => a.start + rng.below(1000),
    }
}

pub fn sectors(s: &mut Script<'_>, rng: &mut Rng, number: u32) {
    for n in 0..=TABLE {
        let mut bytes: Vec<u8> = (0..n).map(|_| rng.below(256) as u8).collect();
        if let Some(h) = bytes.first_mut() {
            *h = number as u8;
        }
        say!(s, "first_bytes {}", hex(&bytes));
    }
    for _ in 0..8 {
        say!(s, "first_bytes {}", hex(&sector(rng)));
    }
    let a = AreaNumbers::new(0, 1000, 400_000, 2, 1 << 21);
    fresh(s, 0, &a, (65_536, 0, *rng.pick(&[1, 75, 4294]), 2048));
    say!(s, "hint_recorder 0");
    if number % 500 == 499 {
        // A full list.
        say!(s, "see_many {} 1000 1 0 5000", 65_535 + rng.below(2));
    }
    for _ in 0..rng.range(4, 12) {
        if rng.chance(1, 6) {
            trouble(s, rng, &Asked::Hints);
        }
        say!(s, "see_first {} {}", lsn(rng, &a), hex(&sector(rng)));
    }
    say!(s, "flush");
}
