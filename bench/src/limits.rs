//! What a call has to do at least: bytes summed, read, compared and copied.

use crate::plain;
use crate::rounds::{Round, repeat};
use std::hint::black_box;

/// How many bytes of each.
#[derive(Clone, Copy, Default)]
pub struct Work {
    pub sum: usize,
    /// Summed while those are, at most as many: a sum of its own.
    pub beside: usize,
    pub read: usize,
    pub compare: usize,
    pub copy: usize,
}

impl Work {
    /// In words: what and how many bytes.
    pub fn text(&self) -> String {
        let parts = [("sum", self.sum), ("beside it", self.beside), ("read", self.read), ("compare", self.compare), ("copy", self.copy)];
        let said = |&(name, n): &(&str, usize)| (n > 0).then(|| format!("{name} {}", crate::report::grouped(n as u64)));
        parts.iter().filter_map(said).collect::<Vec<_>>().join(", ")
    }

    /// Just that, in plain Rust.
    pub fn round<'a>(self) -> Round<'a> {
        let n = self.sum.max(self.read).max(self.compare).max(self.copy);
        let (from, mut to) = (plain::bytes(n), plain::bytes(n));
        repeat(move || {
            black_box(plain::sums(black_box(&from[..self.sum]), black_box(&to[..self.beside])));
            black_box(plain::read(black_box(&from[..self.read])));
            black_box(black_box(&from[..self.compare]) == black_box(&to[..self.compare]));
            to[..self.copy].copy_from_slice(black_box(&from[..self.copy]));
            black_box(&mut to);
        })
    }
}
