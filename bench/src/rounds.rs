//! Calls timed in rounds.

use crate::allocator::counted;
use std::hint::black_box;
use std::time::{Duration, Instant};

/// What one round of so many calls took, for one call: microseconds, allocations and their bytes.
#[derive(Clone, Copy, Default)]
pub struct Sample {
    pub micros: f64,
    pub allocations: u64,
    pub bytes: u64,
}

/// A round of so many calls.
pub type Round<'a> = Box<dyn FnMut(usize) -> Sample + 'a>;

/// Adds up what is timed.
#[derive(Default)]
pub struct Clock {
    spent: Duration,
    allocations: u64,
    bytes: u64,
}

impl Clock {
    pub fn time<T>(&mut self, f: impl FnOnce() -> T) -> T {
        let before = counted();
        let start = Instant::now();
        let made = f();
        self.spent += start.elapsed();
        let after = counted();
        self.allocations += after.0 - before.0;
        self.bytes += after.1 - before.1;
        made
    }

    pub fn sample(&self, calls: usize) -> Sample {
        let n = calls as u64;
        Sample { micros: self.spent.as_secs_f64() * 1e6 / calls as f64, allocations: self.allocations / n, bytes: self.bytes / n }
    }
}

/// A call that may be repeated: the calls of a round are timed as one.
pub fn repeat<'a, T>(mut call: impl FnMut() -> T + 'a) -> Round<'a> {
    Box::new(move |calls| {
        let mut clock = Clock::default();
        clock.time(|| {
            for _ in 0..calls {
                black_box(call());
            }
        });
        clock.sample(calls)
    })
}

/// A call that needs a fresh state: `ready` makes one, and only `call` is timed.
pub fn fresh<'a, S, T>(mut ready: impl FnMut() -> S + 'a, mut call: impl FnMut(&mut S) -> T + 'a) -> Round<'a> {
    Box::new(move |calls| {
        let mut clock = Clock::default();
        for _ in 0..calls {
            let mut s = ready();
            black_box(clock.time(|| call(black_box(&mut s))));
        }
        clock.sample(calls)
    })
}

/// The same where the state is kept and made ready again.
pub fn restored<'a, S: 'a, T>(mut s: S, mut ready: impl FnMut(&mut S) + 'a, mut call: impl FnMut(&mut S) -> T + 'a) -> Round<'a> {
    Box::new(move |calls| {
        let mut clock = Clock::default();
        for _ in 0..calls {
            ready(&mut s);
            black_box(clock.time(|| call(black_box(&mut s))));
        }
        clock.sample(calls)
    })
}

/// A scenario with a clock of its own, which times a part of it.
pub fn partly<'a>(mut run: impl FnMut(&mut Clock) + 'a) -> Round<'a> {
    Box::new(move |calls| {
        let mut clock = Clock::default();
        for _ in 0..calls {
            run(&mut clock);
        }
        clock.sample(calls)
    })
}

/// The rounds in their order, the least and the median of them, and what was allocated in one call.
pub struct Timed {
    pub rounds: Vec<f64>,
    pub least: f64,
    pub median: f64,
    pub allocations: u64,
    pub bytes: u64,
}

/// How long a row may take.
#[derive(Clone, Copy)]
pub struct Effort {
    pub row: Duration,
    pub fewest: usize,
    pub most: usize,
}

/// The calls of a round, so that it takes about 2 ms.
fn calls_of(round: &mut Round<'_>) -> usize {
    let mut elapsed = || {
        let start = Instant::now();
        round(1);
        start.elapsed().as_secs_f64()
    };
    // The first call warms up.
    let first = elapsed();
    let one = if first < 0.05 { elapsed() } else { first };
    (0.002 / one.max(1e-8)).clamp(1.0, 100_000.0) as usize
}

/// Runs some rounds in turn; the one that goes first changes each time.
pub fn run(rounds: &mut [Round<'_>], effort: Effort) -> Vec<Timed> {
    let start = Instant::now();
    let calls: Vec<usize> = rounds.iter_mut().map(calls_of).collect();
    let mut samples: Vec<Vec<Sample>> = vec![Vec::new(); rounds.len()];
    let mut turn = 0;
    while turn < effort.fewest || (turn < effort.most && start.elapsed() < effort.row) {
        for k in 0..rounds.len() {
            let i = (k + turn) % rounds.len();
            let sample = rounds[i](calls[i]);
            samples[i].push(sample);
        }
        turn += 1;
    }
    samples.into_iter().map(timed).collect()
}

fn timed(s: Vec<Sample>) -> Timed {
    let rounds: Vec<f64> = s.iter().map(|s| s.micros).collect();
    let mut sorted = rounds.clone();
    sorted.sort_by(f64::total_cmp);
    let most = s.iter().max_by_key(|s| s.allocations).expect("a round");
    Timed { rounds, least: sorted[0], median: sorted[sorted.len() / 2], allocations: most.allocations, bytes: most.bytes }
}
