//! Sets of files merged in one call, change request 1: random sets go through the model and through a program over the library (tests/models/drawer).

mod cases;
mod counts;
mod model;

use std::time::Instant;

use crate::Arguments;
use crate::disc::cases::Case;
use crate::disc::{difference, differing};
use crate::rng::Rng;
use cases::{set_case, source};
use counts::{Counts, expected, tables};

/// COUNT sets through the model and through the program.
pub fn compare(a: &Arguments) -> Result<(), String> {
    let (count, program) = (a.rest[0].parse::<u64>().map_err(|_| "COUNT is a number of sets".to_string())?, &a.rest[1]);
    let began = Instant::now();
    let mut counts = Counts::default();
    let (mut done, mut sources) = (0, 0);
    let mut next = batch(a, &mut sources, count, &mut counts);
    while !next.is_empty() {
        // The program works on one batch while the next is made.
        let sets = std::mem::take(&mut next);
        let left = count - done - sets.len() as u64;
        let found = std::thread::scope(|s| {
            let said = s.spawn(|| differing(program, &sets));
            next = batch(a, &mut sources, left, &mut counts);
            said.join().unwrap_or_else(|_| Err("the program's thread stopped".to_string()))
        })?;
        if !found.is_empty() {
            return Err(difference(a, done, &sets, &found)?);
        }
        done += sets.len() as u64;
    }
    println!("{done} sets: no difference ({:.0} s, seed {})", began.elapsed().as_secs_f64(), a.seed);
    for ((group, name), n) in counts.0.iter().filter(|c| c.0.0 == "answer") {
        println!("  {group} {name}: {n}");
    }
    if let Some(file) = &a.counts {
        std::fs::write(file, tables(&counts)).map_err(|e| format!("{file}: {e}"))?;
    }
    let missing: Vec<String> = expected()
        .into_iter()
        .filter(|(group, name)| !counts.0.contains_key(&(*group, name.clone())))
        .map(|(group, name)| format!("{group}: {name}"))
        .collect();
    if missing.is_empty() || a.unchecked { Ok(()) } else { Err(format!("never occurred: {}", missing.join("; "))) }
}

/// At most `most` sets, about 4 MiB of lines.
fn batch(a: &Arguments, sources: &mut u64, most: u64, counts: &mut Counts) -> Vec<Case> {
    let (mut sets, mut bytes) = (Vec::new(), 0);
    while bytes < 4 << 20 && (sets.len() as u64) < most {
        let mut rng = Rng::new(a.seed ^ (*sources << 20));
        *sources += 1;
        let small = a.small || !rng.chance(1, 12);
        let src = source(&mut rng, small);
        for _ in 0..rng.range(4, 12).min(most - sets.len() as u64) {
            let set = set_case(&mut rng, &src, counts);
            bytes += set.as_ref().map_or(0, |c| c.0.len());
            sets.extend(set);
        }
    }
    sets
}
