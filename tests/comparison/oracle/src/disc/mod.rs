//! Disc files, change request 14: cases, whole and broken, go through the model and through a program over the library (tests/models/disc).

mod broken;
pub mod cases;
mod counts;
pub mod model;

use std::time::{Duration, Instant};

use crate::Arguments;
use crate::driver::replayed;
use crate::rng::Rng;
use cases::{Case, load_case, pair_case, source};
use counts::{Counts, expected, tables};
use model::{wide_answer, wides};

/// What the program answers, line by line, and what its end was where it did not end well.
fn said(program: &str, cases: &[Case]) -> Result<(Vec<String>, Option<String>), String> {
    let mut lines = Vec::new();
    for c in cases {
        lines.extend_from_slice(&c.0);
        lines.push(b'\n');
    }
    let (out, end) = replayed(program, &lines)?;
    let mut said: Vec<String> = out.split(|b| *b == b'\n').map(|l| String::from_utf8_lossy(l).into_owned()).collect();
    // Behind the last newline lies nothing, or a line that was broken off.
    said.pop();
    Ok((said, end))
}

/// The cases on which the program answers otherwise, with its answer. Where it stops at a case it is run again for those behind it, a few times.
pub fn differing(program: &str, cases: &[Case]) -> Result<Vec<(usize, String)>, String> {
    let (mut out, mut from, mut runs) = (Vec::new(), 0, 0);
    while from < cases.len() && runs < 20 {
        let (lines, end) = said(program, &cases[from..])?;
        for (i, line) in lines.iter().enumerate() {
            match cases.get(from + i) {
                Some(c) if line.as_bytes() == c.1 => {}
                Some(_) => out.push((from + i, line.clone())),
                None => return Err("more answers than cases".to_string()),
            }
        }
        from += lines.len();
        if from < cases.len() {
            out.push((from, end.unwrap_or("no answer".to_string())));
            from += 1;
        } else if let Some(end) = end {
            return Err(end);
        }
        runs += 1;
    }
    Ok(out)
}

/// Of the cases around these, the shortest that differs by itself.
fn shortest(program: &str, cases: &[Case], found: &[(usize, String)]) -> Result<(usize, String), String> {
    let program = format!("{program} whole");
    let mut at: Vec<usize> = found.iter().take(400).flat_map(|f| f.0.saturating_sub(63)..=f.0).collect();
    at.sort_unstable();
    at.dedup();
    let mut best: Option<(usize, String)> = None;
    for i in at {
        if best.as_ref().is_some_and(|b| cases[b.0].0.len() <= cases[i].0.len()) {
            continue;
        }
        if let Some((_, said)) = differing(&program, &cases[i..=i])?.pop() {
            best = Some((i, said));
        }
    }
    Ok(best.unwrap_or_else(|| found[0].clone()))
}

/// The cases of lists at the bounds of four bytes.
fn wide_cases(counts: &mut Counts) -> Vec<Case> {
    let mut cases = Vec::new();
    for (name, w) in wides() {
        let words = w.map(|l| format!("{} {} {}", l.0, l.1, l.2)).join(" ");
        let answer = wide_answer(&w);
        if answer.starts_with(b"wide / save 54 54") == name.starts_with("54") {
            counts.add("four bytes", name);
        }
        cases.push((format!("wide {words}").into_bytes(), answer));
    }
    cases
}

/// COUNT cases, or as many as fit the seconds, through the model and through the program.
pub fn compare(a: &Arguments) -> Result<(), String> {
    let (amount, program) = (&a.rest[0], &a.rest[1]);
    let (seconds, count) = match amount.strip_suffix('s') {
        Some(n) => (Some(n.parse::<u64>().map_err(|e| e.to_string())?), u64::MAX),
        None => (None, amount.parse::<u64>().map_err(|e| e.to_string())?),
    };
    let began = Instant::now();
    let mut counts = Counts::default();
    let (mut done, mut sources) = (0, 0);
    let mut next = wide_cases(&mut counts);
    while !next.is_empty() {
        // The program works on one batch while the next is made.
        let cases = std::mem::take(&mut next);
        let left = count.saturating_sub(done + cases.len() as u64);
        let in_time = seconds.is_none_or(|s| began.elapsed() < Duration::from_secs(s));
        let found = std::thread::scope(|s| {
            let said = s.spawn(|| differing(program, &cases));
            if in_time {
                next = batch(a, &mut sources, left, &mut counts)?;
            }
            said.join().unwrap_or_else(|_| Err("the program's thread stopped".to_string()))
        })?;
        if !found.is_empty() {
            return Err(difference(a, done, &cases, &found)?);
        }
        done += cases.len() as u64;
    }
    println!("{done} disc cases: no difference ({:.0} s, seed {})", began.elapsed().as_secs_f64(), a.seed);
    if let Some(file) = &a.counts {
        std::fs::write(file, tables(&counts)).map_err(|e| format!("{file}: {e}"))?;
    }
    let missing: Vec<String> = expected()
        .into_iter()
        .filter(|(group, name)| !counts.0.contains_key(&(*group, name.clone())))
        .map(|(group, name)| format!("{group}: {name}"))
        .collect();
    if missing.is_empty() || a.unchecked { Ok(()) } else { Err(format!("never occurred: {}", missing.join("; "))) }
}

/// Says the shortest of the cases that differ; answers what is wrong.
pub fn difference(a: &Arguments, done: u64, cases: &[Case], found: &[(usize, String)]) -> Result<String, String> {
    let (i, said) = shortest(&a.rest[1], cases, found)?;
    let first = done + found[0].0 as u64;
    println!("case {first} (seed {}), {} of its batch of {} differ", a.seed, found.len(), cases.len());
    println!("the shortest case found:\n{}", String::from_utf8_lossy(&cases[i].0));
    println!("model:\n{}\nlibrary:\n{said}", String::from_utf8_lossy(&cases[i].1));
    Ok("the library and the model differ".to_string())
}

/// At most `most` cases, about 4 MiB of lines.
fn batch(a: &Arguments, sources: &mut u64, most: u64, counts: &mut Counts) -> Result<Vec<Case>, String> {
    let (mut cases, mut bytes) = (Vec::new(), 0);
    while bytes < 4 << 20 && (cases.len() as u64) < most {
        let mut rng = Rng::new(a.seed ^ (*sources << 20));
        *sources += 1;
        let small = a.small || !rng.chance(1, 12);
        let src = source(&mut rng, small);
        for _ in 0..rng.range(8, 20) {
            let case = match rng.below(6) {
                0 => pair_case(&mut rng, &src, counts),
                _ => Some(load_case(&mut rng, &src, counts)?),
            };
            bytes += case.as_ref().map_or(0, |c| c.0.len());
            cases.extend(case);
        }
    }
    Ok(cases)
}
