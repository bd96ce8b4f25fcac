//! The table: one row for each case.

use crate::goals::{self, Goal, Judged, judge, middle};
use crate::limits::Work;
use crate::rounds::{Effort, Round, Timed, run};
use std::cell::RefCell;

/// One case of a call.
pub struct Row<'a> {
    pub call: &'static str,
    pub case: String,
    pub ours: Round<'a>,
    /// The original's, where it has such a call.
    pub theirs: Option<Round<'a>>,
    /// The questions 1 to 4 of the call's lists alone, where it asks them.
    pub four: Option<Round<'a>>,
    pub least: Work,
    pub goal: Option<Goal>,
}

pub struct Report {
    pub effort: Effort,
    pub markdown: bool,
    /// Only calls whose name has this in it.
    pub only: String,
    /// Only cases with this in them.
    pub case: String,
    /// The rows with a goal so far.
    pub judged: RefCell<Vec<Judged>>,
}

/// A number with its thousands apart.
pub fn grouped(n: u64) -> String {
    let digits = n.to_string();
    let mut out = String::new();
    for (i, d) in digits.chars().enumerate() {
        if i > 0 && (digits.len() - i).is_multiple_of(3) {
            out.push(',');
        }
        out.push(d);
    }
    out
}

/// Microseconds with three digits that say something.
fn micros(t: f64) -> String {
    match t {
        t if t >= 1000.0 => grouped(t.round() as u64),
        t if t >= 100.0 => format!("{t:.0}"),
        t if t >= 10.0 => format!("{t:.1}"),
        t if t >= 1.0 => format!("{t:.2}"),
        t => format!("{t:.4}"),
    }
}

/// A ratio with the digits that say something.
pub fn ratio(r: f64) -> String {
    match r {
        r if r < 0.0 => format!("-{}", ratio(-r)),
        r if r >= 100.0 => grouped(r.round() as u64),
        r if r >= 10.0 => format!("{r:.1}"),
        r if r >= 0.01 => format!("{r:.2}"),
        r => format!("{r:.5}"),
    }
}

fn pair(t: &Timed) -> String {
    format!("{} / {}", micros(t.least), micros(t.median))
}

fn ratios(ours: &Timed, theirs: &Timed) -> String {
    format!("{} / {}", ratio(ours.least / theirs.least), ratio(ours.median / theirs.median))
}

fn spread(ours: &Timed, theirs: &Timed) -> String {
    let (low, high) = middle(ours, theirs, None);
    format!("{} to {}", ratio(low), ratio(high))
}

fn without(ours: &Timed, theirs: &Timed, four: &Timed) -> String {
    goals::without(ours, theirs, four).map_or("they are all of it".to_string(), ratio)
}

fn allocated(t: &Timed) -> String {
    match t.allocations {
        0 => "nothing".to_string(),
        n => format!("{} in {}", grouped(t.bytes), grouped(n)),
    }
}

/// The times of a row.
struct Times {
    ours: Timed,
    theirs: Option<Timed>,
    four: Option<Timed>,
    bound: Option<Timed>,
}

impl Times {
    fn of(row: Row<'_>, effort: Effort) -> Times {
        let (has_theirs, has_four) = (row.theirs.is_some(), row.four.is_some());
        let mut rounds = vec![row.ours];
        rounds.extend(row.theirs);
        rounds.extend(row.four);
        if !row.least.text().is_empty() {
            rounds.push(row.least.round());
        }
        let mut timed = run(&mut rounds, effort).into_iter();
        let ours = timed.next().expect("a time of ours");
        let theirs = if has_theirs { timed.next() } else { None };
        let four = if has_four { timed.next() } else { None };
        Times { ours, theirs, four, bound: timed.next() }
    }

    /// The cells of both sides, their ratio and its spread, questions 1 to 4, the ratio without them, the limit, what is allocated.
    fn cells(&self, limit: &str) -> [String; 8] {
        let (ours, theirs, four) = (&self.ours, self.theirs.as_ref(), self.four.as_ref());
        let or_empty = |cell: Option<String>| cell.unwrap_or_default();
        [
            pair(ours),
            theirs.map_or("none".to_string(), pair),
            or_empty(theirs.map(|t| ratios(ours, t))),
            or_empty(theirs.map(|t| spread(ours, t))),
            or_empty(four.map(|q| micros(q.least))),
            or_empty(theirs.zip(four).map(|(t, q)| without(ours, t, q))),
            or_empty(self.bound.as_ref().map(|b| format!("{}: {limit}", micros(b.least)))),
            or_empty(theirs.map(allocated)),
        ]
    }
}

/// The processor's model, as the system says it.
fn model() -> String {
    let text = std::fs::read_to_string("/proc/cpuinfo").unwrap_or_default();
    let line = text.lines().find_map(|l| l.strip_prefix("model name"));
    line.map_or("processor not told", |l| l.trim_start_matches([' ', '\t', ':'])).to_string()
}

/// What a program says.
fn said(program: &str, word: &str) -> String {
    let output = std::process::Command::new(program).arg(word).output();
    output.map_or(format!("{program} not told"), |o| String::from_utf8_lossy(&o.stdout).trim().to_string())
}

const NAMES: [&str; 11] = [
    "call", "case", "Rattle, us", "Rust, us", "ratio", "spread", "goal", "questions 1 to 4, us", "ratio without them", "limit, us: bytes",
    "the Rust allocates",
];

impl Report {
    /// What stands above the table: the machine, the date, the compiler.
    pub fn head(&self) {
        if !self.markdown {
            return;
        }
        let cores = std::thread::available_parallelism().map_or(0, |n| n.get());
        let effort = format!("{} to {} rounds, about {} ms for a row", self.effort.fewest, self.effort.most, self.effort.row.as_millis());
        println!("# Numbers\n\n{}, {cores} cores, {}, {}; {effort}.\n", model(), said("date", "+%Y-%m-%d"), said("rustc", "--version"));
        println!("| {} |", NAMES.join(" | "));
        println!("|{}", "---|".repeat(NAMES.len()));
    }

    /// What stands below it: the rows that miss their goal.
    pub fn tail(&self) {
        goals::print(&self.judged.borrow());
    }

    /// Runs a case and prints its row.
    pub fn row(&self, row: Row<'_>) {
        if !self.wants(row.call) || !self.has(&row.case) {
            return;
        }
        let (call, case, goal, limit) = (row.call, row.case.clone(), row.goal, row.least.text());
        let times = Times::of(row, self.effort);
        assert_eq!(times.ours.allocations, 0, "{call}: the library allocates");
        if let (Some(goal), Some(theirs)) = (goal, &times.theirs) {
            let judged = judge(&format!("{call}, {case}"), goal, &times.ours, theirs, times.four.as_ref());
            self.judged.borrow_mut().push(judged);
        }
        let [ours, theirs, ratio, spread, four, without, bound, allocated] = times.cells(&limit);
        let goal = goal.map_or(String::new(), |(g, four)| format!("{g:.1}{}", if four { "" } else { " without 1 to 4" }));
        self.print(&[call.to_string(), case, ours, theirs, ratio, spread, goal, four, without, bound, allocated]);
    }

    fn print(&self, cells: &[String; 11]) {
        if self.markdown {
            println!("| {} |", cells.join(" | "));
            return;
        }
        let shown = |(name, cell): (&&str, &String)| (!cell.is_empty()).then(|| format!("{name} {cell}"));
        let rest: Vec<String> = NAMES[2..].iter().zip(&cells[2..]).filter_map(shown).collect();
        println!("{}, {}\n    {}", cells[0], cells[1], rest.join("; "));
    }

    pub fn wants(&self, call: &str) -> bool {
        call.contains(&self.only)
    }

    pub fn wants_any(&self, calls: &[&str]) -> bool {
        calls.iter().any(|c| self.wants(c))
    }

    pub fn has(&self, case: &str) -> bool {
        case.contains(&self.case)
    }
}
