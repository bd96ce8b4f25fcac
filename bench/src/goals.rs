//! Which rows meet their goal.

use crate::report::ratio;
use crate::rounds::Timed;

/// The ratio that the issue asks for, and whether questions 1 to 4 count in it.
pub type Goal = (f64, bool);

#[derive(Clone, Copy, PartialEq)]
enum Verdict {
    Met,
    Missed,
    /// Missed by a ratio in whose middle half the goal lies.
    Spread,
    /// Questions 1 to 4, which the goal leaves out, are nearly all of the call.
    Untold,
}

const LISTS: [(Verdict, &str); 3] = [
    (Verdict::Missed, "These rows miss their goal"),
    (Verdict::Spread, "These miss it within the spread: the goal is not below the middle half of their ratios"),
    (Verdict::Untold, "These cannot be told, since questions 1 to 4 are nearly all of the call"),
];

/// A row with a goal.
pub struct Judged {
    verdict: Verdict,
    line: String,
}

/// The bounds of the middle half of the rounds' ratios, without what `four` took.
pub fn middle(ours: &Timed, theirs: &Timed, four: Option<&Timed>) -> (f64, f64) {
    let asked = |i: usize| four.map_or(0.0, |q| q.rounds[i]);
    let mut all: Vec<f64> = (0..ours.rounds.len()).map(|i| (ours.rounds[i] - asked(i)) / theirs.rounds[i]).collect();
    all.sort_by(f64::total_cmp);
    (all[all.len() / 4], all[all.len() - 1 - all.len() / 4])
}

/// The ratio without what `four` took; none where that is nearly all.
pub fn without(ours: &Timed, theirs: &Timed, four: &Timed) -> Option<f64> {
    let rest = ours.least - four.least;
    (rest >= 0.05 * ours.least).then_some(rest / theirs.least)
}

/// How a row stands to its goal.
pub fn judge(name: &str, (goal, counted): Goal, ours: &Timed, theirs: &Timed, four: Option<&Timed>) -> Judged {
    let four = if counted { None } else { four };
    let (low, high) = middle(ours, theirs, four);
    let reached = four.map_or(Some(ours.least / theirs.least), |q| without(ours, theirs, q));
    // By two digits behind the point, as they are printed.
    let meets = |r: f64| (100.0 * r).round() <= (100.0 * goal).round();
    let verdict = match reached {
        None => Verdict::Untold,
        Some(r) if meets(r) => Verdict::Met,
        Some(_) if meets(low) => Verdict::Spread,
        Some(_) => Verdict::Missed,
    };
    let left_out = if counted { "" } else { " without questions 1 to 4" };
    let said = reached.map_or(String::new(), |r| format!("{}, ", ratio(r)));
    let line = format!("- {name}: {said}middle half {} to {}{left_out}; goal {goal:.1}", ratio(low), ratio(high));
    Judged { verdict, line }
}

/// How many rows meet their goal, and those that do not.
pub fn print(rows: &[Judged]) {
    let of = |v: Verdict| rows.iter().filter(move |r| r.verdict == v);
    if rows.is_empty() {
        return;
    }
    println!("\nOf {} rows with a goal {} meet it.", rows.len(), of(Verdict::Met).count());
    for (verdict, title) in LISTS.into_iter().filter(|l| of(l.0).count() > 0) {
        println!("\n{title}:\n");
        of(verdict).for_each(|r| println!("{}", r.line));
    }
}
