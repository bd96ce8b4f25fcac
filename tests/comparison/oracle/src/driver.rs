//! Writes scripts with counts of their answers, the fixed list, and runs the comparison.

use std::collections::BTreeMap;
use std::io::{Read, Write};
use std::process::{Command, Stdio};
use std::time::{Duration, Instant};

use crate::Arguments;
use crate::file::mend;
use crate::generate;
use crate::lent;
use crate::script::{NO_CALLS, Oracle, Stats};
use crate::text::{parse_hex, put_hex};

/// Appends scripts from `number` on until `enough`; answers the next number.
fn batch(a: &Arguments, mut number: u32, out: &mut Vec<u8>, enough: impl Fn(u32, u64, usize) -> bool) -> u32 {
    let (mut scripts, mut loads) = (0, 0);
    while !enough(scripts, loads, out.len()) {
        let kind = a.kinds[number as usize % a.kinds.len()];
        let at = out.len();
        loads += generate::script(kind, number, a.seed, a.small, out);
        keep_only(a, out, at);
        if !matches!(kind, generate::Kind::Load | generate::Kind::Long) {
            drop_outside(out, at);
        }
        number += 1;
        scripts += 1;
    }
    number
}

/// Does a script have this call?
fn asked(a: &Arguments, call: &str) -> bool {
    a.only.is_empty() || ["script", "area", "#"].contains(&call) || a.only.iter().any(|c| c == call)
}

/// Takes from the script that begins at `at` the lines of calls that were not asked for.
fn keep_only(a: &Arguments, out: &mut Vec<u8>, at: usize) {
    if a.only.is_empty() {
        return;
    }
    let mut kept = Vec::new();
    for line in out[at..].split_inclusive(|b| *b == b'\n') {
        let word = line.split(|b| matches!(b, b' ' | b'\n')).next().unwrap_or_default();
        if asked(a, &String::from_utf8_lossy(word)) {
            kept.extend_from_slice(line);
        }
    }
    out.truncate(at);
    out.extend_from_slice(&kept);
}

/// Takes from the script that begins at `at` the lines that the original cannot judge.
fn drop_outside(out: &mut Vec<u8>, at: usize) {
    let mut oracle = Oracle::default();
    let (mut kept, mut answer, mut dropped) = (Vec::new(), Vec::new(), false);
    for line in out[at..].split_inclusive(|b| *b == b'\n') {
        answer.clear();
        oracle.line(line.strip_suffix(b"\n").unwrap_or(line), &mut answer);
        let first = answer.split(|b| *b == b'\n').next().unwrap_or_default();
        if first.ends_with(b" outside") {
            dropped = true;
        } else {
            kept.extend_from_slice(line);
        }
    }
    if dropped {
        out.truncate(at);
        out.extend_from_slice(&kept);
    }
}

fn answers(oracle: &mut Oracle, scripts: &[u8]) -> Result<Vec<u8>, String> {
    let mut out = Vec::new();
    oracle.run(scripts, &mut out).map_err(|line| {
        let text = scripts.split(|b| *b == b'\n').nth(line - 1).unwrap_or_default();
        let text = String::from_utf8_lossy(&text[..text.len().min(200)]).into_owned();
        format!("the generator wrote a line that is none, {line}: {text}")
    })?;
    Ok(out)
}

/// Prints the counts; Err: what never occurred.
fn report(stats: &Stats, a: &Arguments) -> Result<(), String> {
    if a.notes {
        let mut last = "";
        for ((note, n), count) in &stats.notes {
            if note != last && !note.contains('+') {
                eprint!("\n  {note}:");
                last = note;
            }
            if !note.contains('+') {
                eprint!(" {n}x{count}");
            }
        }
        eprintln!();
    }
    let mut last = String::new();
    for ((command, n), count) in &stats.answers {
        if command == "script" {
            continue;
        }
        if *command != last {
            eprint!("{}{command}:", if last.is_empty() { "" } else { "\n" });
            last = command.clone();
        }
        eprint!(" {n}x{count}");
    }
    eprintln!("\naccepted files:");
    for (name, count) in &stats.accepted {
        eprintln!("  {name} x{count}");
    }
    for (what, count) in &stats.large {
        eprintln!("  {what} x{count}");
    }
    if !stats.lent.is_empty() {
        eprintln!("lent:");
        for (name, count) in &stats.lent {
            eprintln!("  {name} x{count}");
        }
    }
    eprintln!("refusals 20 and 28 by place:");
    for (name, count) in &stats.places {
        eprintln!("  {name} x{count}");
    }
    let missing = missing(stats, a);
    if missing.is_empty() || a.unchecked { Ok(()) } else { Err(format!("never occurred: {}", missing.join(", "))) }
}

/// What accepted calls do in scripts of all kinds.
const BRANCHES: [(&str, &[&str]); 12] = [
    (
        "absorb",
        &[
            "a new end state",
            "a stopped recorder",
            "all checkpoints held already",
            "an end state that is held",
            "checkpoints, none of them held already",
            "checkpoints, some of them held already",
            "malformed list full",
            "no checkpoint recorded",
            "part: a frame of its own",
            "part: joined to the last frame",
            "part: passed over, a frame past the budget",
            "part: passed over, growth past the budget",
            "part: passed over, other bytes than the last frame",
            "part: the last frame grown",
            "recorder from before the frontier",
        ],
    ),
    (
        "add_hints",
        &[
            "no hint",
            "no hints kept",
            "not rising",
            "rising, among the held ones",
            "rising, behind the held ones",
            "thinned",
        ],
    ),
    (
        "confirm",
        &[
            "a new one",
            "a new one, the lowest is dropped",
            "a new one, which is dropped",
            "another digest replaces",
            "nothing kept, M is 0",
            "nothing kept, fingerprint not checked",
            "the same digest, a lower threshold",
            "the same digest, no lower threshold",
        ],
    ),
    ("first_record", &["a number", "none"]),
    ("flush", &["no tail", "the tail listed"]),
    (
        "hint",
        &[
            "a confirmed one, also the nearest",
            "a confirmed one, another is nearer",
            "a later hint too far past the end",
            "a run of fewer than 3 frames",
            "no local spacing",
            "none, no hints",
            "none, none in reach",
            "several of its number",
            "spacing of the run behind it",
            "spacing to the hint before",
            "the average is larger, or alone",
            "the local spacing is larger",
            "the nearest, none confirmed",
            "through a later hint",
        ],
    ),
    ("hint_recorder", &["made", "none, no hints kept"]),
    (
        "merge",
        &[
            "another malformed list not taken",
            "another malformed list taken",
            "checkpoints",
            "checkpoints and end state",
            "confirmations kept",
            "end state only",
            "fingerprint taken",
            "hints added",
            "hints thinned",
            "image id taken",
            "no hints kept",
            "nothing new, as many checkpoints",
            "nothing new, fewer checkpoints",
            "part: a frame of its own",
            "part: joined to the last frame",
            "part: passed over, a frame past the budget",
            "part: passed over, growth past the budget",
            "part: passed over, other bytes than the last frame",
            "part: the last frame grown",
        ],
    ),
    (
        "plan",
        &[
            "a checkpoint, no frame under assembly",
            "a checkpoint, no part held",
            "a checkpoint, part held",
            "the end",
            "the start",
        ],
    ),
    (
        "record",
        &[
            "no frame under assembly",
            "part: a frame of its own",
            "part: joined to the last frame",
            "part: none, back 32 or less",
            "part: passed over, a frame past the budget",
            "part: passed over, growth past the budget",
            "part: passed over, longer than a frame",
            "part: passed over, other bytes than the last frame",
            "part: the last frame grown",
        ],
    ),
    ("recorder", &["running", "stopped, of a complete list"]),
    (
        "see",
        &[
            "an LSN above 32 bits",
            "listed, a lower number",
            "listed, the first",
            "listed, the spacing reached",
            "no number",
            "the tail",
        ],
    ),
];

/// What no accepted call did, where scripts of all kinds were run.
fn missing_branches(stats: &Stats, a: &Arguments) -> Vec<String> {
    let every = generate::kinds("all").unwrap_or_default();
    if every.iter().any(|k| !a.kinds.contains(k)) {
        return Vec::new();
    }
    let all = BRANCHES.iter().flat_map(|(call, list)| list.iter().map(move |what| (*call, *what)));
    let never = all.filter(|b| asked(a, b.0) && !stats.branches.contains_key(b));
    never.map(|(call, what)| format!("{call}: {what}")).collect()
}

/// What calls over lent tables answer in scripts of kind lent, beside the calls of one list.
const LENT: [(&str, &[u64]); 11] = [
    ("new", &[0, 1, 2, 3]),
    ("load", &[0, 1, 3]),
    ("merge", &[0, 1, 2, 3, 4]),
    ("record", &[0, 1, 2, 3, 4]),
    ("finish", &[0, 1, 2, 3, 4]),
    ("absorb", &[0, 1, 2, 3, 4]),
    ("take", &[0, 1, 2, 3, 4]),
    ("see", &[0, 3, 4]),
    ("see_bytes", &[0, 3, 4]),
    ("see_many", &[0, 3, 4]),
    ("flush", &[0, 3, 4]),
];
const OF_ONE_LIST: [&str; 9] =
    ["save", "reload", "plan", "fingerprint", "add_hints", "confirm", "hint", "recorder", "hint_recorder"];

/// What comes behind 1 to 4 in a call.
const LATER: [(&str, &[u64]); 9] = [
    ("save", &[40]),
    ("merge", &[41, 42, 43]),
    ("record", &[5, 6, 7]),
    ("finish", &[5, 6]),
    ("absorb", &[8, 9, 10, 11, 12]),
    ("add_hints", &[13]),
    ("confirm", &[14]),
    ("fingerprint", &[15]),
    ("hint", &[16]),
];

/// What scripts of kind large reach.
const LARGE: [&str; 22] = [
    "add_hints: 65,536 at once, not rising",
    "add_hints: 65,536 at once, rising",
    "add_hints: 65,536 hints",
    "add_hints: 49,152 hints",
    "add_hints: more than 1,024 at once, M 0",
    "add_hints: more than 1,024 at once, M 1",
    "add_hints: more than 1,024 at once, M 2",
    "add_hints: more than 1,024 at once, M 3",
    "add_hints: more than 1,024 at once, M 4",
    "add_hints: more than 1,024 at once, M 2048",
    "add_hints: more than 1,024 at once, M 65536",
    "absorb: more than 1,024 checkpoints",
    "load: 65,536 checkpoints",
    "load: 65,536 confirmations",
    "load: 65,536 hints",
    "load: more than 131,072 frame bytes",
    "merge: 65,536 checkpoints",
    "merge: 65,536 confirmations",
    "merge: a malformed list of 4,096",
    "merge: more than 131,072 frame bytes",
    "reload: more than 1,024 checkpoints",
    "take: 65,536 hints",
];
/// Branches and answers that only scripts of kind large reach.
const LARGE_BRANCHES: [(&str, &str); 5] = [
    ("see", "the tail, list full"),
    ("see_bytes", "the tail, list full"),
    ("see_many", "the tail, list full"),
    ("flush", "the tail lost, list full"),
    ("hint", "saturated"),
];
const LARGE_ANSWERS: [(&str, &[u64]); 7] = [
    ("add_hints", &[0, 3, 4, 13]),
    ("confirm", &[0, 3, 4]),
    ("load", &[0, 3]),
    ("merge", &[0, 3, 4]),
    ("new", &[0, 3]),
    ("save", &[0, 3, 4]),
    ("take", &[0]),
];

/// What kind version4 reaches beside the bad input: accepted files, saved versions.
const VERSION4: [&str; 12] = [
    "load: a file of version 4, with a twin",
    "load: then saved as version 2",
    "load: then saved as version 3",
    "load: then saved as version 4",
    "load: with confirmations",
    "load: with the flag, no confirmation",
    "load: without the flag",
    "reload: version 4, then 2",
    "reload: version 4, then 3",
    "reload: version 4, then 4",
    "save: version 2",
    "save: version 4",
];
const VERSION4_LENT: [&str; 6] = [
    "a list's confirmations: exactly long enough",
    "a list's confirmations: one record short",
    "a list's hints: exactly long enough",
    "a list's hints: one byte short",
    "a list's hints: one record short",
    "edit: 4 by word 10 of a list's head",
];
const VERSION4_ANSWERS: [(&str, &[u64]); 7] = [
    ("add_hints", &[0, 3, 4]),
    ("load", &[0, 20, 21, 22, 23, 24, 25, 26, 27, 28, 29, 30, 31, 32, 33, 34, 35, 36, 37, 38]),
    ("merge", &[0, 3, 4, 41, 42, 43]),
    ("new", &[0]),
    ("plan", &[0, 3, 4]),
    ("reload", &[0]),
    ("save", &[0, 3, 4, 40]),
];
const VERSION4_LISTS: [&str; 12] = [
    "load: M 65,536",
    "load: M 65,537",
    "load: M 262,143",
    "load: M 262,144",
    "merge: M 65,537",
    "merge: M 262,144",
    "new: M 65,536",
    "new: M 65,537",
    "new: M 262,143",
    "new: M 262,144",
    "reload: M 65,537",
    "reload: M 262,144",
];

/// Files of kind long.
const LONG_FILES: [&str; 2] = ["load: a file of version 4, by the model alone", "load: then saved as version 4"];

/// What scripts of kind long reach.
const LONG: [&str; 27] = [
    "add_hints: 196,608 hints",
    "add_hints: 262,143 hints",
    "add_hints: 262,144 hints",
    "add_hints: 65,537 hints",
    "load: 262,143 confirmations",
    "load: 262,143 hints",
    "load: 262,144 confirmations",
    "load: 262,144 hints",
    "load: 65,537 confirmations",
    "load: 65,537 hints",
    "load: M 65,536",
    "load: M 65,537",
    "load: M 262,143",
    "load: M 262,144",
    "merge: 196,608 hints",
    "merge: 262,143 confirmations",
    "merge: 262,144 confirmations",
    "merge: 262,144 hints",
    "merge: 65,537 confirmations",
    "new: M 65,537",
    "new: M 262,143",
    "new: M 262,144",
    "reload: 196,608 hints",
    "reload: 262,144 confirmations",
    "reload: 262,144 hints",
    "reload: 65,537 hints",
    "reload: M 65,536",
];

/// What calls name in scripts of kind names: each name, and each boundary from both sides.
const NAMES: [(&str, &[&str]); 2] = [
    (
        "plan_rule",
        &[
            "a checkpoint, at its threshold",
            "area start",
            "area start, no checkpoint",
            "area start, one frame before checkpoint 0",
            "checkpoint",
            "checkpoint 0",
            "end state",
            "end state, at its threshold",
            "held part",
            "held part of 0 bytes",
            "one frame before the end state",
        ],
    ),
    (
        "hint_rule",
        &[
            "a later hint",
            "area's end by a later hint",
            "area's end by local spacing",
            "area's end by the average",
            "confirmed, and the nearest",
            "confirmed, and the nearest, its threshold the first frame",
            "confirmed, another is nearer",
            "confirmed, another is nearer, its threshold the first frame",
            "equal densities",
            "local spacing larger",
            "local spacing larger, with one upper end",
            "nearest",
            "nearest, a threshold one above the first frame",
            "nearest, the fingerprint is unchecked",
            "no hint is near",
            "one above the area's end by local spacing",
            "one above the area's end by the average",
            "one below the area's end by a later hint",
            "one below the area's end by local spacing",
            "one below the area's end by the average",
            "the average alone",
            "the average larger",
            "the average larger, with one upper end",
        ],
    ),
];

/// What sectors of kind sectors tell, alone and to a hint recorder.
const FIRST: [&str; 7] = [
    "a number",
    "a number, in the last three bytes",
    "bytes missing",
    "bytes missing, no header byte",
    "bytes missing, one",
    "no frame",
    "no frame, and too short for one",
];
const SEEN_FIRST: [&str; 6] = [
    "an LSN above 32 bits",
    "listed, a lower number",
    "listed, the first",
    "listed, the spacing reached",
    "the tail",
    "the tail, list full",
];

/// What never occurred of what scripts of kind sectors are made for, and how many sectors of the table.
fn missing_sectors(stats: &Stats) -> Vec<String> {
    let told = FIRST.iter().flat_map(|w| [("first_bytes", *w), ("see_first", *w)]);
    let all = told.chain(SEEN_FIRST.iter().map(|w| ("see_first", *w)));
    let never = all.filter(|b| !stats.branches.contains_key(b)).map(|(call, what)| format!("{call}: {what}"));
    let refused = [3, 4].into_iter().filter(|n| !stats.answers.contains_key(&("see_first".to_string(), *n)));
    let table = 256 * (generate::sectors::TABLE + 1);
    let lacks = (stats.sectors.len() < table)
        .then(|| format!("{} of the table's {table} sectors", table - stats.sectors.len()));
    never.chain(refused.map(|n| format!("see_first: {n}"))).chain(lacks).collect()
}

/// Tables of hints of a list that keeps none, which need room for what a merge may bring all the same.
const NO_HINTS: [&str; 3] = [
    "a list's hints, M 0: exactly long enough",
    "a list's hints, M 0: one byte short",
    "a list's hints, M 0: one record short",
];

/// What lines of kind lent are to lend and edit, as the oracle counts it.
fn lent_names() -> Vec<String> {
    let mut out = Vec::new();
    for (name, width) in lent::NAMES.iter().zip(lent::WIDTHS) {
        let short = if width > 1 { &["one byte short", "one record short"][..] } else { &["one byte short"] };
        out.extend(["exactly long enough"].iter().chain(short).map(|how| format!("{name}: {how}")));
    }
    out.extend(NO_HINTS.map(str::to_string));
    let asked = LENT.iter().filter(|c| c.1.contains(&4)).map(|c| c.0).chain(OF_ONE_LIST);
    out.extend(asked.map(|call| format!("{call}: 3 before 4")));
    for call in ["merge", "absorb"] {
        for a in 1..=4 {
            out.extend(["own", "other"].iter().map(|whose| format!("{call}: {a} of the {whose} alone")));
            out.extend((1..=4).filter(|b| a != *b).map(|b| format!("{call}: {a} of the own, {b} of the other")));
        }
    }
    let tables = [0, 1, 3, 4, 5, 6, 7, 8, 10].into_iter().map(|t| (t, 0)).chain([(3, 20), (10, 20)]);
    let head = [8, 10, 11, 12, 13, 14, 15, 16, 17, 18, 19, 21].into_iter().map(|w| (lent::HEAD, w));
    let block = [8, 9, 11, 12, 13, 14, 15, 16].into_iter().map(|w| (lent::BLOCK, w));
    let all = tables.chain(head).chain(block).chain([(lent::HINT_BLOCK, 6)]);
    out.extend(all.map(|(t, at)| format!("edit: 4 by {}", lent::edited_name(t, at))));
    let head = (0..4).chain([7]).chain(9..24).map(|w| (lent::HEAD, w));
    let block = (0..4).chain([7, 9]).chain(11..24).map(|w| (lent::BLOCK, w));
    let wide = head.chain(block).chain([(lent::HINT_BLOCK, 6)]);
    out.extend(wide.map(|(t, at)| format!("edit: 3 by {}", lent::edited_name(t, at))));
    out.extend((20..=38).chain([1]).map(|n| format!("load: {n} before 3")));
    out.extend((1..=2).map(|n| format!("new: {n} before 3")));
    for (call, list) in LATER {
        out.extend(list.iter().flat_map(|n| (3..=4).map(move |first| format!("{call}: {first} before {n}"))));
    }
    out
}

/// What never occurred of what scripts of kinds large and lent are made for.
fn missing_names(stats: &Stats, a: &Arguments) -> Vec<String> {
    let mut out = Vec::new();
    if a.kinds.contains(&generate::Kind::Large) {
        out.extend(LARGE.iter().filter(|w| !stats.large.contains_key(**w)).map(|w| w.to_string()));
        let never = LARGE_BRANCHES.iter().filter(|b| !stats.branches.contains_key(b));
        out.extend(never.map(|(call, what)| format!("{call}: {what}")));
    }
    if a.kinds.contains(&generate::Kind::Lent) {
        out.extend(lent_names().into_iter().filter(|n| !stats.lent.contains_key(n)));
    }
    if a.kinds.contains(&generate::Kind::Sectors) {
        out.extend(missing_sectors(stats));
    }
    let noted = |kind: &str, name: &str, n: u64| (format!("{kind}: {name}"), n);
    let mut notes: Vec<(String, u64)> = Vec::new();
    if a.kinds.contains(&generate::Kind::Version4) {
        out.extend(VERSION4.iter().filter(|w| !stats.versions.contains_key(**w)).map(|w| w.to_string()));
        out.extend(VERSION4_LISTS.iter().filter(|w| !stats.large.contains_key(**w)).map(|w| w.to_string()));
        let lent = VERSION4_LENT.iter().chain(&NO_HINTS);
        out.extend(lent.filter(|w| !stats.lent.contains_key(**w)).map(|w| w.to_string()));
        let kept =
            [("merge", "confirmations kept"), ("confirm", "a new one"), ("hint", "a confirmed one, another is nearer")];
        out.extend(
            kept.iter().filter(|b| !stats.branches.contains_key(b)).map(|(call, what)| format!("{call}: {what}")),
        );
        notes.extend(generate::VERSION4_BAD.iter().map(|b| noted("bad", b.0, b.1)));
        notes.extend(generate::VERSION4_BOUNDS.iter().map(|b| noted("bound", b.0, 0)));
        notes.extend(generate::VERSION4_LIMITS.iter().map(|b| noted("bound", b.0, 0)));
    }
    if a.kinds.contains(&generate::Kind::Long) {
        out.extend(LONG_FILES.iter().filter(|w| !stats.versions.contains_key(**w)).map(|w| w.to_string()));
        out.extend(LONG.iter().filter(|w| !stats.large.contains_key(**w)).map(|w| w.to_string()));
        notes.extend(generate::LONG_BAD.iter().map(|b| noted("bad", b.0, b.1)));
    }
    out.extend(notes.into_iter().filter(|n| !stats.notes.contains_key(n)).map(|(note, n)| format!("{note}: {n}")));
    if a.kinds.contains(&generate::Kind::Names) {
        let all = NAMES.iter().flat_map(|(call, list)| list.iter().map(move |what| (*call, *what)));
        out.extend(all.filter(|b| !stats.branches.contains_key(b)).map(|(call, what)| format!("{call}: {what}")));
    }
    out
}

/// What a run of merges of four lists was to be outside of, and never was.
fn missing_orders(stats: &Stats, a: &Arguments) -> Vec<String> {
    if !a.kinds.contains(&generate::Kind::Hints) {
        return Vec::new();
    }
    let runs = ["inside"].into_iter().chain(generate::order::OUTSIDE).map(|what| format!("order: {what}"));
    runs.filter(|note| !stats.notes.contains_key(&(note.clone(), 0))).collect()
}

/// What never occurred of what the kinds asked for have.
fn missing(stats: &Stats, a: &Arguments) -> Vec<String> {
    let mut missing = Vec::new();
    let mut need = |command: &str, n: u64| {
        if asked(a, command) && !stats.answers.contains_key(&(command.to_string(), n)) {
            missing.push(format!("{command} {n}"));
        }
    };
    if a.kinds.contains(&generate::Kind::Load) {
        for n in [0].into_iter().chain(20..=38) {
            need("load", n);
        }
        need("save", 0);
        need("save", 40);
        need("plan", 0);
    }
    if a.kinds.contains(&generate::Kind::Merge) {
        for n in [0, 41, 42, 43] {
            need("merge", n);
        }
    }
    if a.kinds.contains(&generate::Kind::Calls) {
        for (command, list) in [
            ("new", &[0, 1, 2, 3][..]),
            ("record", &[0, 5, 6, 7]),
            ("finish", &[0, 5, 6]),
            ("absorb", &[0, 8, 9, 10, 11, 12]),
            ("add_hints", &[0, 13]),
            ("confirm", &[0, 14]),
            ("fingerprint", &[0, 15]),
            ("hint", &[0, 16]),
        ] {
            for &n in list {
                need(command, n);
            }
        }
    }
    if a.kinds.contains(&generate::Kind::Hints) {
        need("union", 0);
    }
    if a.kinds.contains(&generate::Kind::Names) {
        need("plan_rule", 0);
        need("hint_rule", 0);
        need("hint_rule", 16);
    }
    if a.kinds.contains(&generate::Kind::Large) {
        for (call, list) in LARGE_ANSWERS {
            list.iter().for_each(|&n| need(call, n));
        }
    }
    if a.kinds.contains(&generate::Kind::Version4) {
        for (call, list) in VERSION4_ANSWERS {
            list.iter().for_each(|&n| need(call, n));
        }
    }
    if a.kinds.contains(&generate::Kind::Lent) {
        for call in OF_ONE_LIST {
            (0..=4).for_each(|n| need(call, n));
        }
        for (call, list) in LENT {
            list.iter().for_each(|&n| need(call, n));
        }
    }
    if a.only.is_empty() {
        missing.extend(missing_names(stats, a));
        missing.extend(missing_orders(stats, a));
    }
    if a.kinds.contains(&generate::Kind::Load) {
        for name in [
            "version 1",
            "version 2",
            "version 3",
            "limit takes nothing",
            "limit lowers the budget",
            "limit drops frames",
            "limit lowers M",
            "limit thins hints",
            "limit drops confirmations",
            "empty area",
            "no checkpoint",
            "complete",
            "not complete",
            "all boundaries but not complete",
            "parts share a frame",
            "frame longer than its parts",
            "zero-length part",
            "held part with back 32 or less",
            "hints",
            "fingerprint",
            "confirmations",
            "M is 0",
        ] {
            if !stats.accepted.contains_key(name) {
                missing.push(format!("an accepted file: {name}"));
            }
        }
        for name in [
            "20: fewer than 8 bytes",
            "20: frame header",
            "20: frame bytes",
            "20: part",
            "20: malformed LSN",
            "20: hint header",
            "20: confirmation header",
            "28: bytes 52 to 55",
            "28: bytes 68 to 71",
            "28: end state of a list that is not complete",
            "28: hint header",
        ] {
            if !stats.places.contains_key(name) {
                missing.push(name.to_string());
            }
        }
        if !a.small && !stats.accepted.contains_key("malformed list capped") {
            missing.push("an accepted file: malformed list capped".to_string());
        }
    }
    missing
}

/// The counts as tables: calls by answer, accepted calls by what they did, files.
fn tables(stats: &Stats) -> String {
    let mut out = "| call | answered | accepted | refused, by number |\n|---|---:|---:|---|\n".to_string();
    let mut calls: BTreeMap<&str, Vec<(u64, u64)>> = BTreeMap::new();
    for ((call, n), count) in &stats.answers {
        if !NO_CALLS.contains(&call.as_str()) {
            calls.entry(call).or_default().push((*n, *count));
        }
    }
    for (call, list) in &calls {
        let sum: u64 = list.iter().map(|x| x.1).sum();
        let accepted: u64 = list.iter().filter(|x| x.0 == 0).map(|x| x.1).sum();
        let refused: Vec<String> = list.iter().filter(|x| x.0 != 0).map(|(n, count)| format!("{n}: {count}")).collect();
        out += &format!("| `{call}` | {sum} | {accepted} | {} |\n", refused.join(", "));
    }
    out += &format!("| all | {} | | |\n", stats.calls());
    out += "\n| accepted call | what it did | times |\n|---|---|---:|\n";
    for ((call, what), count) in &stats.branches {
        out += &format!("| `{call}` | {what} | {count} |\n");
    }
    if !stats.large.is_empty() {
        out += "\n| large | times |\n|---|---:|\n";
        for (what, count) in &stats.large {
            out += &format!("| {what} | {count} |\n");
        }
    }
    if stats.versions.keys().any(|v| v.contains('4')) {
        out += "\n| version 4 | times |\n|---|---:|\n";
        for (what, count) in &stats.versions {
            out += &format!("| {what} | {count} |\n");
        }
        out += "\n| file | answer | times |\n|---|---:|---:|\n";
        for ((note, n), count) in stats.notes.iter().filter(|n| n.0.0.starts_with("b") && n.0.0.contains(": ")) {
            out += &format!("| {note} | {n} | {count} |\n");
        }
    }
    let orders: Vec<_> = stats.notes.iter().filter(|n| n.0.0.starts_with("order: ")).collect();
    if !orders.is_empty() {
        out += "\n| merges of four lists | runs |\n|---|---:|\n";
        for ((note, _), count) in orders {
            out += &format!("| {} | {count} |\n", &note[7..]);
        }
        let unions = stats.answers.get(&("union".to_string(), 0)).copied().unwrap_or(0);
        out += &format!("| unions compared | {unions} |\n");
    }
    if !stats.lent.is_empty() {
        out += "\n| lent or edited | times |\n|---|---:|\n";
        for (what, count) in &stats.lent {
            out += &format!("| {what} | {count} |\n");
        }
    }
    out += "\n| file | times |\n|---|---:|\n";
    for (what, count) in &stats.accepted {
        out += &format!("| accepted: {what} | {count} |\n");
    }
    for (what, count) in &stats.places {
        out += &format!("| refused with {what} | {count} |\n");
    }
    out
}

pub fn generate(a: &Arguments) -> Result<(), String> {
    let began = Instant::now();
    let mut oracle = Oracle::counting();
    let mut output = std::io::stdout().lock();
    let (mut number, mut scripts) = (0, Vec::new());
    let files = a.files.unwrap_or(u64::MAX);
    let most = a.scripts.unwrap_or(if a.files.is_some() { u32::MAX } else { 2000 });
    let (mut written, mut spent) = (0u64, Duration::ZERO);
    while number < most && oracle.stats.loads < files {
        scripts.clear();
        let left = files - oracle.stats.loads;
        number = batch(a, number, &mut scripts, |n, loads, len| number + n >= most || loads >= left || len > 1 << 20);
        let at = Instant::now();
        answers(&mut oracle, &scripts)?;
        spent += at.elapsed();
        written += scripts.len() as u64;
        output.write_all(&scripts).map_err(|e| e.to_string())?;
    }
    eprintln!(
        "{number} scripts, {} files, {written} bytes, {:.1} s in all, {:.1} s of them the original's",
        oracle.stats.loads,
        began.elapsed().as_secs_f64(),
        spent.as_secs_f64()
    );
    report(&oracle.stats, a)
}

/// The fixed list: small scripts, and their answers.
pub fn fixed(a: &Arguments) -> Result<(), String> {
    let a = &Arguments {
        small: true,
        rest: a.rest.clone(),
        kinds: a.kinds.clone(),
        only: a.only.clone(),
        counts: None,
        ..*a
    };
    let mut oracle = Oracle::counting();
    let names: Vec<String> = a.kinds.iter().map(|k| format!("{k:?}").to_lowercase()).collect();
    let mut scripts =
        format!("# seed {}, kinds {}, {}\n", a.seed, names.join(" "), env!("ORACLE_SOURCES")).into_bytes();
    let most = a.scripts.unwrap_or(300);
    batch(a, 0, &mut scripts, |n, _, _| n >= most);
    let out = answers(&mut oracle, &scripts)?;
    std::fs::write(&a.rest[0], &scripts).map_err(|e| e.to_string())?;
    std::fs::write(&a.rest[1], &out).map_err(|e| e.to_string())?;
    let calls = scripts.split(|b| *b == b'\n').filter(|l| !l.is_empty() && l[0] != b'#').count();
    eprintln!("{most} scripts, {calls} lines, {} files, {} and {} bytes", oracle.stats.loads, scripts.len(), out.len());
    report(&oracle.stats, a)
}

/// What `replay` answers, and what its end was where it did not end well.
pub fn replayed(replay: &str, scripts: &[u8]) -> Result<(Vec<u8>, Option<String>), String> {
    let words: Vec<&str> = replay.split(' ').collect();
    let mut child = Command::new(words[0])
        .args(&words[1..])
        .stdin(Stdio::piped())
        .stdout(Stdio::piped())
        .spawn()
        .map_err(|e| format!("cannot run {replay}: {e}"))?;
    let mut input = child.stdin.take().ok_or("no standard input")?;
    let mut output = child.stdout.take().ok_or("no standard output")?;
    let mut out = Vec::new();
    std::thread::scope(|s| {
        s.spawn(move || {
            // A program that ends early closes its input.
            let _ = input.write_all(scripts);
        });
        output.read_to_end(&mut out)
    })
    .map_err(|e| e.to_string())?;
    let status = child.wait().map_err(|e| e.to_string())?;
    let end = if status.success() { None } else { Some(format!("{replay} ended with {status}")) };
    Ok((out, end))
}

/// The first line in which two answers differ.
fn first_difference(ours: &[u8], theirs: &[u8]) -> Option<(usize, String, String)> {
    if ours == theirs {
        return None;
    }
    let (mut a, mut b) = (ours.split(|b| *b == b'\n'), theirs.split(|b| *b == b'\n'));
    let mut line = 0;
    loop {
        line += 1;
        match (a.next(), b.next()) {
            (None, None) => return None,
            (x, y) if x == y => {}
            (x, y) => {
                let text =
                    |t: Option<&[u8]>| t.map_or("(nothing)".to_string(), |t| String::from_utf8_lossy(t).into_owned());
                return Some((line, text(x), text(y)));
            }
        }
    }
}

/// The scripts of a batch, each from its `script` line on.
fn split(scripts: &[u8]) -> Vec<Vec<&[u8]>> {
    let mut out: Vec<Vec<&[u8]>> = Vec::new();
    for line in scripts.split(|b| *b == b'\n').filter(|l| !l.is_empty()) {
        if line.starts_with(b"script ") {
            out.push(Vec::new());
        }
        if let Some(last) = out.last_mut() {
            last.push(line);
        }
    }
    out
}

fn join<T: AsRef<[u8]>>(lines: &[T]) -> Vec<u8> {
    lines.iter().flat_map(|l| l.as_ref().iter().copied().chain([b'\n'])).collect()
}

/// Whether the two sides differ on these lines, inside the comparison.
fn differs(replay: &str, lines: &[Vec<u8>]) -> bool {
    let script = join(lines);
    let mut ours = Vec::new();
    if Oracle::default().run(&script, &mut ours).is_err() || ours.windows(9).any(|w| w == b" outside\n") {
        return false;
    }
    match replayed(replay, &script) {
        Ok((theirs, end)) => end.is_some() || ours != theirs,
        Err(_) => false,
    }
}

/// The file without one of its records, once for each record: its bytes are missing and its count
/// is one less. Frames also lose their last byte.
fn without_records(b: &[u8]) -> Vec<Vec<u8>> {
    let at = |i: usize| b.get(i..i + 4).map_or(0, |w| u32::from_le_bytes([w[0], w[1], w[2], w[3]]) as usize);
    let mut out = Vec::new();
    let mut take = |field: usize, start: usize, len: usize| {
        if at(field) > 0 && start + len + 8 <= b.len() {
            let mut less = b.to_vec();
            less[field..field + 4].copy_from_slice(&(at(field) as u32 - 1).to_le_bytes());
            less.drain(start..start + len);
            out.push(less);
        }
    };
    let mut i = 80;
    let most = b.len() / 4;
    let section =
        |take: &mut dyn FnMut(usize, usize, usize), i: &mut usize, field: usize, count: usize, width: usize| {
            for j in (0..count.min(most)).rev() {
                take(field, *i + width * j, width);
            }
            *i += width * count.min(most);
        };
    section(&mut take, &mut i, 36, at(36), 24);
    for _ in 0..at(40).min(most) {
        let len = at(i + 4).min(b.len());
        take(40, i, 8 + len);
        if len > 0 {
            take(i + 4, i + 8 + len - 1, 1);
        }
        i += 8 + len;
    }
    section(&mut take, &mut i, 44, at(44), 24);
    section(&mut take, &mut i, 48, at(48), 4);
    if at(8) >= 2 {
        let field = i + 16;
        i += 24;
        section(&mut take, &mut i, field, at(field), 8);
    }
    if at(8) >= 3 {
        let field = i;
        i += 8;
        section(&mut take, &mut i, field, at(field), 16);
    }
    out
}

/// Tries to make the script smaller as long as the difference stays, for at most `time`.
fn shrink(replay: &str, lines: Vec<Vec<u8>>, time: Duration) -> Vec<Vec<u8>> {
    let until = Instant::now() + time;
    let mut best: Vec<Vec<u8>> = lines.into_iter().filter(|l| !l.starts_with(b"#")).collect();
    // Lines: halves, quarters, and so on down to one.
    let mut size = best.len().div_ceil(2);
    while size > 0 && Instant::now() < until {
        let mut at = 0;
        while at < best.len() {
            let mut less = best.clone();
            less.drain(at..(at + size).min(best.len()));
            if !less.is_empty() && differs(replay, &less) {
                best = less;
            } else {
                at += size;
            }
        }
        size /= 2;
    }
    // Bytes of the files that are left: missing, then 0; with the sum as it comes, or mended.
    for i in 0..best.len() {
        let words: Vec<Vec<u8>> = best[i].split(|b| *b == b' ').map(<[u8]>::to_vec).collect();
        if words[0] != b"load" || words.len() != 4 {
            continue;
        }
        let Some(mut bytes) = parse_hex(&words[3]) else { continue };
        let line = |bytes: &[u8]| {
            let mut l = [&words[0][..], &words[1], &words[2]].join(&b' ');
            put_hex(&mut l, bytes);
            l
        };
        // Records first, where a copy of the file for each of them is not too much.
        'records: while Instant::now() < until && bytes.len() <= 1 << 16 {
            for mut less in without_records(&bytes) {
                mend(&mut less);
                let mut lines = best.clone();
                lines[i] = line(&less);
                if Instant::now() < until && differs(replay, &lines) {
                    bytes = less;
                    best[i] = line(&bytes);
                    continue 'records;
                }
            }
            break;
        }
        for zero in [false, true] {
            let mut size = bytes.len().next_power_of_two() / 2;
            while size > 0 && Instant::now() < until {
                let mut at = 0;
                while at < bytes.len() && Instant::now() < until {
                    let end = (at + size).min(bytes.len());
                    let mut less = bytes.clone();
                    if zero {
                        if less[at..end].iter().all(|&b| b == 0) {
                            at += size;
                            continue;
                        }
                        less[at..end].fill(0);
                    } else {
                        less.drain(at..end);
                    }
                    let mut mended = less.clone();
                    mend(&mut mended);
                    let kept = [less, mended].into_iter().find(|b| {
                        let mut lines = best.clone();
                        lines[i] = line(b);
                        *b != bytes && differs(replay, &lines)
                    });
                    match kept {
                        Some(b) => {
                            bytes = b;
                            best[i] = line(&bytes);
                            if zero {
                                at += size;
                            }
                        }
                        None => at += size,
                    }
                }
                size /= 2;
            }
        }
    }
    best
}

pub fn differences(a: &Arguments) -> Result<(), String> {
    let (amount, replay) = (&a.rest[0], &a.rest[1]);
    let (seconds, count) = match amount.strip_suffix('s') {
        Some(n) => (Some(n.parse::<u64>().map_err(|e| e.to_string())?), u32::MAX),
        None => (None, amount.parse::<u32>().map_err(|e| e.to_string())?),
    };
    let began = Instant::now();
    let mut oracle = Oracle::counting();
    let (mut number, mut scripts, mut lines) = (0, Vec::new(), 0u64);
    while number < count && seconds.is_none_or(|s| began.elapsed() < Duration::from_secs(s)) {
        scripts.clear();
        number = batch(a, number, &mut scripts, |n, _, len| number + n >= count || len > 4 << 20);
        // Each side works on a thread of its own.
        let (ours, theirs) = std::thread::scope(|s| {
            let theirs = s.spawn(|| replayed(replay, &scripts));
            let ours = answers(&mut oracle, &scripts);
            (ours, theirs.join().unwrap_or_else(|_| Err("the other side's thread stopped".to_string())))
        });
        let (ours, (theirs, end)) = (ours?, theirs?);
        lines += ours.iter().filter(|b| **b == b'\n').count() as u64;
        if ours == theirs && end.is_none() {
            continue;
        }
        let ours = split(&ours);
        let theirs = split(&theirs);
        for (i, script) in split(&scripts).iter().enumerate() {
            let (x, y) = (ours.get(i).map(|l| join(l)), theirs.get(i).map(|l| join(l)));
            if x == y || x.as_ref().is_some_and(|x| x.windows(9).any(|w| w == b" outside\n")) {
                continue;
            }
            let script: Vec<Vec<u8>> = script.iter().map(|l| l.to_vec()).collect();
            let name = String::from_utf8_lossy(&script[0]).into_owned();
            if let Some((line, x, y)) = first_difference(&x.unwrap_or_default(), &y.unwrap_or_default()) {
                println!("{name} (seed {}), line {line} of its answers:\n  original {x}\n  replay   {y}", a.seed);
            }
            let alone = differs(replay, &script);
            let small = if alone { shrink(replay, script, Duration::from_secs(a.shrink)) } else { script };
            let script = join(&small);
            let (mut x, mut oracle) = (Vec::new(), Oracle::default());
            let _ = oracle.run(&script, &mut x);
            let (y, end) = replayed(replay, &script)?;
            println!("\nthe smallest script found:\n{}", String::from_utf8_lossy(&script));
            println!("original:\n{}\nreplay:\n{}", String::from_utf8_lossy(&x), String::from_utf8_lossy(&y));
            if let Some(end) = end {
                println!("{end}");
            }
            return Err("the two sides differ".to_string());
        }
        if let Some(end) = end {
            return Err(end);
        }
    }
    println!(
        "{number} scripts, {} calls, {} files, {lines} lines of answers: no difference ({:.0} s, seed {})",
        oracle.stats.calls(),
        oracle.stats.loads,
        began.elapsed().as_secs_f64(),
        a.seed
    );
    let Some(file) = &a.counts else { return Ok(()) };
    std::fs::write(file, tables(&oracle.stats)).map_err(|e| format!("{file}: {e}"))?;
    let mut missing = missing(&oracle.stats, a);
    missing.extend(missing_branches(&oracle.stats, a));
    if missing.is_empty() || a.unchecked { Ok(()) } else { Err(format!("never occurred: {}", missing.join(", "))) }
}
