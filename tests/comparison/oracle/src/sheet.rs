//! Coverage sheets, change request 2: random sheets over folders of files go through a model, written from the request's words, and through the program.
//! The original decides 20 to 38. A range that the key does not give is said to it by the file's twin.

use std::collections::{BTreeMap, BTreeSet};
use std::ffi::OsStr;
use std::fs;
use std::os::unix::ffi::OsStrExt;
use std::path::{Path, PathBuf};
use std::process::Command;

use crate::Arguments;
use crate::damage;
use crate::error::Slot;
use crate::file::{AreaNumbers, List, Reading, Shape, mend};
use crate::generate;
use crate::rng::Rng;
use crate::script::sizes;
use crate::seek::access;
use crate::text::sum_of;
use crate::toc::Area;
use crate::version4;

const MAX32: u64 = u32::MAX as u64;
const LINES: usize = 1000;
const LONGEST: usize = 65_536;

// ---- the model

/// Checkpoints, boundaries and held bytes, or the refusal's number.
type Row = Result<[u64; 3], u32>;

/// A name in the folder: a file's bytes, or a directory.
type Folder = BTreeMap<Vec<u8>, Option<Vec<u8>>>;

struct Line<'a> {
    name: &'a [u8],
    start: u64,
    end: u64,
}

/// The lines of an input: behind a last newline none begins.
fn lines(input: &[u8]) -> Vec<&[u8]> {
    let mut all: Vec<&[u8]> = input.split(|b| *b == b'\n').collect();
    if all.last().is_some_and(|l| l.is_empty()) {
        all.pop();
    }
    all.truncate(LINES);
    all
}

/// One to ten decimal digits.
fn decimal(word: &[u8]) -> Option<u64> {
    if word.is_empty() || word.len() > 10 || !word.iter().all(u8::is_ascii_digit) {
        return None;
    }
    Some(word.iter().fold(0, |v, d| 10 * v + u64::from(d - b'0')))
}

/// A line's name and range; None where it has another shape.
fn line_of(line: &[u8]) -> Option<Line<'_>> {
    let words: Vec<&[u8]> = line.split(|b| *b == b' ').collect();
    let [name, start, end] = words[..] else { return None };
    let named = (1..=255).contains(&name.len()) && !name.contains(&0);
    Some(Line { name, start: decimal(start)?, end: decimal(end)? }).filter(|_| named)
}

/// The file of a name; None where the name is not UTF-8, or the file cannot be read whole or is too long.
fn file_of<'a>(folder: &'a Folder, name: &[u8]) -> Option<&'a [u8]> {
    std::str::from_utf8(name).ok()?;
    let name = name.strip_prefix(b"./").unwrap_or(name);
    folder.get(name)?.as_deref().filter(|b| b.len() <= LONGEST)
}

fn four(b: &[u8], at: usize) -> u32 {
    u32::from_le_bytes([b[at], b[at + 1], b[at + 2], b[at + 3]])
}

/// The area whose key is the file's own; zeros where there is no header.
fn own_area(file: &[u8]) -> AreaNumbers {
    if file.len() < 32 {
        return AreaNumbers::new(0, 0, 0, 0, 0);
    }
    let image = u64::from(four(file, 24)) | u64::from(four(file, 28)) << 32;
    AreaNumbers::new(file[12], four(file, 16), four(file, 20), file[13], image)
}

/// The file with a key that gives this range. One whose sum is wrong stays as it is: 22 comes before the key.
fn twin(file: &[u8], start: u64, end: u64) -> Vec<u8> {
    let mut out = file.to_vec();
    let whole = file.len().checked_sub(8).filter(|n| *n >= 80);
    if whole.is_some_and(|n| sum_of(&file[..n]).to_le_bytes() == file[n..]) {
        out[16..20].copy_from_slice(&(start as u32).to_le_bytes());
        out[20..24].copy_from_slice(&(end.saturating_sub(1) as u32).to_le_bytes());
        out[24..32].copy_from_slice(&end.to_le_bytes());
        mend(&mut out);
    }
    out
}

/// 20 to 38 by the original under the file's own key: checkpoints, boundaries, held bytes.
fn by_original(file: &[u8]) -> Row {
    let a = own_area(file);
    let slot = if a.slot == 1 { Slot::Multichannel } else { Slot::TwoChannel };
    let area = Area::new(slot, a.key_start, a.key_end, a.channels);
    let ix = access::loaded(&area, a.image, file, u64::MAX)?;
    Ok([access::checkpoints(&ix) as u64, access::sizes(&ix).0 as u64, access::used(&ix) as u64])
}

/// All frame bytes of an accepted file.
fn held(file: &[u8]) -> u64 {
    let mut at = 80 + 24 * four(file, 36) as usize;
    let mut sum = 0;
    for _ in 0..four(file, 40) {
        let len = four(file, at + 4);
        sum += u64::from(len);
        at += 8 + len as usize;
    }
    sum
}

/// Question 1 on the range only, then 20 to 38.
fn row_of(file: &[u8], start: u64, end: u64) -> Row {
    if start > end || end > MAX32 {
        return Err(1);
    }
    let row = by_original(&twin(file, start, end));
    let own = own_area(file);
    if (own.start, own.end) == (start, end) {
        assert_eq!(row, by_original(file), "a file and its twin differ");
    }
    let judged = version4::judge(&AreaNumbers { start, end, ..own }, file);
    assert_eq!(row.err(), judged.err(), "the model of loading and the original differ");
    let [checkpoints, boundaries, used] = row?;
    let numbers = [u64::from(four(file, 36)), (end - start).div_ceil(u64::from(four(file, 32))), held(file)];
    assert_eq!([checkpoints, boundaries, used], numbers, "the file's numbers and the original's differ");
    Ok(numbers)
}

/// In ten-thousandths, rounded down.
fn coverage(checkpoints: u64, boundaries: u64) -> u64 {
    if boundaries == 0 { 10_000 } else { checkpoints * 10_000 / boundaries }
}

fn put_row(out: &mut Vec<u8>, name: &[u8], row: &Row) {
    out.extend_from_slice(name);
    let words = match row {
        Ok([n, b, h]) => format!(" {n} {b} {h} {}\n", coverage(*n, *b)),
        Err(no) => format!(" refused {no}\n"),
    };
    out.extend_from_slice(words.as_bytes());
}

/// A line's name as it is printed, and its row: 46, 45, 1, 20 to 38.
fn answer<'a>(folder: &Folder, line: &'a [u8]) -> (&'a [u8], Row) {
    let Some(l) = line_of(line) else { return (b"-", Err(46)) };
    let Some(file) = file_of(folder, l.name) else { return (l.name, Err(45)) };
    (l.name, row_of(file, l.start, l.end))
}

/// The rows of an input, and what is to be printed.
fn sheet(folder: &Folder, input: &[u8]) -> (Vec<Row>, Vec<u8>) {
    let (mut rows, mut out, mut total) = (Vec::new(), Vec::new(), [0; 3]);
    for line in lines(input) {
        let (name, row) = answer(folder, line);
        put_row(&mut out, name, &row);
        for (t, v) in total.iter_mut().zip(row.unwrap_or_default()) {
            *t += v;
        }
        rows.push(row);
    }
    put_row(&mut out, b"total", &Ok(total));
    (rows, out)
}

// ---- random sheets

type Break = (&'static str, fn(&mut Rng, &[u8], u64, u64) -> Vec<u8>);

fn joined(name: &[u8], rest: String) -> Vec<u8> {
    [name, rest.as_bytes()].concat()
}

/// Each way in which a line has another shape.
const SHAPES: [Break; 22] = [
    ("empty", |_, _, _, _| Vec::new()),
    ("one word", |_, n, _, _| n.to_vec()),
    ("two words", |_, n, s, _| joined(n, format!(" {s}"))),
    ("four words", |_, n, s, e| joined(n, format!(" {s} {e} {e}"))),
    ("two spaces before the start", |_, n, s, e| joined(n, format!("  {s} {e}"))),
    ("two spaces before the end", |_, n, s, e| joined(n, format!(" {s}  {e}"))),
    ("a space at its front", |_, n, s, e| [b" ", n, format!(" {s} {e}").as_bytes()].concat()),
    ("a space at its end", |_, n, s, e| joined(n, format!(" {s} {e} "))),
    ("no name", |_, _, s, e| joined(b"", format!(" {s} {e}"))),
    ("no end", |_, n, s, _| joined(n, format!(" {s} "))),
    ("CR at its end", |_, n, s, e| joined(n, format!(" {s} {e}\r"))),
    ("a tab for a space", |_, n, s, e| joined(n, format!("\t{s} {e}"))),
    ("a sign before the start", |r, n, s, e| joined(n, format!(" {}{s} {e}", r.pick(&['+', '-'])))),
    ("a sign before the end", |r, n, s, e| joined(n, format!(" {s} {}{e}", r.pick(&['+', '-'])))),
    ("eleven digits of the start", |_, n, s, e| joined(n, format!(" {s:011} {e}"))),
    ("eleven digits of the end", |_, n, s, e| joined(n, format!(" {s} {e:011}"))),
    ("twenty digits", |_, n, s, e| joined(n, format!(" {s} {:020}", e + (1 << 32)))),
    ("no digit", |r, n, s, e| joined(n, format!(" {s} {e}{}", r.pick(&['a', '/', ':', '.', '\0'])))),
    ("a zero byte in the name", |_, n, s, e| joined(n, format!("\0 {s} {e}"))),
    ("a name of 256 bytes", |_, _, s, e| joined(&[b'n'; 256], format!(" {s} {e}"))),
    ("a longer name", |r, _, s, e| joined(&vec![b'n'; r.range(257, 5000) as usize], format!(" {s} {e}"))),
    ("100,000 bytes", |r, n, s, e| joined(n, format!(" {s} {}{e}", "0".repeat(100_000 + r.below(3) as usize)))),
];

fn name(rng: &mut Rng, i: usize) -> Vec<u8> {
    match rng.below(12) {
        0 | 1 => [&[b'n'; 252][..], format!("{i:03}").as_bytes()].concat(),
        2 => format!("-f{i}").into_bytes(),
        3 => format!("tab\t{i}").into_bytes(),
        4 => [&[255, 195, 128][..], format!("{i}").as_bytes()].concat(),
        5 => format!("{i}\r").into_bytes(),
        6 => vec![b'A' + i as u8],
        7 => format!("{i}").into_bytes(),
        _ => format!("a{i}.sbx").into_bytes(),
    }
}

/// The list with frame bytes added, so that its file has this length; None where it has no frame or is longer.
fn filled(mut list: List, length: usize) -> Option<Vec<u8>> {
    let more = length.checked_sub(list.encode().bytes.len())?;
    let last = list.frames.last_mut().filter(|f| f.1.len() + more <= 65_536)?;
    last.1.resize(last.1.len() + more, 165);
    list.budget = list.budget.max(list.used());
    Some(list.encode().bytes)
}

/// A file, whole or broken; None: a directory.
fn entry(rng: &mut Rng, list: &List) -> Option<Vec<u8>> {
    let file = list.encode();
    match rng.below(24) {
        0 => None,
        1 => filled(list.clone(), LONGEST).or(Some(file.bytes)),
        2 => filled(list.clone(), LONGEST + 1).or(Some(vec![165; LONGEST + 1])),
        3..=11 => Some(damage::damaged(&file, rng).0),
        12 | 13 => Some(damage::reshaped(&file, rng).0),
        _ => Some(file.bytes),
    }
}

fn folder(rng: &mut Rng) -> Folder {
    let mut out = Folder::new();
    while out.len() < 3 || rng.chance(5, 6) && out.len() < 12 {
        let small = !rng.chance(1, 40);
        let mut shape = generate::shape(rng, small);
        if rng.chance(1, 200) {
            shape = Shape { boundaries: rng.range(2600, 2720), k: 1, under: 0, frame_bytes: 0, malformed: 0 };
        }
        let mut reading = Reading::random(rng, shape);
        reading.free_digests(rng);
        let mut list = generate::list(rng, &reading, sizes().most as u64);
        if rng.chance(1, 8) {
            list.lengthen(rng);
        }
        out.insert(name(rng, out.len()), entry(rng, &list));
    }
    out
}

/// A range for the file: mostly that of its key.
fn range(rng: &mut Rng, own: (u64, u64)) -> (u64, u64) {
    let (start, end) = own;
    match rng.below(24) {
        0 => (start, end + rng.below(300)),
        1 => (start, end.saturating_sub(1)),
        2 => (start + 1, end),
        3 => (start.saturating_sub(rng.below(100)), end),
        4 => (start, start),
        5 => (end + 1, start),
        6 => (start, MAX32),
        7 => (start, MAX32 + 1),
        8 => (0, MAX32),
        9 => (rng.below(10_000_000_000), rng.below(10_000_000_000)),
        10 => (u64::from(rng.extreme()), u64::from(rng.extreme())),
        _ => own,
    }
}

/// A line of the right shape.
fn right(rng: &mut Rng, name: &[u8], (start, end): (u64, u64)) -> Vec<u8> {
    let mut digits = || if rng.chance(3, 4) { 1 } else { rng.range(1, 10) as usize };
    let (s, e) = (digits(), digits());
    joined(name, format!(" {start:0s$} {end:0e$}"))
}

fn line(rng: &mut Rng, folder: &Folder, counts: &mut Counts) -> Vec<u8> {
    let names: Vec<&Vec<u8>> = folder.keys().collect();
    let mut name = rng.pick(&names).to_vec();
    let own = folder[&name].as_deref().map_or((0, 9), |f| (own_area(f).start, own_area(f).end));
    let (start, end) = range(rng, own);
    match rng.below(40) {
        0..=4 => {
            let (way, shape) = rng.pick(&SHAPES);
            let out = shape(rng, &name, start, end);
            assert!(line_of(&out).is_none(), "the generator's way \"{way}\" broke no rule");
            counts.add(format!("46: {way}"));
            return out;
        }
        5 => name = format!("missing{}", rng.below(9)).into_bytes(),
        6 if name.len() < 250 => name.splice(0..0, *b"./").for_each(drop),
        _ => {}
    }
    right(rng, &name, (start, end))
}

/// Lines with a newline behind each; the last mostly has it.
fn input(rng: &mut Rng, folder: &Folder, counts: &mut Counts) -> Vec<u8> {
    let count = match rng.below(60) {
        0 | 1 => 0,
        2 => rng.range(995, 1005),
        3 => rng.range(1001, 1200),
        _ => rng.range(1, 40),
    };
    let (mut out, mut ignored) = (Vec::new(), Counts::default());
    for i in 0..count {
        out.extend(line(rng, folder, if i < LINES as u64 { &mut *counts } else { &mut ignored }));
        out.push(b'\n');
    }
    if rng.chance(1, 4) {
        out.pop();
    }
    out
}

// ---- what occurred, and what must

#[derive(Default)]
struct Counts(BTreeMap<String, u64>);

impl Counts {
    fn add(&mut self, name: impl Into<String>) {
        *self.0.entry(name.into()).or_default() += 1;
    }

    fn sheet(&mut self, folder: &Folder, input: &[u8], rows: &[Row]) {
        let all = input.split(|b| *b == b'\n').count();
        let mut seen = BTreeSet::new();
        let twice = lines(input).iter().filter_map(|l| line_of(l)).any(|l| !seen.insert(l.name));
        let of = [
            ("no input", input.is_empty()),
            ("a last line without newline", input.last().is_some_and(|b| *b != b'\n')),
            ("more than 1,000 lines", all > LINES + 1),
            ("no accepted file", rows.iter().all(|r| r.is_err())),
            ("a file twice", twice),
        ];
        of.iter().filter(|o| o.1).for_each(|o| self.add(format!("sheet: {}", o.0)));
        for (line, row) in lines(input).into_iter().zip(rows) {
            if let Some(l) = line_of(line) {
                self.row(folder, &l, row);
            }
            self.add(row.map_or_else(|n| format!("refused {n}"), |_| "accepted".to_string()));
        }
    }

    fn row(&mut self, folder: &Folder, l: &Line<'_>, row: &Row) {
        let file = file_of(folder, l.name).unwrap_or(&[]);
        let own = own_area(file);
        let held = folder.get(l.name);
        let of = match row {
            Ok([n, b, h]) => vec![
                (format!("accepted: version {}", version4::version(file)), true),
                ("accepted: held bytes".into(), *h > 0),
                ("accepted: no boundaries".into(), *b == 0),
                ("accepted: rounded down".into(), *b > 0 && n * 10_000 % b != 0),
                ("accepted: another range than the key's".into(), (own.start, own.end) != (l.start, l.end)),
                ("accepted: 65,536 bytes".into(), file.len() == LONGEST),
                ("accepted: a name of 255 bytes".into(), l.name.len() == 255),
            ],
            Err(1) => {
                vec![("1: start above end".into(), l.start > l.end), ("1: end above 32 bits".into(), l.start <= l.end)]
            }
            Err(45) => vec![
                ("45: missing".into(), l.name.starts_with(b"missing")),
                ("45: a directory".into(), held.is_some_and(|h| h.is_none())),
                ("45: 65,537 bytes".into(), held.is_some_and(|h| h.as_ref().is_some_and(|b| b.len() == LONGEST + 1))),
            ],
            Err(_) => vec![("20 to 38: another range than the key's".into(), (own.start, own.end) != (l.start, l.end))],
        };
        of.into_iter().filter(|o| o.1).for_each(|o| self.add(o.0));
    }

    /// What must occur and did not.
    fn missing(&self) -> Vec<String> {
        let numbers = (20..=38).filter(|n| *n != 26).chain([1, 45, 46]);
        let mut all: Vec<String> = numbers.map(|n| format!("refused {n}")).collect();
        all.extend(SHAPES.iter().map(|s| format!("46: {}", s.0)));
        all.extend((1..=4).map(|v| format!("accepted: version {v}")));
        let more = [
            "accepted: held bytes",
            "accepted: no boundaries",
            "accepted: rounded down",
            "accepted: another range than the key's",
            "accepted: 65,536 bytes",
            "accepted: a name of 255 bytes",
            "1: start above end",
            "1: end above 32 bits",
            "45: missing",
            "45: a directory",
            "45: 65,537 bytes",
            "20 to 38: another range than the key's",
            "sheet: no input",
            "sheet: a last line without newline",
            "sheet: more than 1,000 lines",
            "sheet: no accepted file",
            "sheet: a file twice",
        ];
        all.extend(more.map(String::from));
        all.retain(|n| !self.0.contains_key(n));
        all
    }
}

// ---- the program

/// A folder for the files, and the input beside it; both go with it.
struct Place(PathBuf);

impl Drop for Place {
    fn drop(&mut self) {
        let _ = fs::remove_dir_all(&self.0);
    }
}

fn write(place: &Path, folder: &Folder, input: &[u8]) -> std::io::Result<()> {
    let files = place.join("files");
    let _ = fs::remove_dir_all(&files);
    fs::create_dir_all(&files)?;
    for (name, entry) in folder {
        let path = files.join(OsStr::from_bytes(name));
        match entry {
            Some(bytes) => fs::write(path, bytes)?,
            None => fs::create_dir(path)?,
        }
    }
    fs::write(place.join("input"), input)
}

/// What the program prints in the folder for the input.
fn said(program: &Path, place: &Path) -> Result<Vec<u8>, String> {
    let input = fs::File::open(place.join("input")).map_err(|e| e.to_string())?;
    let run = Command::new(program).current_dir(place.join("files")).stdin(input).output();
    let run = run.map_err(|e| format!("cannot run {}: {e}", program.display()))?;
    if run.status.success() { Ok(run.stdout) } else { Err(format!("the program ended with {}", run.status)) }
}

/// The first row that differs, with its line and the line's file.
fn difference(folder: &Folder, input: &[u8], model: &[u8], said: &[u8]) -> String {
    let rows = |text: &[u8]| -> Vec<String> {
        text.split(|b| *b == b'\n').map(|l| String::from_utf8_lossy(l).into_owned()).collect()
    };
    let (m, s) = (rows(model), rows(said));
    let at = (0..m.len().max(s.len())).find(|&i| m.get(i) != s.get(i)).unwrap_or(0);
    let line = lines(input).get(at).copied().unwrap_or(b"");
    let file = line_of(line).and_then(|l| file_of(folder, l.name)).unwrap_or(&[]);
    let hex: String = file.iter().take(4096).map(|b| format!("{b:02x}")).collect();
    let none = "(nothing)".to_string();
    format!(
        "row {}\nline:    {}\nmodel:   {}\nprogram: {}\nfile, {} bytes: {hex}",
        at + 1,
        String::from_utf8_lossy(line),
        m.get(at).unwrap_or(&none),
        s.get(at).unwrap_or(&none),
        file.len()
    )
}

/// So many sheets through the model and the program, until the first difference.
pub fn compare(a: &Arguments) -> Result<(), String> {
    let count: u64 = a.rest[0].parse().map_err(|_| "COUNT is a number of sheets".to_string())?;
    let program = fs::canonicalize(&a.rest[1]).map_err(|e| format!("{}: {e}", a.rest[1]))?;
    let place = Place(std::env::temp_dir().join(format!("oracle-sheet-{}", std::process::id())));
    let (mut counts, mut rows) = (Counts::default(), 0);
    for i in 0..count {
        let mut rng = Rng::new(a.seed ^ (i << 20));
        let folder = folder(&mut rng);
        let input = input(&mut rng, &folder, &mut counts);
        let (answers, model) = sheet(&folder, &input);
        counts.sheet(&folder, &input, &answers);
        rows += answers.len();
        write(&place.0, &folder, &input).map_err(|e| format!("cannot write the folder: {e}"))?;
        let said = said(&program, &place.0).map_err(|e| format!("sheet {i} (seed {}): {e}", a.seed))?;
        if said != model {
            println!("sheet {i} (seed {}), {}", a.seed, difference(&folder, &input, &model, &said));
            return Err("the program and the model differ".to_string());
        }
    }
    let table: Vec<String> = counts.0.iter().map(|c| format!("| {} | {} |\n", c.0, c.1)).collect();
    if let Some(path) = &a.counts {
        fs::write(path, table.concat()).map_err(|e| format!("{path}: {e}"))?;
    }
    println!(
        "{count} sheets (seed {}), {rows} rows, {} of them accepted: no difference",
        a.seed,
        counts.0.get("accepted").unwrap_or(&0)
    );
    let missing = counts.missing();
    if missing.is_empty() || a.unchecked { Ok(()) } else { Err(format!("never occurred: {}", missing.join("; "))) }
}
