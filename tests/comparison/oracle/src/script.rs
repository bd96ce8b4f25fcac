//! Runs a script of calls on the original and writes the answers. tests/README.md fixes the text
//! of both.

use std::collections::{BTreeMap, BTreeSet};

use crate::audio::{AreaCursor, AreaKey, FrameKind, Warning};
use crate::error::{Error, Slot};
use crate::generate;
use crate::image::SECTOR_SIZE;
use crate::lent::{self, Nos, Raw};
use crate::sectors;
use crate::seek::access::{self, Twelve};
use crate::seek::{AreaIndex, Assembling, HintRecorder, IndexOptions, Recorder, first_record};
use crate::text::{Sum, parse_hex, parse_number, put, put_hex, put_sum, sum_of};
use crate::toc::Area;
use crate::version4::{twin, version};

/// Places that hold a list each.
pub const PLACES: usize = 4;
/// How large the tables are that both sides lend, and what a line may bring.
pub struct Sizes {
    /// Records in the tables of checkpoints, frames and parts of a place.
    pub boundaries: usize,
    /// Bytes in a place's store of frame bytes.
    pub store: usize,
    /// The largest M whose tables of hints (M + 262,144) and confirmations (M + 1) a place has; those of kind `large` have
    /// room for an M above 262,144, so that question 4 is asked of it.
    pub most: usize,
    /// The longest output that `save` lends.
    pub output: usize,
    /// The longest line, its newline included.
    pub line: usize,
    /// The most hints that one `add_hints` brings.
    pub given_hints: u32,
}

const USUAL: Sizes =
    Sizes { boundaries: 1024, store: 131_072, most: 16_384, output: 262_144, line: 532_480, given_hints: 4_096 };

/// The sizes of kinds `large`, `version4` and `long`.
const LARGE: Sizes = Sizes {
    boundaries: 65_536,
    store: 1_048_576,
    most: 262_600,
    output: 8_388_608,
    line: 16_777_216,
    given_hints: 65_537,
};

static LARGER: std::sync::atomic::AtomicBool = std::sync::atomic::AtomicBool::new(false);

/// From here on the tables are those of kinds `large`, `version4` and `long`.
pub fn enlarge() {
    LARGER.store(true, std::sync::atomic::Ordering::Relaxed);
}

pub fn sizes() -> &'static Sizes {
    if LARGER.load(std::sync::atomic::Ordering::Relaxed) { &LARGE } else { &USUAL }
}

/// The most malformed LSNs that one `absorb` brings.
pub const GIVEN_LSNS: u32 = 16_384;
/// The most bytes of a frame under assembly that one `record` brings.
pub const GIVEN_BYTES: usize = 65_537;

/// The refusal number of a text of the original.
pub fn number(error: &Error) -> u32 {
    let Error::InvalidArgument(text) = error;
    match *text {
        "seek index truncated" => 20,
        "not a seek index" => 21,
        "seek index checksum does not match" => 22,
        "seek index version not supported" => 23,
        "seek index slot invalid" => 24,
        "seek index flags invalid" => 25,
        "seek index of another area or image" => 26,
        "seek index interval invalid" => 27,
        "seek index reserved field not 0" => 28,
        "seek index inline budget above 4 GiB" => 29,
        "seek index counts invalid" => 30,
        "seek index checkpoint invalid" => 31,
        "seek index frame under assembly invalid" => 32,
        "seek index frame kind invalid" => 33,
        "seek index end state invalid" => 34,
        "seek index malformed LSNs invalid" => 35,
        "seek index hints invalid" => 36,
        "seek index confirmations invalid" => 37,
        "seek index has trailing bytes" => 38,
        "seek index of another area, image size or interval" => 41,
        "seek indexes of two images" => 42,
        "seek indexes differ" => 43,
        "cursor of another image than the seek index's" => 8,
        "cursor of another area, image size or seek interval" => 9,
        "cursor's checkpoints do not join the seek index" => 10,
        "cursor's checkpoints differ from the seek index" => 11,
        "cursor's end state differs from the seek index" => 11,
        "seek index of another disc (TOC differs)" => 15,
        "seek index interval must be 1 to 65536" => 2,
        _ => panic!("a text of the original without a number: {text}"),
    }
}

/// A place's area: the key's numbers and the derived range.
#[derive(Clone, Copy)]
struct Place7 {
    slot: u64,
    start: u32,
    end: u32,
    channels: u8,
    image: u64,
    range: (u64, u64),
}

impl Place7 {
    /// Question 1.
    fn refused(&self) -> bool {
        self.slot > 1 || self.range.0 > self.range.1 || self.range.1 > u64::from(u32::MAX)
    }

    fn area(&self) -> Area {
        let slot = if self.slot == 0 { Slot::TwoChannel } else { Slot::Multichannel };
        Area::new(slot, self.start, self.end, self.channels)
    }
}

#[derive(Default, Clone)]
struct Place {
    area: Option<Place7>,
    list: Option<AreaIndex>,
    cursor: Option<AreaCursor>,
    /// A recorder that is stopped, as the port holds it: the original holds none.
    stopped: Option<Box<Recorder>>,
}

/// What a call works on and asks 1 to 4 of.
#[derive(Clone, Copy)]
enum Object {
    List(usize),
    Recorder(usize),
    Hints,
}

use Object::{Hints, List, Recorder as Records};

/// A line `lend` or `edit`: place, table or block, length or byte or word, value.
type Line = (usize, usize, u64, u64);

/// What lines before the next call lend short and edit.
#[derive(Default, Clone)]
struct Pending {
    lent: Vec<Line>,
    edits: Vec<Line>,
}

/// Lines that are answered and are no calls.
pub const NO_CALLS: [&str; 5] = ["script", "area", "lend", "edit", "union"];

/// How often each answer occurred.
#[derive(Default)]
pub struct Stats {
    /// By command and number.
    pub answers: BTreeMap<(String, u64), u64>,
    /// Loads by the note above them and their number.
    pub notes: BTreeMap<(String, u64), u64>,
    /// Accepted loads, by version and by what the list is like and the limit did.
    pub accepted: BTreeMap<String, u64>,
    /// Accepted calls by what they did, of those that do more than one thing.
    pub branches: BTreeMap<(&'static str, &'static str), u64>,
    /// Refusals 20 and 28 of loads, by the place in the file that gave them.
    pub places: BTreeMap<&'static str, u64>,
    /// Calls over what lines lent or edited, by what that was.
    pub lent: BTreeMap<String, u64>,
    /// Accepted calls by what is large about their list afterwards.
    pub large: BTreeMap<String, u64>,
    /// Sectors by length and header byte, of the lengths of the table.
    pub sectors: BTreeSet<(usize, u8)>,
    /// Accepted files and saved lists, by what version 4 has to do with them.
    pub versions: BTreeMap<String, u64>,
    pub loads: u64,
}

impl Stats {
    /// Calls that were answered by a number.
    pub fn calls(&self) -> u64 {
        self.answers.iter().filter(|a| !NO_CALLS.contains(&a.0.0.as_str())).map(|a| a.1).sum()
    }
}

/// Where a file that was refused with 20 or 28 breaks the rule: for the counts only.
fn place_of(n: u32, b: &[u8]) -> &'static str {
    let Some(end) = b.len().checked_sub(8) else { return "20: fewer than 8 bytes" };
    let at = |i: usize| b.get(i..i + 4).map_or(0, |w| u32::from_le_bytes([w[0], w[1], w[2], w[3]]) as usize);
    if n == 28 {
        return match (at(52), at(68), b[14] & 1 == 0 && (at(64) != 0 || at(72) != 0 || at(76) != 0)) {
            (1.., ..) => "28: bytes 52 to 55",
            (0, 1.., _) => "28: bytes 68 to 71",
            (0, 0, true) => "28: end state of a list that is not complete",
            _ => "28: hint header",
        };
    }
    let mut i = 80 + 24 * at(36);
    for _ in 0..at(40) {
        if i + 8 > end {
            return "20: frame header";
        }
        i += 8 + at(i + 4);
        if i > end {
            return "20: frame bytes";
        }
    }
    i += 24 * at(44);
    if i > end {
        return "20: part";
    }
    i += 4 * at(48);
    if i > end {
        return "20: malformed LSN";
    }
    if i + 24 > end { "20: hint header" } else { "20: confirmation header" }
}

/// Some numbers of a file that is known to hold its sections.
pub struct Sections {
    pub version: u32,
    pub budget: u64,
    pub f: u32,
    pub most: Option<u32>,
    pub s: Option<u32>,
    pub c: Option<u32>,
    /// Where the confirmation header lies, or would.
    pub confirmations: usize,
}

pub fn sections(b: &[u8]) -> Sections {
    let at = |i: usize| b.get(i..i + 4).map_or(0, |w| u32::from_le_bytes([w[0], w[1], w[2], w[3]]));
    let mut i = 80 + 24 * at(36) as usize;
    for _ in 0..at(40) {
        i += 8 + at(i + 4) as usize;
    }
    i += 24 * at(44) as usize + 4 * at(48) as usize;
    let v = at(8);
    let (most, s) = if v >= 2 { (Some(at(i + 12)), Some(at(i + 16))) } else { (None, None) };
    let confirmations = i + 24 + 8 * s.unwrap_or(0) as usize;
    let c = (v >= 3).then(|| at(confirmations));
    Sections { version: v, budget: u64::from(at(56)), f: at(40), most, s, c, confirmations }
}

/// The number that a program with fault `wrong` answers.
fn wrong_number(wrong: u32, n: u32, b: &[u8]) -> u32 {
    match (wrong, n) {
        (1, 25) if b[15] != 0 => 28,
        (2, 29) if b[68..72] != [0; 4] => 28,
        (3, 37) => {
            let at = sections(b).confirmations + 4;
            if b[at..at + 4] != [0; 4] { 28 } else { n }
        }
        _ => n,
    }
}

#[derive(Default)]
pub struct Oracle {
    places: [Place; PLACES],
    hints: Option<Box<HintRecorder>>,
    pending: Pending,
    note: String,
    pub stats: Stats,
    pub count: bool,
    pub show: bool,
    /// A fault to try the generator and the driver with (tests/comparison/oracle/selftest), 0 for none.
    pub wrong: u32,
}

/// The words of a line, read one after the other.
#[derive(Clone)]
struct Words<'a>(std::slice::Split<'a, u8, fn(&u8) -> bool>);

impl<'a> Words<'a> {
    fn new(line: &'a [u8]) -> Self {
        Words(line.split((|b| *b == b' ') as fn(&u8) -> bool))
    }

    fn word(&mut self) -> Option<&'a [u8]> {
        self.0.next()
    }

    fn u64(&mut self) -> Option<u64> {
        parse_number(self.word()?)
    }

    fn u32(&mut self) -> Option<u32> {
        u32::try_from(self.u64()?).ok()
    }

    fn u8(&mut self) -> Option<u8> {
        u8::try_from(self.u64()?).ok()
    }

    fn place(&mut self) -> Option<usize> {
        usize::try_from(self.u64()?).ok().filter(|&p| p < PLACES)
    }

    fn hex(&mut self) -> Option<Vec<u8>> {
        parse_hex(self.word()?)
    }

    fn flag(&mut self) -> Option<bool> {
        match self.u64()? {
            0 => Some(false),
            1 => Some(true),
            _ => None,
        }
    }
}

/// What a call answers: nothing there to call it on, outside the comparison, or a number (0 for
/// accepted) and values.
enum Answer {
    None,
    Outside,
    Number(u32, Vec<u8>),
}

use Answer::{None as Nothing, Number, Outside};

fn name_of(command: &[u8]) -> String {
    String::from_utf8_lossy(command).into_owned()
}

fn accepted() -> Answer {
    Number(0, Vec::new())
}

impl Oracle {
    /// An oracle that counts its answers.
    pub fn counting() -> Self {
        Oracle { count: true, ..Default::default() }
    }

    /// Counts what a call did.
    fn branch(&mut self, call: &'static str, list: impl IntoIterator<Item = &'static str>) {
        for name in list {
            *self.stats.branches.entry((call, name)).or_default() += 1;
        }
    }

    /// Counts what a call named.
    fn count_names(&mut self, call: &'static str, names: Vec<&'static str>) {
        if self.count {
            self.branch(call, names.into_iter().filter(|n| !n.is_empty()));
        }
    }

    /// Runs one line; false where it is not a line of a script.
    pub fn line(&mut self, line: &[u8], out: &mut Vec<u8>) -> bool {
        if line.is_empty() || line.len() >= sizes().line {
            return false;
        }
        if line[0] == b'#' {
            if self.count {
                self.note = String::from_utf8_lossy(&line[1..]).trim().to_string();
            }
            return true;
        }
        let mut words = Words::new(line);
        let Some(command) = words.word() else { return false };
        // The lists, the recorder and the hint recorder shown after the answer.
        let (mut lists, mut recorder, mut hint_recorder): (Vec<usize>, Option<usize>, bool) = (Vec::new(), None, false);
        let Some(answer) = self.made(command, &mut words, &mut lists, &mut recorder, &mut hint_recorder) else {
            return false;
        };
        if words.word().is_some() {
            return false;
        }
        out.extend_from_slice(command);
        match answer {
            Nothing => out.extend_from_slice(b" none\n"),
            Outside => out.extend_from_slice(b" outside\n"),
            Number(n, values) => {
                put(out, u64::from(n));
                out.extend_from_slice(&values);
                out.push(b'\n');
                if self.count {
                    let name = String::from_utf8_lossy(command).into_owned();
                    *self.stats.answers.entry((name, u64::from(n))).or_default() += 1;
                    if n == 0 && sizes().boundaries > USUAL.boundaries {
                        self.count_large(&name_of(command), lists.first().copied());
                    }
                    if command == b"load" {
                        *self.stats.notes.entry((self.note.clone(), u64::from(n))).or_default() += 1;
                    }
                }
            }
        }
        for p in lists {
            self.put_list(p, out);
        }
        if let Some(p) = recorder {
            self.put_recorder(p, out);
        }
        if hint_recorder {
            out.extend_from_slice(b"hrec");
            match &self.hints {
                None => out.extend_from_slice(b" none"),
                Some(hr) => access::put_hint_recorder(out, hr),
            }
            out.push(b'\n');
        }
        true
    }

    /// Runs a whole script. Err: the number of the first line that is none.
    pub fn run(&mut self, script: &[u8], out: &mut Vec<u8>) -> Result<(), usize> {
        let body = script.strip_suffix(b"\n").unwrap_or(script);
        if body.is_empty() {
            return Ok(());
        }
        for (i, line) in body.split(|b| *b == b'\n').enumerate() {
            if !self.line(line, out) {
                return Err(i + 1);
            }
        }
        Ok(())
    }

    fn put_list(&self, p: usize, out: &mut Vec<u8>) {
        out.extend_from_slice(b"list");
        put(out, p as u64);
        match &self.places[p].list {
            None => out.extend_from_slice(b" none"),
            Some(ix) => {
                access::put_list(out, ix);
                if self.show {
                    eprint!("place {p}: {}", access::show_list(ix));
                }
            }
        }
        out.push(b'\n');
    }

    fn put_recorder(&self, p: usize, out: &mut Vec<u8>) {
        out.extend_from_slice(b"rec");
        put(out, p as u64);
        match &self.places[p].cursor {
            None => out.extend_from_slice(b" none"),
            Some(c) => match c.recorder() {
                None => put(out, 2),
                Some(r) => access::put_recorder(out, r),
            },
        }
        out.push(b'\n');
    }

    /// One line, with what the lines before lent and edited for it. None: the line is malformed.
    fn made(
        &mut self,
        command: &[u8],
        w: &mut Words<'_>,
        lists: &mut Vec<usize>,
        recorder: &mut Option<usize>,
        hint_recorder: &mut bool,
    ) -> Option<Answer> {
        match command {
            b"lend" => return self.lend(w),
            b"edit" => return self.edit(w),
            b"script" | b"area" => self.pending = Pending::default(),
            _ => {}
        }
        if self.pending.lent.is_empty() && self.pending.edits.is_empty() {
            return self.call(command, w, lists, recorder, hint_recorder);
        }
        let before = (self.places.clone(), self.hints.clone());
        let answer = self.call(command, &mut w.clone(), lists, recorder, hint_recorder);
        let refused = matches!(answer, Some(Number(1..=4, _)));
        if refused && self.count {
            // What the call would be refused with if nothing were lent or edited.
            let mut free = Oracle { places: before.0.clone(), hints: before.1.clone(), ..Oracle::default() };
            let later = free.call(command, &mut w.clone(), &mut Vec::new(), &mut None, &mut false);
            if let (Some(Number(n, _)), Some(Number(later @ 5.., _))) = (&answer, later) {
                let call = String::from_utf8_lossy(command);
                *self.stats.lent.entry(format!("{call}: {n} before {later}")).or_default() += 1;
            }
        }
        // A list that is edited and not refused is none that a call may work on.
        if !self.pending.edits.is_empty() && !refused && !matches!(answer, Some(Nothing) | None) {
            (self.places, self.hints) = before;
            return Some(Outside);
        }
        while w.word().is_some() {}
        if !matches!(answer, Some(Outside)) {
            self.pending = Pending::default();
        }
        answer
    }

    /// A table's length for the next call.
    fn lend(&mut self, w: &mut Words<'_>) -> Option<Answer> {
        let (p, t, n) = (w.place()?, w.u64()? as usize, w.u64()?);
        if n > *lent::rooms(sizes()).get(t)? as u64 {
            return None;
        }
        self.pending.lent.push((p, t, n, 0));
        Some(accepted())
    }

    /// A byte of a table or a word of a block for the next call, where 1, 2 or 4 is then no, or the block no head.
    fn edit(&mut self, w: &mut Words<'_>) -> Option<Answer> {
        let (p, t, at, v) = (w.place()?, w.u64()? as usize, w.u64()?, w.u64()?);
        let object = match t {
            lent::SEEN | lent::HINT_BLOCK => Hints,
            0..lent::RECORDS | lent::HEAD => List(p),
            lent::RECORDS..lent::SEEN | lent::BLOCK => Records(p),
            _ => return None,
        };
        let most = if t < lent::HEAD { lent::rooms(sizes())[t] as u64 } else { 24 };
        if at >= most || (t < lent::HEAD && v > 255) {
            return None;
        }
        if !self.there(object) {
            return Some(Nothing);
        }
        self.pending.edits.push((p, t, at, v));
        let no = if self.no_head(object) {
            Some(2)
        } else {
            self.nos(object, true).and_then(|nos| [0, 1, 3].into_iter().find(|&i| nos[i]))
        };
        let Some(no) = no else {
            self.pending.edits.pop();
            return Some(Outside);
        };
        if self.count {
            self.count_lent(format!("edit: {} by {}", no + 1, lent::edited_name(t, at)));
        }
        Some(accepted())
    }

    fn there(&self, object: Object) -> bool {
        match object {
            List(p) => self.places[p].list.is_some(),
            Records(p) => self.places[p].cursor.is_some(),
            Hints => self.hints.is_some(),
        }
    }

    /// The lengths of the tables from `first` to `end` of a place.
    fn lengths(&self, p: usize, first: usize, end: usize) -> Vec<usize> {
        let mut all = lent::rooms(sizes());
        for &(q, t, n, _) in &self.pending.lent {
            if q == p || t == lent::SEEN {
                all[t] = n as usize;
            }
        }
        all[first..end].to_vec()
    }

    /// The object with its edits; None where one of them is of a byte that no record has. The tables of the object begin at
    /// `first`, and its block is edited as `block`.
    fn edited(&self, mut raw: Raw, p: usize, first: usize, block: usize) -> Option<Raw> {
        for &(q, t, at, v) in &self.pending.edits {
            if q == p && t == block {
                raw.words[at as usize] = v;
            } else if q == p && (first..first + raw.tables.len()).contains(&t) {
                *raw.tables[t - first].get_mut(at as usize)? = v as u8;
            }
        }
        Some(raw)
    }

    /// Is the object's block no head? It is then refused with 3, before any question.
    fn no_head(&self, object: Object) -> bool {
        match object {
            List(p) => {
                let list = self.places[p].list.as_ref();
                let raw = list.and_then(|l| self.edited(access::raw_list(l), p, 0, lent::HEAD));
                raw.is_some_and(|raw| !raw.is_head(false))
            }
            Records(p) => {
                let raw = self.raw_recorder(p).and_then(|r| self.edited(r, p, lent::RECORDS, lent::BLOCK));
                raw.is_some_and(|raw| !raw.is_head(true))
            }
            Hints => {
                let words = self.pending.edits.iter().filter(|e| e.1 == lent::HINT_BLOCK && e.2 == 6);
                words.last().is_some_and(|e| e.3 > u64::from(u32::MAX))
            }
        }
    }

    /// Which of 1 to 4 an object fails; None where that cannot be told. `all`: in tables of the full length.
    fn nos(&self, object: Object, all: bool) -> Option<Nos> {
        let rooms = lent::rooms(sizes());
        let lengths = |p, a, b| if all { rooms[a..b].to_vec() } else { self.lengths(p, a, b) };
        let edits = !self.pending.edits.is_empty();
        match object {
            List(p) => {
                let raw = self.edited(access::raw_list(self.places[p].list.as_ref()?), p, 0, lent::HEAD)?;
                let holds = if edits && raw.area_passes() && raw.numbers_pass() { raw.list_holds()? } else { true };
                Some(lent::nos(&raw, false, &lengths(p, 0, lent::RECORDS), || holds))
            }
            Records(p) => {
                let raw = self.edited(self.raw_recorder(p)?, p, lent::RECORDS, lent::BLOCK)?;
                let holds = if edits && raw.area_passes() && raw.numbers_pass() { raw.recorder_holds()? } else { true };
                Some(lent::nos(&raw, true, &lengths(p, lent::RECORDS, lent::SEEN), || holds))
            }
            Hints => {
                let words = self.pending.edits.iter().filter(|e| e.1 == lent::HINT_BLOCK && e.2 == 6);
                let count = words.last().map_or(0, |e| e.3 as u32);
                let short = lengths(0, lent::SEEN, lent::HEAD)[0] < rooms[lent::SEEN];
                Some([false, false, short, count > 65_536])
            }
        }
    }

    fn raw_recorder(&self, p: usize) -> Option<Raw> {
        let place = &self.places[p];
        match (place.cursor.as_ref()?.recorder(), &place.stopped) {
            (Some(r), _) => Some(access::raw_recorder(r, false)),
            (None, Some(r)) => Some(access::raw_recorder(r, true)),
            (None, None) => panic!("a stopped recorder that is not known"),
        }
    }

    /// The first of 1 to 4 that is no, of several objects number by number.
    fn refused(&mut self, call: &str, objects: &[Object]) -> Option<Answer> {
        if self.pending.lent.is_empty() && self.pending.edits.is_empty() {
            return None;
        }
        if objects.iter().any(|&o| self.no_head(o)) {
            if self.count {
                self.count_lent(format!("{call}: no head"));
            }
            return Some(Number(3, Vec::new()));
        }
        let nos: Vec<Nos> = objects.iter().filter_map(|&o| self.nos(o, false)).collect();
        if self.count {
            self.count_nos(call, objects, &nos);
        }
        let n = (0..4).find(|&i| nos.iter().any(|x| x[i]))?;
        Some(Number(n as u32 + 1, Vec::new()))
    }

    /// Counts what is large about a list behind a call.
    fn count_large(&mut self, call: &str, p: Option<usize>) {
        let list = p.and_then(|p| self.places[p].list.as_ref());
        for what in list.map_or(Vec::new(), access::large) {
            *self.stats.large.entry(format!("{call}: {what}")).or_default() += 1;
        }
    }

    fn count_lent(&mut self, what: String) {
        *self.stats.lent.entry(what).or_default() += 1;
    }

    /// Counts which of 1 to 4 were no at once, and how the lent tables lie to what was needed.
    fn count_nos(&mut self, call: &str, objects: &[Object], nos: &[Nos]) {
        for x in nos {
            for (a, b) in (0..4).flat_map(|a| (a + 1..4).map(move |b| (a, b))) {
                if x[a] && x[b] && x[..a].iter().all(|no| !no) {
                    self.count_lent(format!("{call}: {} before {}", a + 1, b + 1));
                }
            }
        }
        let first = |x: &Nos| x.iter().position(|&no| no).map(|i| i + 1);
        if let [own, other] = nos {
            if let (Some(a), Some(b)) = (first(own), first(other)) {
                self.count_lent(format!("{call}: {a} of the own, {b} of the other"));
            }
            for (x, whose) in [(own, "own"), (other, "other")] {
                let alone = [own, other].iter().filter(|y| first(y).is_some()).count() == 1;
                if let (Some(n), true) = (first(x), alone) {
                    self.count_lent(format!("{call}: {n} of the {whose} alone"));
                }
            }
        }
        for (&object, x) in objects.iter().zip(nos) {
            if x[0] || x[1] {
                continue;
            }
            match object {
                List(p) => {
                    let raw =
                        self.places[p].list.as_ref().and_then(|l| self.edited(access::raw_list(l), p, 0, lent::HEAD));
                    let Some(raw) = raw else { continue };
                    self.count_seams(p, 0, &raw.needs(false), x[2]);
                }
                Records(p) => {
                    let raw = self.raw_recorder(p).and_then(|r| self.edited(r, p, lent::RECORDS, lent::BLOCK));
                    let Some(raw) = raw else { continue };
                    self.count_seams(p, lent::RECORDS, &raw.needs(true), x[2]);
                }
                Hints => self.count_seams(0, lent::SEEN, &[lent::rooms(sizes())[lent::SEEN] as u64], x[2]),
            }
        }
    }

    /// Counts lent tables that are exactly long enough, or a byte or a record short.
    fn count_seams(&mut self, p: usize, first: usize, needs: &[u64], short: bool) {
        for (q, t, n, _) in self.pending.lent.clone() {
            let Some(&need) = t.checked_sub(first).and_then(|i| needs.get(i)) else { continue };
            let width = lent::WIDTHS[t] as u64;
            let how = match (n == need, n + 1 == need, n + width == need) {
                (true, ..) if !short => "exactly long enough",
                (_, true, _) => "one byte short",
                (.., true) => "one record short",
                _ => continue,
            };
            if (q == p || t == lent::SEEN) && (n != need || need > 0) {
                let none = if t == 5 && need == 8 * 262_144 { ", M 0" } else { "" };
                self.count_lent(format!("{}{none}: {how}", lent::NAMES[t]));
            }
        }
    }

    /// Question 3 of a list that `new` or `load` makes in a place.
    fn too_large(&mut self, p: usize, ix: &AreaIndex) -> bool {
        let (boundaries, budget, most) = access::sizes(ix);
        let needs = lent::needs(boundaries as u64, budget as u64, most as u64);
        let short = !lent::long_enough(&needs, &self.lengths(p, 0, lent::RECORDS));
        if self.count && !self.pending.lent.is_empty() {
            self.count_seams(p, 0, &needs, short);
        }
        short
    }

    /// Counts a `new` or `load` that was refused before 3, where the tables are too short for any list.
    fn count_before(&mut self, call: &str, p: usize, n: u32) {
        if self.count && !lent::long_enough(&lent::needs(0, 0, 0), &self.lengths(p, 0, lent::RECORDS)) {
            self.count_lent(format!("{call}: {n} before 3"));
        }
    }

    /// One call. None: the line is malformed.
    fn call(
        &mut self,
        command: &[u8],
        w: &mut Words<'_>,
        lists: &mut Vec<usize>,
        recorder: &mut Option<usize>,
        hint_recorder: &mut bool,
    ) -> Option<Answer> {
        match command {
            b"script" => {
                let n = w.u32()?;
                self.places = Default::default();
                self.hints = None;
                Some(Number(n, Vec::new()))
            }
            b"area" => self.area(w),
            b"new" => {
                let p = w.place()?;
                lists.push(p);
                self.new_list(p, w)
            }
            b"load" => {
                let p = w.place()?;
                lists.push(p);
                self.load(p, w)
            }
            b"save" => self.save(w),
            b"reload" => {
                let (p, limit) = (w.place()?, w.u64()?);
                lists.push(p);
                self.reload(p, limit)
            }
            b"plan" => {
                let (p, frame) = (w.place()?, w.u32()?);
                if self.places[p].list.is_none() {
                    return Some(Nothing);
                }
                if let Some(no) = self.refused("plan", &[List(p)]) {
                    return Some(no);
                }
                let Some(ix) = &self.places[p].list else { return Some(Nothing) };
                let mut values = Vec::new();
                // Fault 8: a threshold equal to the frame does not serve.
                let frame = if self.wrong == 8 { frame.saturating_sub(1) } else { frame };
                access::put_plan(&mut values, ix, frame);
                if self.count {
                    let branch = access::plan_branch(ix, frame);
                    self.branch("plan", [branch]);
                }
                Some(Number(0, values))
            }
            b"plan_rule" => {
                let (p, frame) = (w.place()?, w.u32()?);
                if self.places[p].list.is_none() {
                    return Some(Nothing);
                }
                if let Some(no) = self.refused("plan_rule", &[List(p)]) {
                    return Some(no);
                }
                let Some(ix) = &self.places[p].list else { return Some(Nothing) };
                let (rule, names) = access::names::plan_rule(ix, frame);
                self.count_names("plan_rule", names);
                let mut values = Vec::new();
                put(&mut values, rule);
                Some(Number(0, values))
            }
            b"merge" => {
                let (p, q) = (w.place()?, w.place()?);
                if p == q {
                    return None;
                }
                lists.extend([p, q]);
                Some(self.merge(p, q))
            }
            b"union" => {
                let p = w.place()?;
                let n = w.u32().filter(|&n| n <= sizes().given_hints)?;
                let hints = (0..n).map(|_| Some((w.u32()?, w.u32()?))).collect::<Option<Vec<_>>>()?;
                let n = w.u32().filter(|&n| n <= sizes().given_hints)?;
                let confirmed = (0..n).map(|_| Some((w.u32()?, w.u32()?, w.u64()?))).collect::<Option<Vec<_>>>()?;
                let Some(ix) = &self.places[p].list else { return Some(Nothing) };
                let same = access::holds(ix, &hints, &confirmed);
                assert!(same || self.wrong != 0, "the original's hints or confirmations are not the union");
                Some(Number(u32::from(!same), Vec::new()))
            }
            b"fingerprint" => {
                let (p, v) = (w.place()?, w.u64()?);
                lists.push(p);
                if self.places[p].list.is_none() {
                    return Some(Nothing);
                }
                if let Some(no) = self.refused("fingerprint", &[List(p)]) {
                    return Some(no);
                }
                let Some(ix) = &mut self.places[p].list else { return Some(Nothing) };
                Some(Number(ix.bind_fingerprint(v).map_or_else(|e| number(&e), |()| 0), Vec::new()))
            }
            b"add_hints" => {
                let (p, n) = (w.place()?, w.u32().filter(|&n| n <= sizes().given_hints)?);
                let mut list = Vec::new();
                for _ in 0..n {
                    list.push((w.u32()?, w.u32()?));
                }
                lists.push(p);
                if self.places[p].list.is_none() {
                    return Some(Nothing);
                }
                if let Some(no) = self.refused("add_hints", &[List(p)]) {
                    return Some(no);
                }
                Some(self.add_hints(p, list))
            }
            b"confirm" => {
                let (p, lsn, u, digest) = (w.place()?, w.u64()?, w.u32()?, w.u64()?);
                lists.push(p);
                if self.places[p].list.is_none() {
                    return Some(Nothing);
                }
                if let Some(no) = self.refused("confirm", &[List(p)]) {
                    return Some(no);
                }
                let Some(ix) = &mut self.places[p].list else { return Some(Nothing) };
                let mut values = Vec::new();
                let branch = self.count.then(|| access::confirm_branch(ix, lsn, u, digest));
                Some(match access::confirm(ix, lsn, u, digest) {
                    None => Number(14, values),
                    Some(kept) => {
                        put(&mut values, u64::from(kept));
                        self.branch("confirm", branch);
                        Number(0, values)
                    }
                })
            }
            b"hint" => {
                let (p, first, end, playtime) = (w.place()?, w.u32()?, w.u32()?, w.u32()?);
                if self.places[p].list.is_none() {
                    return Some(Nothing);
                }
                if let Some(no) = self.refused("hint", &[List(p)]) {
                    return Some(no);
                }
                let Some(ix) = &self.places[p].list else { return Some(Nothing) };
                if end < first {
                    return Some(Number(16, Vec::new()));
                }
                let mut values = Vec::new();
                match ix.hint(first, end, playtime) {
                    None => put(&mut values, 0),
                    Some((lsn, t, upper, later)) => {
                        for v in [1, lsn, u64::from(t), upper, u64::from(later)] {
                            put(&mut values, v);
                        }
                    }
                }
                if self.count {
                    let branches = access::hint_branches(ix, first, end, playtime);
                    self.branch("hint", branches);
                }
                Some(Number(0, values))
            }
            b"hint_rule" => {
                let (p, first, end, playtime) = (w.place()?, w.u32()?, w.u32()?, w.u32()?);
                if self.places[p].list.is_none() {
                    return Some(Nothing);
                }
                if let Some(no) = self.refused("hint_rule", &[List(p)]) {
                    return Some(no);
                }
                let Some(ix) = &self.places[p].list else { return Some(Nothing) };
                if end < first {
                    return Some(Number(16, Vec::new()));
                }
                let (rules, names) = access::names::hint_rule(ix, first, end, playtime);
                self.count_names("hint_rule", names);
                let mut values = Vec::new();
                rules.into_iter().for_each(|v| put(&mut values, v));
                Some(Number(0, values))
            }
            b"recorder" => {
                let (p, from) = (w.place()?, w.u64()?);
                *recorder = Some(p);
                if self.places[p].list.is_none() {
                    return Some(Nothing);
                }
                if let Some(no) = self.refused("recorder", &[List(p)]) {
                    return Some(no);
                }
                let place = &mut self.places[p];
                let Some(ix) = &place.list else { return Some(Nothing) };
                place.stopped = Some(Box::new(access::stopped_recorder(ix, from)));
                place.cursor = Some(AreaCursor { recorder: ix.recorder(from), ..AreaCursor::default() });
                if self.count {
                    let stopped = place.cursor.as_ref().is_none_or(|c| c.recorder().is_none());
                    self.branch("recorder", [if stopped { "stopped, of a complete list" } else { "running" }]);
                }
                Some(accepted())
            }
            b"record" => {
                let p = w.place()?;
                *recorder = Some(p);
                self.record(p, w)
            }
            b"finish" => {
                let (p, thr, mal) = (w.place()?, w.u32()?, w.u64()?);
                *recorder = Some(p);
                if self.places[p].cursor.is_none() {
                    return Some(Nothing);
                }
                if let Some(no) = self.refused("finish", &[Records(p)]) {
                    return Some(no);
                }
                let Some(c) = &mut self.places[p].cursor else { return Some(Nothing) };
                let Some(r) = c.recorder_mut() else { return Some(Number(5, Vec::new())) };
                let n = access::refuses_finish(r, thr, mal);
                if n == 0 {
                    r.finish(thr, mal);
                }
                Some(Number(n, Vec::new()))
            }
            b"absorb" => {
                let (p, q, known, id) = (w.place()?, w.place()?, w.flag()?, w.u64()?);
                let n = w.u32().filter(|&n| n <= GIVEN_LSNS)?;
                let mut list = Vec::new();
                for _ in 0..n {
                    list.push(w.u32()?);
                }
                lists.push(p);
                *recorder = Some(q);
                Some(self.absorb(p, q, known.then_some(id), list))
            }
            b"first_record" => {
                let bytes = w.hex()?;
                let mut values = Vec::new();
                match first_record(&bytes) {
                    None => put(&mut values, 0),
                    Some(t) => {
                        put(&mut values, 1);
                        put(&mut values, u64::from(t));
                    }
                }
                if self.count {
                    self.branch("first_record", [if values == b" 0" { "none" } else { "a number" }]);
                }
                Some(Number(0, values))
            }
            b"first_bytes" => {
                let bytes = w.hex()?;
                Some(Number(0, self.first_bytes("first_bytes", &bytes)))
            }
            b"see_first" => {
                let (lsn, bytes) = (w.u64()?, w.hex()?);
                *hint_recorder = true;
                self.see_first(lsn, &bytes)
            }
            b"hint_recorder" => {
                let p = w.place()?;
                *hint_recorder = true;
                if self.places[p].list.is_none() {
                    return Some(Nothing);
                }
                if let Some(no) = self.refused("hint_recorder", &[List(p)]) {
                    return Some(no);
                }
                let Some(ix) = &self.places[p].list else { return Some(Nothing) };
                self.hints = ix.hint_recorder();
                if self.count {
                    let none = self.hints.is_none();
                    self.branch("hint_recorder", [if none { "none, no hints kept" } else { "made" }]);
                }
                Some(accepted())
            }
            b"see" | b"see_bytes" => {
                let (lsn, bytes) = (w.u64()?, w.hex()?);
                *hint_recorder = true;
                if command == b"see" && bytes.len() > SECTOR_SIZE {
                    return None;
                }
                self.see(command, lsn, &bytes)
            }
            b"see_many" => {
                let (n, lsn, step, t, rise) = (w.u32().filter(|&n| n > 0)?, w.u64()?, w.u64()?, w.u32()?, w.u32()?);
                *hint_recorder = true;
                if t >= access::LIM || rise >= access::LIM {
                    return None;
                }
                self.see_many(n, lsn, step, t, rise)
            }
            b"flush" => {
                *hint_recorder = true;
                if self.hints.is_none() {
                    return Some(Nothing);
                }
                if let Some(no) = self.refused("flush", &[Hints]) {
                    return Some(no);
                }
                let Some(hr) = &mut self.hints else { return Some(Nothing) };
                access::wrong_flush(self.wrong, hr);
                let branch = self.count.then(|| access::flush_branch(hr));
                hr.flush();
                self.branch("flush", branch);
                Some(accepted())
            }
            b"take" => {
                let p = w.place()?;
                lists.push(p);
                *hint_recorder = true;
                if self.hints.is_none() || self.places[p].list.is_none() {
                    return Some(Nothing);
                }
                if let Some(no) = self.refused("take", &[Hints]) {
                    return Some(no);
                }
                let no = self.refused("take", &[List(p)]);
                let Some(hr) = &mut self.hints else { return Some(Nothing) };
                let Some(ix) = &self.places[p].list else { return Some(Nothing) };
                if no.is_none() && access::hints_clash(ix, &hr.list) {
                    return Some(Outside);
                }
                let list = hr.take();
                // The hints are taken, and the list does not take them.
                if no.is_some() {
                    return no;
                }
                let mut values = Vec::new();
                access::put_pairs(&mut values, &list);
                match self.add_hints(p, list) {
                    Number(0, _) => Some(Number(0, values)),
                    _ => panic!("hints of a hint recorder were refused"),
                }
            }
            _ => None,
        }
    }

    fn area(&mut self, w: &mut Words<'_>) -> Option<Answer> {
        let p = w.place()?;
        let (slot, start, end, channels, image) = (w.u64()?, w.u32()?, w.u32()?, w.u8()?, w.u64()?);
        let range = (w.u64()?, w.u64()?);
        if slot > 255 {
            return None;
        }
        let a = Place7 { slot, start, end, channels, image, range };
        // The range a script names is the one that the original derives, by both its functions.
        let area = a.area();
        if crate::audio::audio_sector_range(&area, image) != range
            || AreaKey::new(&area, image).audio_sector_range() != range
        {
            return None;
        }
        self.places[p] = Place { area: Some(a), ..Place::default() };
        Some(accepted())
    }

    fn new_list(&mut self, p: usize, w: &mut Words<'_>) -> Option<Answer> {
        let (interval, budget, spacing, most) = (w.u32()?, w.u64()?, w.u32()?, w.u64()?);
        let Some(a) = self.places[p].area else { return Some(Nothing) };
        if a.refused() {
            self.count_before("new", p, 1);
            return Some(Number(1, Vec::new()));
        }
        let options = IndexOptions::new()
            .with_interval(interval)
            .with_inline_budget(usize::try_from(budget).ok()?)
            .with_hints(spacing, usize::try_from(most).ok()?);
        let made = AreaIndex::new(&a.area(), a.image, options);
        if made.is_err() || budget > u64::from(u32::MAX) {
            self.count_before("new", p, 2);
        }
        Some(match made {
            Err(e) => Number(number(&e), Vec::new()),
            Ok(_) if budget > u64::from(u32::MAX) => Number(2, Vec::new()),
            Ok(mut ix) => {
                access::raise(&mut ix, most);
                if self.too_large(p, &ix) {
                    return Some(Number(3, Vec::new()));
                }
                self.places[p].list = Some(ix);
                accepted()
            }
        })
    }

    fn load(&mut self, p: usize, w: &mut Words<'_>) -> Option<Answer> {
        let (limit, bytes) = (w.u64()?, w.hex()?);
        let Some(a) = self.places[p].area else { return Some(Nothing) };
        self.stats.loads += 1;
        if a.refused() {
            self.count_before("load", p, 1);
            return Some(Number(1, Vec::new()));
        }
        let found = access::loaded(&a.area(), a.image, &bytes, limit);
        if self.count && version(&bytes) == 4 {
            let judge = if twin(&bytes).is_some() { "with a twin" } else { "by the model alone" };
            *self.stats.versions.entry(format!("load: a file of version 4, {judge}")).or_default() += 1;
        }
        Some(match found {
            Err(n) => {
                let n = wrong_number(self.wrong, n, &bytes);
                if self.wrong == 14 {
                    self.places[p].list = None;
                }
                if self.count && (n == 20 || n == 28) {
                    *self.stats.places.entry(place_of(n, &bytes)).or_default() += 1;
                }
                self.count_before("load", p, n);
                Number(n, Vec::new())
            }
            Ok(mut ix) => {
                if self.count {
                    self.count_accepted(&ix, &bytes);
                }
                if self.wrong != 0 && access::wrong_load(self.wrong, &mut ix, &sections(&bytes), &bytes) {
                    return Some(Number(32, Vec::new()));
                }
                if self.too_large(p, &ix) {
                    return Some(Number(3, Vec::new()));
                }
                self.places[p].list = Some(ix);
                accepted()
            }
        })
    }

    /// Counts the kind of an accepted file.
    fn count_accepted(&mut self, ix: &AreaIndex, bytes: &[u8]) {
        let file = sections(bytes);
        let (version, f) = (file.version, file.f);
        self.count_version(ix, &file, bytes);
        let (most, s, c) = (file.most, file.s, file.c);
        let budget = file.budget;
        let did = access::limited(ix, budget, f, most, s, c);
        let mut add = |name: &str| *self.stats.accepted.entry(name.to_string()).or_default() += 1;
        add(&format!("version {version}"));
        let names = [
            "limit lowers the budget",
            "limit drops frames",
            "limit lowers M",
            "limit thins hints",
            "limit drops confirmations",
        ];
        for (name, did) in names.iter().zip(did) {
            if did {
                add(name);
            }
        }
        if did == [false; 5] {
            add("limit takes nothing");
            // Each accepted file is the saved form of its list.
            assert!(access::saved(ix) == bytes, "an accepted file does not save as itself");
        }
        for kind in access::kinds(ix).split(',') {
            add(kind);
        }
    }

    /// Counts an accepted file of version 4.
    fn count_version(&mut self, ix: &AreaIndex, file: &Sections, bytes: &[u8]) {
        if file.version != 4 {
            return;
        }
        let flag = bytes[14] & 2 != 0;
        let what = match (flag, file.c) {
            (false, _) => "without the flag",
            (true, Some(0)) => "with the flag, no confirmation",
            _ => "with confirmations",
        };
        for name in [format!("load: {what}"), format!("load: then saved as version {}", version(&access::saved(ix)))] {
            *self.stats.versions.entry(name).or_default() += 1;
        }
    }

    fn save(&mut self, w: &mut Words<'_>) -> Option<Answer> {
        let (p, len) = (w.place()?, usize::try_from(w.u64()?).ok().filter(|&n| n <= sizes().output)?);
        if self.places[p].list.is_none() {
            return Some(Nothing);
        }
        let no = self.refused("save", &[List(p)]);
        let Some(ix) = &self.places[p].list else { return Some(Nothing) };
        let bytes = access::saved(ix);
        let mut output = vec![0xa5u8; len];
        let mut values = Vec::new();
        let n = match no {
            Some(Number(n, _)) => n,
            _ if bytes.len() > len => 40,
            _ => 0,
        };
        if n == 0 && self.count {
            *self.stats.versions.entry(format!("save: version {}", version(&bytes))).or_default() += 1;
        }
        if n == 0 {
            output[..bytes.len()].copy_from_slice(&bytes);
            if self.wrong == 10 {
                output[bytes.len()..].fill(0);
            }
            put(&mut values, bytes.len() as u64);
            put(&mut values, sum_of(&bytes));
            put_hex(&mut values, &bytes[..16]);
            put_hex(&mut values, &bytes[bytes.len() - 16..]);
        }
        // The whole output: a refusal leaves it as it was, and an accepted call what lies behind.
        let mut sum = Sum::new();
        sum.bytes(&output);
        put_sum(&mut values, len, &sum);
        Some(Number(n, values))
    }

    /// A save into the longest output, and a load of exactly these bytes in the same place.
    fn reload(&mut self, p: usize, limit: u64) -> Option<Answer> {
        if self.places[p].list.is_none() {
            return Some(Nothing);
        }
        if let Some(no) = self.refused("reload", &[List(p)]) {
            return Some(no);
        }
        let Some(ix) = &self.places[p].list else { return Some(Nothing) };
        let a = self.places[p].area?;
        let bytes = access::saved(ix);
        if bytes.len() > sizes().output {
            return Some(Number(40, Vec::new()));
        }
        match access::loaded(&a.area(), a.image, &bytes, limit) {
            Err(n) => panic!("a saved list does not load: {n}"),
            Ok(new) => {
                if self.count {
                    let (before, after) = (version(&bytes), version(&access::saved(&new)));
                    *self.stats.versions.entry(format!("reload: version {before}, then {after}")).or_default() += 1;
                }
                self.places[p].list = Some(new);
            }
        }
        Some(accepted())
    }

    fn merge(&mut self, p: usize, q: usize) -> Answer {
        if self.places[p].list.is_none() || self.places[q].list.is_none() {
            return Nothing;
        }
        if let Some(no) = self.refused("merge", &[List(p), List(q)]) {
            return no;
        }
        let (Some(own), Some(other)) = (&self.places[p].list, &self.places[q].list) else { return Nothing };
        match access::merged(own, other) {
            Err(e) => Number(number(&e), Vec::new()),
            Ok(_) if access::hints_clash(own, access::samples(other)) => Outside,
            Ok(mut new) => match access::loadable(&new) {
                Ok(()) => {
                    let branches = if self.count { access::merge_branches(own, other) } else { Vec::new() };
                    access::wrong_merge(self.wrong, &mut new, own, other);
                    self.branch("merge", branches);
                    self.places[p].list = Some(new);
                    accepted()
                }
                // Only a part that 01's added test passes over.
                Err(32) => Outside,
                Err(n) => panic!("a merged list does not load: {n}"),
            },
        }
    }

    fn add_hints(&mut self, p: usize, list: Vec<(u32, u32)>) -> Answer {
        let Some(ix) = &mut self.places[p].list else { return Nothing };
        if access::refuses_hints(&list) {
            return Number(13, Vec::new());
        }
        if access::hints_clash(ix, &list) {
            return Outside;
        }
        let branch = if self.count { access::hint_list_branch(ix, &list).or(Some("no hint")) } else { None };
        for what in if self.count { access::large_hints(ix, &list, branch) } else { Vec::new() } {
            *self.stats.large.entry(format!("add_hints: {what}")).or_default() += 1;
        }
        access::add_hints(ix, list);
        self.branch("add_hints", branch);
        accepted()
    }

    /// A sector of 2,048 bytes that begins with these, or of these alone: where the original takes no such sector, its
    /// first record says whether it is seen.
    fn see(&mut self, command: &[u8], lsn: u64, bytes: &[u8]) -> Option<Answer> {
        if self.hints.is_none() {
            return Some(Nothing);
        }
        let call = if command == b"see" { "see" } else { "see_bytes" };
        if let Some(no) = self.refused(call, &[Hints]) {
            return Some(no);
        }
        let Some(hr) = &mut self.hints else { return Some(Nothing) };
        let mut sector = [0u8; SECTOR_SIZE];
        let n = bytes.len().min(SECTOR_SIZE);
        sector[..n].copy_from_slice(&bytes[..n]);
        if command == b"see_bytes" && first_record(bytes).is_none() {
            self.branch("see_bytes", [if bytes.len() < 3 { "no number, few bytes" } else { "no number" }]);
            return Some(accepted());
        }
        let branch = self.count.then(|| access::see_branch(hr, lsn, &sector));
        hr.see(lsn, &sector);
        self.branch(call, branch);
        Some(accepted())
    }

    /// What a sector's first record tells, by the model; its number is the original's.
    fn first_bytes(&mut self, call: &'static str, bytes: &[u8]) -> Vec<u8> {
        let (told, name) = sectors::first_bytes(bytes);
        let number = (told[0] == 1).then_some(told[1]);
        assert_eq!(first_record(bytes).map(u64::from), number, "the model's number is not the original's");
        if self.count {
            self.branch(call, [name]);
            if call == "first_bytes" && bytes.len() <= generate::sectors::TABLE {
                // An empty sector has no header byte: it stands for all.
                let headers = bytes.first().map_or(0..=255, |h| *h..=*h);
                self.stats.sectors.extend(headers.map(|h| (bytes.len(), h)));
            }
        }
        let mut values = Vec::new();
        told.iter().for_each(|v| put(&mut values, *v));
        values
    }

    /// `see_bytes`, and what was passed through.
    fn see_first(&mut self, lsn: u64, bytes: &[u8]) -> Option<Answer> {
        if self.hints.is_none() {
            return Some(Nothing);
        }
        if let Some(no) = self.refused("see_first", &[Hints]) {
            return Some(no);
        }
        let values = self.first_bytes("see_first", bytes);
        let Some(hr) = &mut self.hints else { return Some(Nothing) };
        if first_record(bytes).is_some() {
            let mut sector = [0u8; SECTOR_SIZE];
            let n = bytes.len().min(SECTOR_SIZE);
            sector[..n].copy_from_slice(&bytes[..n]);
            let branch = self.count.then(|| access::see_branch(hr, lsn, &sector));
            hr.see(lsn, &sector);
            self.branch("see_first", branch);
        }
        Some(Number(0, values))
    }

    /// Sectors of rising LSNs and numbers, one after the other.
    fn see_many(&mut self, n: u32, lsn: u64, step: u64, t: u32, rise: u32) -> Option<Answer> {
        if self.hints.is_none() {
            return Some(Nothing);
        }
        if let Some(no) = self.refused("see_many", &[Hints]) {
            return Some(no);
        }
        let Some(hr) = &mut self.hints else { return Some(Nothing) };
        let (mut lsn, mut t, mut branches) = (lsn, u64::from(t), Vec::new());
        for _ in 0..n {
            let a = (t / 4500).min(255);
            let b = ((t - 4500 * a) / 75).min(255);
            let mut sector = [0u8; SECTOR_SIZE];
            sector[..4].copy_from_slice(&[4, a as u8, b as u8, (t - 4500 * a - 75 * b) as u8]);
            let branch = access::see_branch(hr, lsn, &sector);
            if self.count && !branches.contains(&branch) {
                branches.push(branch);
            }
            hr.see(lsn, &sector);
            lsn = lsn.wrapping_add(step);
            t = (t + u64::from(rise)) % u64::from(access::LIM);
        }
        self.branch("see_many", branches);
        Some(accepted())
    }

    fn record(&mut self, p: usize, w: &mut Words<'_>) -> Option<Answer> {
        let (lsn, thr, mal) = (w.u64()?, w.u32()?, w.u64()?);
        let (len, fill) = (usize::try_from(w.u64()?).ok().filter(|&n| n <= 4096)?, w.u8()?);
        let frame = if w.flag()? {
            let (start, number) = (w.u64()?, w.u32()?);
            let kind = if w.flag()? { FrameKind::Dsd } else { FrameKind::Dst };
            Some((start, number, kind, w.u32()? as i32, w.hex().filter(|b| b.len() <= GIVEN_BYTES)?))
        } else {
            None
        };
        if self.places[p].cursor.is_none() {
            return Some(Nothing);
        }
        if let Some(no) = self.refused("record", &[Records(p)]) {
            return Some(no);
        }
        let Some(c) = &mut self.places[p].cursor else { return Some(Nothing) };
        let Some(r) = c.recorder_mut() else { return Some(Number(5, Vec::new())) };
        let n = access::refuses_record(self.wrong, r, lsn, thr, mal, frame.as_ref().map(|f| (f.0, f.1)), len);
        if n != 0 {
            return Some(Number(n, Vec::new()));
        }
        let mut new = r.clone();
        let under =
            frame.as_ref().map(|f| Assembling { start_lsn: f.0, number: f.1, kind: f.2, remaining: f.3, data: &f.4 });
        new.record(lsn, thr, mal, under, &[fill; SECTOR_SIZE]);
        if access::added_test_alone(access::stored_of(&new)) {
            return Some(Outside);
        }
        let branch =
            self.count.then(|| access::record_branch(r, &new, frame.as_ref().map(|f| (f.0, f.1, f.2, f.3, &f.4[..]))));
        *r = new;
        self.branch("record", branch);
        Some(accepted())
    }

    fn absorb(&mut self, p: usize, q: usize, image: Option<u64>, list: Vec<u32>) -> Answer {
        if self.places[p].list.is_none() || self.places[q].cursor.is_none() {
            return Nothing;
        }
        if let Some(no) = self.refused("absorb", &[List(p), Records(q)]) {
            return no;
        }
        let Some(cursor) = &self.places[q].cursor else { return Nothing };
        let Some(old) = &self.places[p].list else { return Nothing };
        let warnings = list.iter().map(|&lsn| Warning { lsn: Some(lsn) }).collect();
        let mut cursor = AreaCursor { image_id: image, warnings, ..cursor.clone() };
        let mut new = old.clone();
        let wrong = self.wrong;
        let recorder = cursor.clone();
        let made = new.absorb(&mut cursor);
        let n = made.as_ref().map_or_else(number, |()| 0);
        if access::wrong_absorb(wrong, old, recorder.recorder(), n) != n {
            return Number(11 - n, Vec::new());
        }
        let answer = match made {
            Err(e) => Number(number(&e), Vec::new()),
            Ok(()) => match access::question_12(wrong, old, &new, &list) {
                Twelve::Outside => return Outside,
                Twelve::Refuses => return Number(12, Vec::new()),
                Twelve::Passes => accepted(),
            },
        };
        if self.count && matches!(answer, Number(0, _)) {
            let branches = access::absorb_branches(old, recorder.recorder());
            self.branch("absorb", branches);
        }
        cursor.image_id = None;
        cursor.warnings = Vec::new();
        if let (Some(r), None) = (recorder.recorder(), cursor.recorder()) {
            // Stopped: by 8 as it was, by an accepted absorb emptied.
            let left = if matches!(answer, Number(0, _)) { access::drained(r) } else { r.clone() };
            self.places[q].stopped = Some(Box::new(left));
        }
        self.places[p].list = Some(new);
        self.places[q].cursor = Some(cursor);
        answer
    }
}
