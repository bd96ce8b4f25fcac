//! The call that merges a set of files, in the words of change request 1. The original has none: it loads the files (20 to 38), says whether two lists can be merged (41 to 43), and
//! merges them one after the other.

use crate::disc::model::{Edit, enough, needs};
use crate::file::AreaNumbers;
use crate::seek::{AreaIndex, access};
use crate::text::{put, put_hex, sum_of};

/// The most files of a set.
pub const MOST: usize = 16;

/// A set of files, and the list that they are to be merged into.
#[derive(Clone)]
pub struct Set {
    pub area: AreaNumbers,
    /// The own list's file, the limit that it is loaded with, and the lengths of its tables.
    pub own: Vec<u8>,
    pub own_limit: u64,
    pub lent: [u64; 7],
    /// The fingerprint that is then stated, and the image id that it then has.
    pub stated: Option<u64>,
    pub image: Option<u64>,
    /// A change that 1 to 4 finds, and the length of its head.
    pub edit: Option<Edit>,
    pub head: u64,
    /// The files: a length each, the bytes behind the lengths, the buffer.
    pub lengths: Vec<u64>,
    pub rest: Vec<u8>,
    pub buffer: Vec<u8>,
    pub limit: u64,
    /// The lengths of the working tables.
    pub work: [u64; 7],
}

/// What a file is: past the buffer, refused, or a list.
pub enum File {
    Past,
    Refused(u32),
    List(Box<AreaIndex>),
}

/// Why a set is refused, or the list that it gives.
pub enum Found {
    Own(u32),
    Size,
    /// The file's place, and what it is refused with.
    Past(usize),
    File(usize, u32),
    Room(usize),
    /// Two lists, the own one first, and their number.
    Pair(usize, usize, u32),
    List(Box<AreaIndex>),
}

impl Found {
    pub fn number(&self) -> u32 {
        match *self {
            Found::Own(n) | Found::File(_, n) | Found::Pair(_, _, n) => n,
            Found::Size => 44,
            Found::Past(_) => 20,
            Found::Room(_) => 3,
            Found::List(_) => 0,
        }
    }
}

impl Set {
    /// The bytes of file number i, where it lies within the buffer.
    pub fn bytes(&self, i: usize) -> Option<&[u8]> {
        let at: u128 = self.lengths[..i].iter().copied().map(u128::from).sum();
        let end = at + u128::from(self.lengths[i]);
        (end <= self.buffer.len() as u128).then(|| &self.buffer[at as usize..end as usize])
    }

    pub fn file(&self, i: usize) -> File {
        let Some(bytes) = self.bytes(i) else { return File::Past };
        match crate::disc::model::body(&self.area, bytes, self.limit) {
            Ok(ix) => File::List(Box::new(ix)),
            Err(n) => File::Refused(n),
        }
    }

    /// All files, up to the first that is past the buffer.
    pub fn files(&self) -> Vec<File> {
        let mut out = Vec::new();
        for i in 0..self.lengths.len() {
            out.push(self.file(i));
            if matches!(out[i], File::Past) {
                break;
            }
        }
        out
    }

    /// The own list as it is before the call; None where it is not loaded.
    pub fn own_list(&self) -> Option<AreaIndex> {
        let mut ix = crate::disc::model::body(&self.area, &self.own, self.own_limit).ok()?;
        if !enough(&self.lent, &needs(&ix)) {
            return None;
        }
        if let Some(v) = self.stated {
            ix.bind_fingerprint(v).ok()?;
        }
        access::set_image(&mut ix, self.image);
        Some(ix)
    }

    /// What the call finds; None where the original leaves open what a merge gives.
    pub fn find(&self, own: &AreaIndex, files: &[File]) -> Option<Found> {
        if let Some(e) = self.edit.filter(|_| self.head == 192) {
            return Some(Found::Own(e.number as u32));
        }
        if self.head < 192 {
            return Some(Found::Own(3));
        }
        if self.lengths.is_empty() || self.lengths.len() > MOST {
            return Some(Found::Size);
        }
        for (i, f) in files.iter().enumerate() {
            match f {
                File::Past => return Some(Found::Past(i)),
                File::Refused(n) => return Some(Found::File(i, *n)),
                File::List(ix) if !enough(&self.work, &needs(ix)) => return Some(Found::Room(i)),
                File::List(_) => {}
            }
        }
        let lists: Vec<&AreaIndex> = files.iter().filter_map(File::list).collect();
        let pair = pair(own, &lists);
        let turns = in_turn(own, &lists);
        // Every pair can be merged exactly where the original merges all of them one after the other.
        assert_eq!(
            pair.is_some(),
            matches!(turns, Turns::Refused(_)),
            "a pair is refused where merging in turn is not, or the other way round"
        );
        match (pair, turns) {
            (Some((i, j, n)), _) => Some(Found::Pair(i, j, n)),
            (None, Turns::Merged(ix)) => Some(Found::List(ix)),
            _ => None,
        }
    }

    /// The program's line.
    pub fn line(&self) -> Vec<u8> {
        let mut t = format!("set {} {}", self.area.words(), self.own_limit).into_bytes();
        for v in self.lent {
            put(&mut t, v);
        }
        put_hex(&mut t, &self.own);
        for v in [self.stated, self.image] {
            put(&mut t, u64::from(v.is_some()));
            put(&mut t, v.unwrap_or(0));
        }
        put(&mut t, u64::from(self.edit.is_some()));
        for v in self.edit.iter().flat_map(|e| [e.what, e.at, e.value]) {
            put(&mut t, v);
        }
        put(&mut t, self.head);
        put(&mut t, self.limit);
        for v in self.work {
            put(&mut t, v);
        }
        put(&mut t, self.lengths.len() as u64);
        for v in &self.lengths {
            put(&mut t, *v);
        }
        put_hex(&mut t, &self.rest);
        put_hex(&mut t, &self.buffer);
        t
    }

    /// The answer to it: the number, and where it is accepted the list and its file's length and sum.
    pub fn answer(&self, found: &Found) -> Vec<u8> {
        let mut t = b"set".to_vec();
        put(&mut t, u64::from(found.number()));
        if let Found::List(ix) = found {
            t.extend_from_slice(format!(" / list {}", self.area.words()).as_bytes());
            access::put_list(&mut t, ix);
            let saved = access::saved(ix);
            t.extend_from_slice(b" / save");
            put(&mut t, saved.len() as u64);
            put(&mut t, sum_of(&saved));
        }
        t
    }
}

impl File {
    pub fn list(&self) -> Option<&AreaIndex> {
        match self {
            File::List(ix) => Some(ix),
            _ => None,
        }
    }
}

/// The first two lists that cannot be merged, by the earlier, then the later one, own list first.
fn pair(own: &AreaIndex, lists: &[&AreaIndex]) -> Option<(usize, usize, u32)> {
    let all: Vec<&AreaIndex> = std::iter::once(own).chain(lists.iter().copied()).collect();
    for (i, x) in all.iter().enumerate() {
        for (j, y) in all.iter().enumerate().skip(i + 1) {
            let n = access::join_number(x, y);
            if n != 0 {
                return Some((i, j, n));
            }
        }
    }
    None
}

/// What merging one after the other gives.
pub enum Turns {
    Refused(u32),
    Open,
    Merged(Box<AreaIndex>),
}

pub fn in_turn(own: &AreaIndex, lists: &[&AreaIndex]) -> Turns {
    let mut out = own.clone();
    for l in lists {
        match access::merged_newer(&out, l) {
            Err(e) => return Turns::Refused(crate::script::number(&e)),
            Ok(ix) => out = ix,
        }
    }
    // A part that 01's added test passes over, which the original would hold.
    if access::loadable(&out).is_ok() { Turns::Merged(Box::new(out)) } else { Turns::Open }
}
