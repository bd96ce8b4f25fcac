//! One shelf for many discs: up to 64 saved lists under a limit of bytes, of which those not used for longest are dropped.

use crate::Area;
use crate::error::{Error, answer};
use crate::raw::{self, ShelfAnswer, ShelfNumbers, ShelfRecord};

const MOST: usize = 64;

/// A list on the shelf.
#[derive(Clone, Copy, Debug, PartialEq, Eq)]
pub struct ShelfList {
    /// Its area.
    pub area: Area,
    /// The length of its file, in bytes.
    pub length: u64,
    /// The number of its last entry or jump.
    pub stamp: u64,
}

impl ShelfList {
    fn of(r: &ShelfRecord) -> ShelfList {
        let ShelfRecord { slot, channels, key_start, key_end, sectors, start, end, length, stamp } = *r;
        ShelfList { area: Area { slot, channels, key_start, key_end, sectors, start, end }, length, stamp }
    }

    fn record(&self) -> ShelfRecord {
        let Area { slot, channels, key_start, key_end, sectors, start, end } = self.area;
        ShelfRecord { slot, channels, key_start, key_end, sectors, start, end, length: self.length, stamp: self.stamp }
    }
}

/// A shelf of saved lists.
#[derive(Clone, Debug)]
pub struct Shelf {
    numbers: ShelfNumbers,
    table: [ShelfRecord; MOST],
}

impl Shelf {
    /// An empty shelf with a limit of bytes.
    pub fn new(limit: u64) -> Shelf {
        Shelf { numbers: ShelfNumbers { limit, ..ShelfNumbers::default() }, table: [ShelfRecord::default(); MOST] }
    }

    /// A shelf as it was: its lists, its count and its limit. More than 64 lists, an area under two of them, or lengths above the limit are refused with
    /// [`Error::Content`], as every call on such a shelf is.
    pub fn from_lists(lists: &[ShelfList], count: u64, limit: u64) -> Result<Shelf, Error> {
        let mut shelf = Shelf { numbers: ShelfNumbers { present: lists.len() as u64, count, limit }, ..Shelf::new(limit) };
        if lists.len() > MOST {
            return Err(Error::Content);
        }
        for (to, from) in shelf.table.iter_mut().zip(lists) {
            *to = from.record();
        }
        // a jump asks 4, and is made on a copy
        if let Some(first) = lists.first() {
            match shelf.clone().jump(&first.area) {
                Err(Error::Content) => return Err(Error::Content),
                _ => return Ok(shelf),
            }
        }
        Ok(shelf)
    }

    /// The lists on the shelf, in the order of its table.
    pub fn lists(&self) -> impl Iterator<Item = ShelfList> + '_ {
        self.table[..self.numbers.present as usize].iter().map(ShelfList::of)
    }

    /// How many entries and jumps were counted.
    pub fn count(&self) -> u64 {
        self.numbers.count
    }

    /// The most that the lengths may sum up to.
    pub fn limit(&self) -> u64 {
        self.numbers.limit
    }

    /// Enters the list of an area with a file of so many bytes, and tells the lists that were dropped for it: those that were present before and whose area no
    /// list now has. A list of its own area is replaced.
    pub fn enter(&mut self, area: &Area, length: u64) -> Result<Vec<ShelfList>, Error> {
        let before: Vec<ShelfList> = self.lists().collect();
        let list = ShelfList { area: *area, length, stamp: 0 }.record();
        // Safety: the table is a slice of its own.
        let r = unsafe { raw::seek_raw_shelf_enter(self.table.as_mut_ptr(), MOST, self.numbers, list) };
        self.take(r)?;
        Ok(before.into_iter().filter(|old| self.lists().all(|l| l.area != old.area)).collect())
    }

    /// A jump in the list of an area: its stamp is renewed. False where the area is not on the shelf; then nothing changes.
    pub fn jump(&mut self, area: &Area) -> Result<bool, Error> {
        let list = ShelfList { area: *area, length: 0, stamp: 0 }.record();
        // Safety: the table is a slice of its own.
        let r = unsafe { raw::seek_raw_shelf_jump(self.table.as_mut_ptr(), MOST, self.numbers, list) };
        self.take(r)?;
        Ok(r.absent == 0)
    }

    fn take(&mut self, r: ShelfAnswer) -> Result<(), Error> {
        answer(r.number)?;
        self.numbers.present = r.present;
        self.numbers.count = r.count;
        Ok(())
    }
}
