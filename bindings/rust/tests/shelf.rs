//! A shelf through the wrapper.

use seek::{Area, Error, Shelf, ShelfList};

fn area(start: u64) -> Area {
    Area { slot: 0, channels: 2, key_start: 0, key_end: 99, sectors: 9000, start, end: 5000 }
}

fn starts(shelf: &Shelf) -> Vec<u64> {
    shelf.lists().map(|l| l.area.start).collect()
}

#[test]
fn the_list_not_used_for_longest_goes() {
    let mut shelf = Shelf::new(100);
    assert_eq!(shelf.enter(&area(1), 40), Ok(vec![]));
    assert_eq!(shelf.enter(&area(2), 40), Ok(vec![]));
    assert_eq!(shelf.jump(&area(1)), Ok(true));
    let gone = shelf.enter(&area(3), 30).unwrap();
    assert_eq!(gone, vec![ShelfList { area: area(2), length: 40, stamp: 2 }]);
    assert_eq!(starts(&shelf), [1, 3]);
    // entered again, at its own length: none goes
    assert_eq!(shelf.enter(&area(1), 70), Ok(vec![]));
    assert_eq!(starts(&shelf), [3, 1]);
    assert_eq!(shelf.count(), 5);
}

#[test]
fn what_is_refused_changes_nothing() {
    let mut shelf = Shelf::new(100);
    shelf.enter(&area(1), 100).unwrap();
    assert_eq!(shelf.jump(&area(9)), Ok(false));
    assert_eq!(shelf.enter(&area(2), 101), Err(Error::ShelfList));
    assert_eq!(shelf.enter(&Area { slot: 2, ..area(2) }, 1), Err(Error::Area));
    assert_eq!((starts(&shelf), shelf.count()), (vec![1], 1));
}

#[test]
fn a_shelf_as_it_was() {
    let list = |start, length, stamp| ShelfList { area: area(start), length, stamp };
    let mut shelf = Shelf::from_lists(&[list(1, 10, 7), list(2, 20, 5)], u64::MAX - 1, 30).unwrap();
    assert_eq!(shelf.jump(&area(2)), Ok(true));
    assert_eq!(shelf.jump(&area(2)), Err(Error::ShelfCount));
    assert!(matches!(Shelf::from_lists(&[list(1, 10, 7), list(1, 20, 5)], 0, 30), Err(Error::Content)));
    assert!(matches!(Shelf::from_lists(&[list(1, 10, 7), list(2, 21, 5)], 0, 30), Err(Error::Content)));
    assert!(matches!(Shelf::from_lists(&vec![list(1, 0, 0); 65], 0, 30), Err(Error::Content)));
}

#[test]
fn sixty_four_fit() {
    let mut shelf = Shelf::new(u64::MAX);
    for k in 0..64 {
        assert_eq!(shelf.enter(&area(k), 0), Ok(vec![]));
    }
    assert_eq!(shelf.enter(&area(64), 0).unwrap()[0].area, area(0));
    assert_eq!(shelf.lists().count(), 64);
}
