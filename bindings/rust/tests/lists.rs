//! A list's life through the wrapper.

use seek::{Role, 
    Area, Brings, Checkpoint, Confirmation, Error, First, Frame, Held, Hint, HintEnd, HintStart, Hinted, Lacking, List, Plan, PlanRule, contents, first_record,
    load_disc, save_disc, sum, version,
};

fn area() -> Area {
    Area { slot: 0, channels: 2, key_start: 1000, key_end: 1399, sectors: 1550, start: 1000, end: 1400 }
}

/// A file of `n` checkpoints and a part of 300 bytes for the third, written from docs/FILE.md.
fn file(n: u32) -> Vec<u8> {
    let parts = u32::from(n > 2);
    let mut b = b"SBSEEKIX".to_vec();
    let u32s = |b: &mut Vec<u8>, values: &[u32]| values.iter().for_each(|v| b.extend_from_slice(&v.to_le_bytes()));
    u32s(&mut b, &[1]);
    b.extend_from_slice(&[0, 2, 0, 0]);
    u32s(&mut b, &[1000, 1399]);
    b.extend_from_slice(&1550u64.to_le_bytes());
    u32s(&mut b, &[50, n, parts, parts, 0, 0]);
    b.extend_from_slice(&4096u64.to_le_bytes());
    b.extend_from_slice(&[0; 16]);
    for j in 0..n {
        u32s(&mut b, &[75 * j, if j == 2 { 40 } else { 0 }]);
        b.extend_from_slice(&0u64.to_le_bytes());
        b.extend_from_slice(&u64::from(j).to_le_bytes());
    }
    if parts == 1 {
        u32s(&mut b, &[1060, 300]);
        b.extend((0..300u32).map(|k| k as u8));
        u32s(&mut b, &[2, 0, 300, 149, (-7i32) as u32, 1]);
    }
    let s = sum(&b);
    b.extend_from_slice(&s.to_le_bytes());
    b
}

#[test]
fn sums_and_sectors() {
    assert_eq!(sum(b""), 0xcbf2_9ce4_8422_2325);
    assert_eq!(sum(b"foobar"), 0x8594_4171_f739_67e8);
    assert_eq!(first_record(&[0x24, 0, 0, 1, 2, 3]), First::Record { number: 4653, offset: 3 });
    assert_eq!(first_record(&[0x24, 0, 0, 1, 2, 3]).number(), Some(4653));
    assert_eq!(first_record(&[0x20, 0, 0, 1, 2, 3]), First::NoFrame);
    assert_eq!(first_record(&[0xe0]), First::NoFrame);
    assert_eq!(first_record(&[4, 1, 2]), First::Missing);
    assert_eq!(first_record(&[]), First::Missing);
}

#[test]
fn a_file_loads_plans_and_saves() {
    let bytes = file(5);
    assert_eq!(Area::of_file(&bytes), Ok(area()));
    let list = List::load(Role::Workshop, area(), &bytes, u64::MAX).unwrap();
    assert_eq!((list.checkpoints(), list.hints(), list.is_complete()), (5, 0, false));
    let Plan::At(at) = list.plan(160).unwrap() else { panic!("no checkpoint") };
    assert_eq!((at.number, at.lsn, at.threshold, at.back), (2, 1100, 150, 40));
    let part = at.part.unwrap();
    assert_eq!((part.dsd, part.number, part.remaining, part.bytes.len()), (true, 149, -7, 300));
    assert!(part.bytes.iter().enumerate().all(|(k, &b)| b == k as u8));
    let Plan::At(first) = list.plan(0).unwrap() else { panic!("no checkpoint") };
    assert_eq!((first.number, first.part), (0, None));
    assert_eq!(list.save(Role::Workshop).unwrap(), bytes);
}

#[test]
fn a_limit_drops_frames() {
    let list = List::load(Role::Workshop, area(), &file(5), 100).unwrap();
    let Plan::At(at) = list.plan(160).unwrap() else { panic!("no checkpoint") };
    assert_eq!((at.lsn, at.part), (1100, None));
}

#[test]
fn every_cut_file_is_refused() {
    let bytes = file(3);
    for n in 0..bytes.len() {
        assert!(List::load(Role::Workshop, area(), &bytes[..n], u64::MAX).is_err(), "{n} bytes are accepted");
    }
    assert_eq!(List::load(Role::Workshop, area(), &bytes[..7], u64::MAX).err(), Some(Error::FileShort));
    assert_eq!(List::load(Role::Workshop, area(), &bytes[..8], u64::MAX).err(), Some(Error::FileMagic));
    assert_eq!(List::load(Role::Workshop, Area { channels: 6, ..area() }, &bytes, u64::MAX).err(), Some(Error::FileArea));
}

#[test]
fn a_new_list_is_empty() {
    let mut list = List::new(area(), 50, 0, 8, 2048).unwrap();
    assert_eq!((list.checkpoints(), list.fingerprint()), (0, None));
    assert_eq!(list.plan(5).unwrap(), Plan::Start);
    list.bind_fingerprint(7).unwrap();
    assert_eq!(list.fingerprint(), Some(7));
    assert_eq!(list.bind_fingerprint(8), Err(Error::Fingerprint));
    assert_eq!(list.fingerprint(), Some(7));
    let saved = list.save(Role::Workshop).unwrap();
    assert_eq!(List::load(Role::Workshop, area(), &saved, u64::MAX).unwrap().fingerprint(), Some(7));
    assert_eq!(List::new(area(), 0, 0, 8, 2048).err(), Some(Error::Numbers));
    assert_eq!(List::new(Area { slot: 2, ..area() }, 50, 0, 8, 2048).err(), Some(Error::Area));
    assert_eq!(Error::Numbers.number(), 2);
    assert_eq!(Error::FileSum.to_string(), "the file's sum is wrong: it was changed or cut");
}

#[test]
fn the_longer_list_is_merged() {
    let mut short = List::load(Role::Workshop, area(), &file(2), u64::MAX).unwrap();
    let long = List::load(Role::Workshop, area(), &file(5), u64::MAX).unwrap();
    assert_eq!(long.adds(&short), Ok(Brings::default()));
    assert_eq!(short.adds(&long), Ok(Brings { checkpoints: true, parts: true, ..Brings::default() }));
    short.merge(Role::Workshop, &long).unwrap();
    assert_eq!(short.save(Role::Workshop).unwrap(), file(5));
}

#[test]
fn a_drawer_is_merged_whole_or_not() {
    let mut own = List::load(Role::Workshop, area(), &file(1), u64::MAX).unwrap();
    let (short, long) = (file(2), file(5));
    own.merge_all(Role::Workshop, &[&short, &long, &short], u64::MAX).unwrap();
    assert_eq!(own.save(Role::Workshop).unwrap(), long);
    own.merge_all(Role::Workshop, &vec![&short[..]; 16], 0).unwrap();
    assert_eq!(own.merge_all(Role::Workshop, &vec![&short[..]; 17], 0), Err(Error::Set));
    assert_eq!(own.merge_all(Role::Workshop, &[], 0), Err(Error::Set));
    let mut other = file(8);
    let at = other.len() - 8;
    other[80 + 24 * 4 + 16] ^= 1;
    let s = sum(&other[..at]);
    other[at..].copy_from_slice(&s.to_le_bytes());
    assert_eq!(own.merge_all(Role::Workshop, &[&file(6), &other], u64::MAX), Err(Error::MergeCheckpoints));
    assert_eq!(own.merge_all(Role::Workshop, &[&other, &long[1..]], u64::MAX), Err(Error::FileMagic));
    assert_eq!(own.save(Role::Workshop).unwrap(), long);
}

#[test]
fn a_limited_copy_lacks_what_no_merge_would_bring() {
    let whole = List::load(Role::Workshop, area(), &file(5), u64::MAX).unwrap();
    let copy = List::load(Role::Workshop, area(), &file(5), 0).unwrap();
    assert_eq!(copy.adds(&whole), Ok(Brings::default()));
    let lacking = copy.lacks(&whole).unwrap();
    assert!(lacking.parts > 0 && lacking.budget && lacking.most && !lacking.is_nothing());
    assert_eq!((lacking.checkpoints, lacking.end_state, lacking.hints), (0, false, whole.hints()));
    assert_eq!(whole.lacks(&copy), Ok(Lacking::default()));
    assert_eq!(whole.lacks(&whole), Ok(Lacking::default()));
    let short = List::load(Role::Workshop, area(), &file(2), u64::MAX).unwrap();
    assert_eq!(short.lacks(&whole).unwrap().checkpoints, whole.checkpoints() - short.checkpoints());
    let mut bound = short.clone();
    bound.bind_fingerprint(7).unwrap();
    assert_eq!(short.lacks(&bound), Ok(Lacking { fingerprint: true, ..Lacking::default() }));
    let mut other = short.clone();
    other.bind_fingerprint(8).unwrap();
    assert_eq!(bound.lacks(&other).err(), Some(Error::MergeIds));
}

/// A sector in which a frame starts.
fn sector(number: u32) -> [u8; 2048] {
    let mut s = [0; 2048];
    s[0] = 0x24;
    (s[3], s[4], s[5]) = ((number / 75 / 60) as u8, (number / 75 % 60) as u8, (number % 75) as u8);
    s
}

#[test]
fn a_reading_becomes_a_list() {
    let mut list = List::new(area(), 50, 4096, 8, 2048).unwrap();
    let mut r = list.recorder(1000).unwrap();
    let bytes = [7; 300];
    for j in 0..8 {
        let frame = Frame { start: 1000 + 50 * j - 40 * u64::from(j > 0), number: 50 * j as u32, dsd: true, remaining: -7, bytes: &bytes };
        r.record(1000 + 50 * j, 50 * j as u32, 0, (j > 0).then_some(frame), &sector(50 * j as u32)).unwrap();
    }
    assert_eq!(r.record(1400, 400, 0, None, &sector(400)), Err(Error::RecordDue));
    assert_eq!(r.checkpoints(), 8);
    r.finish(400, 0).unwrap();
    list.absorb(&mut r, Some(3), &[]).unwrap();
    assert!(list.is_complete() && r.is_stopped());
    assert_eq!((list.checkpoints(), r.checkpoints()), (8, 0));
    let Plan::At(at) = list.plan(120).unwrap() else { panic!("no checkpoint") };
    let part = at.part.unwrap();
    assert_eq!((at.lsn, part.number, part.remaining, part.bytes), (1100, 100, -7, &bytes[..]));
    assert!(list.recorder(1000).unwrap().is_stopped());
    let saved = list.save(Role::Workshop).unwrap();
    assert_eq!(List::load(Role::Workshop, area(), &saved, u64::MAX).unwrap().save(Role::Workshop).unwrap(), saved);
}

#[test]
fn another_image_stops_the_recorder() {
    let mut list = List::new(area(), 50, 0, 8, 2048).unwrap();
    let mut r = list.recorder(1000).unwrap();
    r.record(1000, 0, 0, None, &sector(0)).unwrap();
    list.absorb(&mut r, Some(3), &[]).unwrap();
    r.record(1050, 50, 0, None, &sector(50)).unwrap();
    assert_eq!(list.absorb(&mut r, Some(4), &[]), Err(Error::AbsorbImage));
    assert!(r.is_stopped());
    assert_eq!(list.checkpoints(), 1);
}

#[test]
fn hints_and_confirmations() {
    let mut list = List::new(area(), 50, 0, 75, 2048).unwrap();
    let mut h = list.hint_recorder().unwrap().unwrap();
    for n in [100, 174, 175, 99] {
        assert_eq!(h.see(1000 + u64::from(n), &sector(n)), Ok(First::Record { number: n, offset: 3 }));
    }
    // Passed over, and told all the same.
    assert_eq!(h.see(1 << 32, &sector(300)), Ok(First::Record { number: 300, offset: 3 }));
    assert_eq!(h.see(1300, &[0xe0]), Ok(First::NoFrame));
    assert_eq!(h.see(1300, &[]), Ok(First::Missing));
    h.flush().unwrap();
    let taken = h.take().unwrap();
    assert_eq!(taken, [100, 175, 99].map(|n| Hint { lsn: 1000 + n, number: n }));
    assert_eq!(h.take().unwrap(), []);
    list.add_hints(&taken).unwrap();
    assert_eq!(list.hints(), 3);
    assert!(list.hint(110, 110, 400).unwrap().is_some_and(|h| h.lsn == 1100 && h.number == 100 && !h.later));
    assert_eq!(list.hint(110, 160, 400).unwrap(), Some(Hinted { lsn: 1100, number: 100, upper: 1176, later: true, start: HintStart::Nearest, end: HintEnd::Later }));
    assert_eq!(list.hint(50, 60, 400).unwrap(), None);
    assert_eq!(list.hint(60, 50, 400), Err(Error::HintRange));
    assert_eq!(list.keep_confirmation(1100, 100, 5), Ok(false));
    list.bind_fingerprint(7).unwrap();
    assert_eq!(list.keep_confirmation(1100, 100, 5), Ok(true));
    assert_eq!(list.keep_confirmation(999, 100, 5), Err(Error::Confirmation));
    assert!(List::new(area(), 50, 0, 0, 2048).unwrap().hint_recorder().unwrap().is_none());
}

#[test]
fn kept_hints_stay() {
    let run = |lsns: &[u32]| lsns.iter().map(|&lsn| Hint { lsn, number: lsn / 10 }).collect::<Vec<_>>();
    let mut list = List::new(area(), 50, 0, 8, 8).unwrap();
    list.add_hints(&run(&[1000, 1010, 1020, 1030, 1040, 1050, 1060, 1070])).unwrap();
    assert_eq!((list.keep_hint(1010), list.keep_hint(1020), list.keep_hint(1010)), (Ok(()), Ok(()), Ok(())));
    assert_eq!((list.keep_hint(1030), list.keep_hint(1005), list.keep_hint((1 << 32) + 1030)), (Err(Error::Keep), Err(Error::Keep), Err(Error::Keep)));
    let held = |list: &List| (0..list.hints()).map(|i| (list.hint_at(i).unwrap().lsn, list.is_hint_kept(i))).collect::<Vec<_>>();
    list.add_hints(&run(&[1080])).unwrap();
    assert_eq!(held(&list), [(1000, false), (1010, true), (1020, true), (1060, false), (1070, false), (1080, false)]);
    list.add_hints(&[Hint { lsn: 1010, number: 1_166_880 }]).unwrap();
    assert_eq!((list.hint_at(1), list.is_hint_kept(1), list.is_hint_kept(6)), (Some(Hint { lsn: 1010, number: 1_166_880 }), true, false));

    let file = list.save(Role::Workshop).unwrap();
    let mut loaded = List::load(Role::Workshop, area(), &file, u64::MAX).unwrap();
    assert_eq!((loaded.hints(), loaded.kept_hints(), list.kept_hints()), (6, 0, 2));
    loaded.keep_hint(1080).unwrap();
    list.merge(Role::Workshop, &loaded).unwrap();
    assert_eq!((list.kept_hints(), list.is_hint_kept(5)), (2, false));
    assert_eq!(Error::Keep.number(), 53);
}

#[test]
fn a_plan_names_its_rule() {
    let bytes = file(5);
    let list = List::load(Role::Workshop, area(), &bytes, u64::MAX).unwrap();
    assert_eq!(list.plan(160).unwrap().rule(), PlanRule::HeldPart);
    assert_eq!(list.plan(0).unwrap().rule(), PlanRule::Checkpoint);
    assert_eq!(List::load(Role::Workshop, area(), &bytes, 100).unwrap().plan(160).unwrap().rule(), PlanRule::Checkpoint);
    assert_eq!(List::new(area(), 50, 0, 8, 2048).unwrap().plan(5).unwrap().rule(), PlanRule::AreaStart);
    assert_eq!(Plan::End { threshold: 1, malformed: 0 }.rule(), PlanRule::EndState);
}

/// How the hint for frames 45 to 75 was chosen and where its end came from, in an area 0..1000 of 500 frames, 2 sectors for each.
fn named(hints: &[(u32, u32)], confirmed: &[(u64, u32)]) -> (u64, HintStart, HintEnd) {
    let area = Area { key_start: 0, key_end: 999, sectors: 1000, start: 0, end: 1000, ..area() };
    let mut list = List::new(area, 100, 0, 8, 2048).unwrap();
    list.add_hints(&hints.iter().map(|&(lsn, number)| Hint { lsn, number }).collect::<Vec<_>>()).unwrap();
    list.bind_fingerprint(9).unwrap();
    for &(lsn, threshold) in confirmed {
        assert_eq!(list.keep_confirmation(lsn, threshold, 1), Ok(true));
    }
    let h = list.hint(45, 75, 500).unwrap().unwrap();
    (h.upper, h.start, h.end)
}

#[test]
fn a_hint_names_how_it_was_chosen_and_its_end() {
    use HintEnd::{AreaEnd, Average, Later, Local};
    use HintStart::{Confirmed, Nearest};
    assert_eq!(named(&[(100, 10), (160, 40)], &[]), (251, Nearest, Local));
    assert_eq!(named(&[(100, 10), (159, 40)], &[]), (250, Nearest, Average));
    assert_eq!(named(&[(100, 10), (160, 40), (998, 80)], &[]), (999, Nearest, Later));
    assert_eq!(named(&[(100, 10), (160, 40), (999, 80)], &[]), (1000, Nearest, AreaEnd));
    assert_eq!(named(&[(100, 30), (160, 40)], &[(100, 45)]), (426, Confirmed, Local));
    assert_eq!(named(&[(100, 30), (160, 40)], &[(160, 46)]), (426, Nearest, Local));
}

#[test]
fn a_disc_file_holds_both_lists() {
    let (a0, a1) = (area(), Area { slot: 1, ..area() });
    let bytes = file(5);
    let first = List::load(Role::Workshop, a0, &bytes, u64::MAX).unwrap();
    let second = List::new(a1, 50, 4096, 8, 100).unwrap();
    let disc = save_disc(Role::Workshop, &second, Some(&first)).unwrap();
    assert_eq!(disc, save_disc(Role::Workshop, &first, Some(&second)).unwrap());
    let [Some(at), Some(next)] = contents(&disc).unwrap() else { panic!("a list is missing") };
    assert_eq!((at.start, next.start, next.end), (28, at.end, disc.len()));
    assert_eq!(disc[at], bytes);
    let [Some(x), Some(y)] = load_disc(Role::Workshop, a0, a1, &disc, u64::MAX).unwrap() else { panic!("a list is missing") };
    assert_eq!((x.save(Role::Workshop), y.save(Role::Workshop)), (first.save(Role::Workshop), second.save(Role::Workshop)));

    let alone = save_disc(Role::Workshop, &second, None).unwrap();
    assert!(matches!(load_disc(Role::Workshop, a0, a1, &alone, u64::MAX), Ok([None, Some(_)])));
    assert_eq!(save_disc(Role::Workshop, &first, Some(&first)), Err(Error::Disc));
    assert_eq!(contents(&disc[1..]), Err(Error::Disc));
    assert_eq!(load_disc(Role::Workshop, a1, a0, &disc, u64::MAX).err(), Some(Error::Area));
    let mut changed = disc.clone();
    changed[100] ^= 1;
    assert_eq!(load_disc(Role::Workshop, a0, a1, &changed, u64::MAX).err(), Some(Error::FileSum));
}

#[test]
fn what_a_list_holds_by_number() {
    let mut list = List::load(Role::Workshop, area(), &file(5), u64::MAX).unwrap();
    assert_eq!((list.area(), list.interval(), list.budget(), list.spacing(), list.hint_limit()), (area(), 50, 4096, 8, 2048));
    assert_eq!((list.frontier(), list.end(), list.image(), list.parts(), list.malformed()), (1200, None, None, 1, 0));
    assert_eq!(list.checkpoint(2), Some(Checkpoint { lsn: 1100, threshold: 150, back: 40, malformed: 0, digest: 2 }));
    assert_eq!((list.checkpoint(5), list.checkpoint(u64::MAX), list.boundary(7), list.boundary(8)), (None, None, Some(1350), None));
    assert_eq!(list.held(0), Some(Held { checkpoint: 2, start: 1060, length: 300, number: 149, remaining: -7, dsd: true }));
    assert_eq!((list.held(1), list.malformed_at(0), list.hint_at(0), list.confirmation(0)), (None, None, None, None));
    list.add_hints(&[Hint { lsn: 1003, number: 4 }]).unwrap();
    list.bind_fingerprint(7).unwrap();
    assert!(list.keep_confirmation(1003, 4, 11).unwrap() && list.is_fingerprint_checked());
    assert_eq!((list.hint_at(0), list.hint_at(1)), (Some(Hint { lsn: 1003, number: 4 }), None));
    assert_eq!(list.confirmation(0), Some(Confirmation { lsn: 1003, threshold: 4, digest: 11 }));
    assert_eq!(list.try_clone().unwrap().save(Role::Workshop), list.save(Role::Workshop));
    assert!(format!("{list:?}").starts_with("List { area: Area { slot: 0, channels: 2"));
    assert!(version() >= 20000);
}

#[test]
fn from_does_not_choose_where_recording_begins() {
    let mut list = List::new(area(), 50, 4096, 8, 2048).unwrap();
    let mut r = list.recorder(1399).unwrap();
    assert_eq!(r.due(), Some(1000));
    r.record(1000, 0, 0, None, &sector(0)).unwrap();
    assert_eq!(list.absorb(&mut r, None, &[]), Err(Error::AbsorbJoins));
    let mut r = list.recorder(1000).unwrap();
    r.record(1000, 0, 0, None, &sector(0)).unwrap();
    list.absorb(&mut r, None, &[]).unwrap();
    assert_eq!((list.frontier(), r.due(), r.checkpoints()), (1000, Some(1050), 0));
}
