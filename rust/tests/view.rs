//! Tables lent for reading alone: what a view says of them, and the live dockets one by one.
use guontrem::{check, entry_words, level_words, Live, Refusal, Row, Settings, Store, Tally, View, MAX_DOCKET};

const SETTINGS: Settings = Settings { deepest: 3, ratio: 4, buffer: 8, term: 1000 };
const SLOTS: usize = 400;
/// How many rows the iterator fetches at a time; its documentation says so.
const BLOCK: usize = 64;

/// The tables of a store with so many live dockets: 7, 10, 13, …, each with its number as its price and ten times that as its
/// count.
fn tables_with(live: usize) -> (Vec<u32>, Vec<u32>) {
    let (mut entries, mut levels) = (vec![0; entry_words(SLOTS)], vec![0; level_words(3)]);
    let mut store = Store::make(&mut entries, &mut levels, SETTINGS).unwrap();
    // Every other docket first, so that they do not come in their order.
    let order = (0..live).step_by(2).chain((1..live).step_by(2));
    for (clock, docket) in (1..).zip(order.map(docket_at)) {
        store.put(clock, docket, Tally { count: 10 * docket, price: docket }).unwrap();
    }
    (entries, levels)
}

fn docket_at(i: usize) -> u32 {
    7 + 3 * i as u32
}

/// All rows by one scan into room for each slot.
fn by_one_scan(view: View<'_>, lo: u32, hi: u32) -> Vec<Row> {
    let mut rows = vec![Row::default(); SLOTS];
    let count = view.scan(lo, hi, &mut rows).unwrap().count;
    rows.truncate(count);
    rows
}

#[test]
fn what_a_view_says() -> Result<(), Refusal> {
    let (mut entries, mut levels) = (vec![0; entry_words(6)], vec![0; level_words(3)]);
    let mut store = Store::make(&mut entries, &mut levels, SETTINGS)?;
    assert_eq!((store.view().clock(), store.view().slots(), store.view().settings()), (0, 6, SETTINGS));
    store.put(5, 7, Tally { count: 70, price: 3 })?;
    assert_eq!(store.view().clock(), 5);
    assert_eq!(store.tick(4), Err(Refusal::Clock));
    assert_eq!(store.view().clock(), 5);
    store.tick(u32::MAX)?;
    assert_eq!((store.view().clock(), store.view().settings()), (u32::MAX, SETTINGS));
    let before = (entries.clone(), levels.clone());
    let view = View::open(&entries, &levels)?;
    assert_eq!(view.check(), Ok(()));
    assert_eq!(view.lookup(7)?.map(|found| (found.tally, found.stamp)), Some((Tally { count: 70, price: 3 }, 5)));
    assert_eq!(view.lookup(8)?, None);
    assert_eq!(view.lookup(MAX_DOCKET + 1), Err(Refusal::Docket));
    assert_eq!((entries, levels), before);
    Ok(())
}

/// Whatever the check says of tables, opening a view of them says.
#[test]
fn tables_that_hold_no_store() {
    let (entries, levels) = tables_with(9);
    assert!(View::open(&entries, &levels).is_ok());
    for (words, rows) in [(0, 20), (1, 20), (8, 20), (2005, 0), (2005, 3), (2005, 19), (2004, 20), (2000, 20)] {
        let (cut, rows) = (&entries[..words], &levels[..rows]);
        assert_eq!(View::open(cut, rows).err(), check(cut, rows).err());
        assert!(View::open(cut, rows).is_err());
    }
    // Slot 0's words but the clock, and the first slot's link, dockets and stamp.
    for at in [0, 2, 3, 4, 5, 6, 8] {
        let mut damaged = entries.clone();
        damaged[at] ^= 0x8000_0000;
        assert_eq!(View::open(&damaged, &levels).unwrap_err(), Refusal::Unsound);
    }
}

#[test]
fn live_dockets_are_those_of_one_scan() -> Result<(), Refusal> {
    for count in [0, 1, 2, BLOCK - 1, BLOCK, BLOCK + 1, 2 * BLOCK, 2 * BLOCK + 1, 300] {
        let (entries, levels) = tables_with(count);
        let view = View::open(&entries, &levels)?;
        let put = (0..count).map(|i| (docket_at(i), 10 * docket_at(i), docket_at(i)));
        assert!(by_one_scan(view, 0, MAX_DOCKET).iter().map(|row| (row.docket, row.count, row.price)).eq(put));
        let end = docket_at(count.max(1));
        for (lo, hi) in [(0, MAX_DOCKET), (7, 7), (8, 9), (8, end), (0, end - 3), (end - 3, MAX_DOCKET), (end, end)] {
            assert_eq!(view.live(lo, hi)?.collect::<Vec<_>>(), by_one_scan(view, lo, hi), "{count} live, {lo} to {hi}");
        }
    }
    Ok(())
}

#[test]
fn a_refused_range_gives_no_iterator() {
    let (entries, levels) = tables_with(3);
    let view = View::open(&entries, &levels).unwrap();
    assert_eq!(view.live(1, 0).unwrap_err(), Refusal::Docket);
    assert_eq!(view.live(0, MAX_DOCKET + 1).unwrap_err(), Refusal::Docket);
    assert_eq!(view.live(u32::MAX, u32::MAX).unwrap_err(), Refusal::Docket);
}

#[test]
fn the_iterator_is_fused_and_bounded() -> Result<(), Refusal> {
    let (entries, levels) = tables_with(2 * BLOCK + 5);
    let mut live = View::open(&entries, &levels)?.live(0, MAX_DOCKET)?;
    for left in (0..2 * BLOCK + 5).rev() {
        let (least, most) = live.size_hint();
        assert!(least <= left + 1 && left < most.unwrap() && least > 0);
        assert!(live.next().is_some());
    }
    assert_eq!(live.size_hint(), (0, Some(0)));
    assert!((0..3).all(|_| live.next().is_none()));
    Ok(())
}

/// An iterator outlives the view that made it, and two of one view go on side by side.
#[test]
fn iterators_stand_alone() -> Result<(), Refusal> {
    fn from_seven<'a>(entries: &'a [u32], levels: &'a [u32]) -> Result<Live<'a>, Refusal> {
        View::open(entries, levels)?.live(7, MAX_DOCKET)
    }
    let (entries, levels) = tables_with(BLOCK + 9);
    let first = from_seven(&entries, &levels)?;
    let pairs = first.clone().zip(from_seven(&entries, &levels)?.skip(1));
    assert!(pairs.map(|(row, next)| next.docket - row.docket).eq([3; BLOCK + 8]));
    assert_eq!(first.count(), BLOCK + 9);
    Ok(())
}
