//! What a grower is shown: counts and stamps, the same whatever the prices are.
use guontrem::{
    entry_words, level_words, Count, CountRow, Grower, Refusal, Row, Settings, Store, Tally, View, MAX_DOCKET,
};

const SETTINGS: Settings = Settings { deepest: 3, ratio: 2, buffer: 2, term: 9 };
const SLOTS: usize = 12;

/// The tables after some calls, with prices drawn from a number.
fn tables_with(price: u32) -> (Vec<u32>, Vec<u32>) {
    let (mut entries, mut levels) = (vec![0; entry_words(SLOTS)], vec![0; level_words(3)]);
    let mut store = Store::make(&mut entries, &mut levels, SETTINGS).unwrap();
    for clock in 1..=20 {
        let tally = Tally { count: 10 * clock, price: price.wrapping_mul(clock) };
        store.put(clock, 100 + clock * 7 % 10, tally).unwrap();
        if clock % 4 == 0 {
            store.delete(clock, 100 + clock % 10).unwrap();
        }
    }
    (entries, levels)
}

fn parts(answer: Result<Option<Count>, Refusal>) -> Result<Option<(u32, u32)>, Refusal> {
    Ok(answer?.map(|seen| (seen.count, seen.stamp)))
}

/// A row that no scan would fill.
fn junk() -> CountRow {
    let mut row = CountRow::default();
    (row.docket, row.count, row.stamp) = (MAX_DOCKET + 1, 2, 3);
    row
}

/// What the hall sees, less the price.
#[test]
fn counts_and_stamps_are_the_halls() -> Result<(), Refusal> {
    let (entries, levels) = tables_with(3);
    let (view, grower) = (View::open(&entries, &levels)?, Grower::open(&entries, &levels)?);
    for docket in 99..112 {
        let seen = view.lookup(docket)?.map(|found| (found.tally.count, found.stamp));
        assert_eq!(parts(grower.lookup(docket)), Ok(seen));
    }
    for room in [0, 1, 3, SLOTS] {
        let (mut rows, mut counts) = (vec![Row::default(); room], vec![junk(); room]);
        let scanned = view.scan(0, MAX_DOCKET, &mut rows)?;
        assert_eq!(grower.scan(0, MAX_DOCKET, &mut counts)?, scanned);
        let seen = rows[..scanned.count].iter().map(|row| (row.docket, row.count, row.stamp));
        assert!(counts[..scanned.count].iter().map(|row| (row.docket, row.count, row.stamp)).eq(seen));
        assert!(counts[scanned.count..].iter().all(|row| *row == junk()));
    }
    Ok(())
}

#[test]
fn other_prices_show_nothing_else() -> Result<(), Refusal> {
    let (entries, levels) = tables_with(3);
    for price in [0, 1, 1 << 20, u32::MAX] {
        let (other, other_levels) = tables_with(price);
        assert_ne!(entries, other);
        assert_eq!(levels, other_levels);
        let (one, two) = (Grower::open(&entries, &levels)?, Grower::open(&other, &other_levels)?);
        let (mut rows, mut other_rows) = ([junk(); SLOTS], [junk(); SLOTS]);
        assert_eq!(one.scan(0, MAX_DOCKET, &mut rows), two.scan(0, MAX_DOCKET, &mut other_rows));
        assert_eq!(rows, other_rows);
        for docket in 99..112 {
            assert_eq!(one.lookup(docket), two.lookup(docket));
        }
        assert_eq!(format!("{one:?}"), format!("{two:?}"));
    }
    Ok(())
}

#[test]
fn refusals() {
    let (mut entries, levels) = tables_with(3);
    let grower = Grower::open(&entries, &levels).unwrap();
    assert_eq!(grower.lookup(MAX_DOCKET + 1), Err(Refusal::Docket));
    let mut rows = [junk(); 2];
    assert_eq!(grower.scan(1, 0, &mut rows), Err(Refusal::Docket));
    assert_eq!(rows, [junk(); 2]);
    assert_eq!(Grower::open(&entries[..8], &levels).unwrap_err(), Refusal::EntryLength);
    assert_eq!(Grower::open(&entries, &levels[..3]).unwrap_err(), Refusal::LevelTable);
    entries[4] = 1;
    assert_eq!(Grower::open(&entries, &levels).unwrap_err(), Refusal::Unsound);
}

#[test]
fn a_store_and_a_view_show_a_grower_the_same() -> Result<(), Refusal> {
    let (mut entries, mut levels) = tables_with(3);
    let store = Store::open(&mut entries, &mut levels)?;
    for docket in 99..112 {
        assert_eq!(store.grower().lookup(docket), store.view().grower().lookup(docket));
    }
    Ok(())
}
