//! Scans through the wrapper.
use guontrem::{entry_words, level_words, Refusal, Row, Scanned, Settings, Store, Tally, MAX_DOCKET};

/// A row that no scan would fill.
fn junk() -> Row {
    let mut row = Row::default();
    (row.docket, row.count, row.price, row.stamp) = (MAX_DOCKET + 1, 2, 3, 4);
    row
}

fn count_and_next(answer: Result<Scanned, Refusal>) -> Result<(usize, Option<u32>), Refusal> {
    answer.map(|scanned| (scanned.count, scanned.next))
}

#[test]
fn rows_and_the_next_docket() -> Result<(), Refusal> {
    let (mut entries, mut levels) = ([0; entry_words(8)], [0; level_words(3)]);
    let mut store = Store::make(&mut entries, &mut levels, Settings { deepest: 3, ratio: 2, buffer: 2, term: 9 })?;
    for (clock, docket) in [(1, MAX_DOCKET), (2, 0), (3, 40), (4, 30)] {
        store.put(clock, docket, Tally { count: 10 * clock, price: 5 * clock })?;
    }
    store.delete(5, 40)?;
    let mut rows = [junk(); 4];
    assert_eq!(count_and_next(store.scan(0, MAX_DOCKET, &mut rows)), Ok((3, None)));
    let live = [(0, 20, 10, 2), (30, 40, 20, 4), (MAX_DOCKET, 10, 5, 1)];
    assert!(rows[..3].iter().map(|row| (row.docket, row.count, row.price, row.stamp)).eq(live));
    assert_eq!(rows[3], junk());
    assert_eq!(count_and_next(store.scan(0, MAX_DOCKET, &mut rows[..2])), Ok((2, Some(MAX_DOCKET))));
    assert_eq!(count_and_next(store.scan(1, 29, &mut rows)), Ok((0, None)));
    assert_eq!(count_and_next(store.scan(0, 0, &mut [])), Ok((0, Some(0))));
    Ok(())
}

#[test]
fn a_refused_scan_writes_no_row() {
    let (mut entries, mut levels) = ([0; entry_words(1)], [0; level_words(2)]);
    let store = Store::make(&mut entries, &mut levels, Settings { deepest: 2, ratio: 2, buffer: 1, term: 1 }).unwrap();
    let mut rows = [junk(); 2];
    assert_eq!(store.scan(1, 0, &mut rows), Err(Refusal::Docket));
    assert_eq!(store.scan(0, MAX_DOCKET + 1, &mut rows), Err(Refusal::Docket));
    assert_eq!(rows, [junk(); 2]);
}
