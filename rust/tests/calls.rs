//! The calls through the wrapper: a store's life, every refusal, and tables that stay as they were.
use guontrem::{
    check, entry_words, level_words, Found, Passed, Refusal, Settings, Store, Tally, MAX_DOCKET, MAX_SLOTS,
};

const SETTINGS: Settings = Settings { deepest: 3, ratio: 2, buffer: 2, term: 9 };

/// Merges and purged of an accepted call.
fn numbers(answer: Result<Passed, Refusal>) -> Result<(u32, u32), Refusal> {
    answer.map(|passed| (passed.merges, passed.purged))
}

/// Count, price and stamp of a docket that is found.
fn parts(answer: Result<Option<Found>, Refusal>) -> Result<Option<(u32, u32, u32)>, Refusal> {
    Ok(answer?.map(|found| (found.tally.count, found.tally.price, found.stamp)))
}

fn tally(count: u32, price: u32) -> Tally {
    Tally { count, price }
}

#[test]
fn answers_of_the_paper() -> Result<(), Refusal> {
    let (mut entries, mut levels) = ([0xdead; entry_words(6)], [0xbeef; level_words(3)]);
    let mut store = Store::make(&mut entries, &mut levels, SETTINGS)?;
    assert_eq!(numbers(store.put(1, 7, tally(70, 7))), Ok((0, 0)));
    assert_eq!(numbers(store.put(1, 8, tally(80, 8))), Ok((1, 0)));
    assert_eq!(numbers(store.delete(2, 7)), Ok((0, 0)));
    assert_eq!(numbers(store.put(3, 9, tally(90, 9))), Ok((1, 1)));
    assert_eq!(store.lookup(7)?, None);
    assert_eq!(numbers(store.put(4, 7, tally(71, 7))), Ok((0, 0)));
    assert_eq!(numbers(store.tick(5)), Ok((1, 0)));
    assert_eq!(parts(store.lookup(7)), Ok(Some((71, 7, 4))));
    assert_eq!(numbers(store.tick(11)), Ok((1, 1)));
    assert_eq!(store.flush(10), Err(Refusal::Clock));
    Ok(())
}

/// A controller that sleeps: ticks before the clock change the last clock alone, and one at it merges, level after level.
#[test]
fn when_to_wake() -> Result<(), Refusal> {
    let (mut entries, mut levels) = ([0; entry_words(6)], [0; level_words(3)]);
    let mut store = Store::make(&mut entries, &mut levels, SETTINGS)?;
    store.put(1, 7, tally(70, 7))?;
    assert_eq!((store.wake(), store.view().wake()), (Ok(None), Ok(None)));
    store.delete(2, 8)?;
    let mut met = Vec::new();
    while let Some(clock) = store.wake()? {
        assert_eq!(numbers(store.tick(clock as u32 - 1)), Ok((0, 0)));
        assert_eq!(store.wake()?, Some(clock));
        assert!(store.tick(clock as u32)?.merges > 0);
        met.push(clock);
    }
    assert_eq!(met, [5, 11]);
    Ok(())
}

#[test]
fn a_wake_past_32_bits() -> Result<(), Refusal> {
    let (mut entries, mut levels) = ([0; entry_words(6)], [0; level_words(2)]);
    let long = Settings { deepest: 2, ratio: 2, buffer: 4, term: u32::MAX };
    let mut store = Store::make(&mut entries, &mut levels, long)?;
    store.delete(u32::MAX, 5)?;
    assert_eq!(store.wake()?, Some(5726623060));
    Ok(())
}

#[test]
fn a_range_and_a_flush() -> Result<(), Refusal> {
    let (mut entries, mut levels) = ([0; entry_words(6)], [0; level_words(3)]);
    let mut store = Store::make(&mut entries, &mut levels, SETTINGS)?;
    store.put(1, 100, tally(u32::MAX, 7))?;
    assert_eq!(parts(store.lookup(100)), Ok(Some((u32::MAX, 7, 1))));
    assert_eq!(numbers(store.delete_range(u32::MAX, 0, MAX_DOCKET)), Ok((0, 1)));
    assert_eq!(store.lookup(100)?, None);
    assert_eq!(numbers(store.flush(u32::MAX)), Ok((1, 0)));
    Ok(())
}

#[test]
fn up_to_a_date() -> Result<(), Refusal> {
    let (mut entries, mut levels) = ([0; entry_words(6)], [0; level_words(3)]);
    let mut store = Store::make(&mut entries, &mut levels, SETTINGS)?;
    store.put(3, 5, tally(50, 5))?;
    store.put(4, 6, tally(60, 6))?;
    assert_eq!(numbers(store.delete_range_dated(9, 0, MAX_DOCKET, 3)), Ok((0, 0)));
    assert_eq!(store.lookup(5)?, None);
    assert_eq!(parts(store.lookup(6)), Ok(Some((60, 6, 4))));
    assert_eq!(numbers(store.flush(9)), Ok((1, 1)));
    assert_eq!(parts(store.lookup(6)), Ok(Some((60, 6, 4))));
    for (lo, hi, clock, date, refusal) in [
        (0, 9, 9, 0, Refusal::Date),
        (0, 9, 9, 10, Refusal::Date),
        (0, 9, 8, 9, Refusal::Clock),
        (1, 0, 8, 0, Refusal::Docket),
    ] {
        assert_eq!(store.delete_range_dated(clock, lo, hi, date), Err(refusal));
    }
    assert_eq!(numbers(store.delete_range_dated(9, 6, 6, 9)), Ok((0, 0)));
    assert_eq!(store.lookup(6)?, None);
    Ok(())
}

/// Counts and prices are any 32 bits, and a put replaces both.
#[test]
fn a_price_beside_a_count() -> Result<(), Refusal> {
    let (mut entries, mut levels) = ([0; entry_words(6)], [0; level_words(3)]);
    let mut store = Store::make(&mut entries, &mut levels, SETTINGS)?;
    for (count, price) in [(0, 0), (0, u32::MAX), (u32::MAX, 0), (u32::MAX, u32::MAX), (70, 3), (70, 4)] {
        store.put(1, 7, tally(count, price))?;
        assert_eq!(parts(store.lookup(7)), Ok(Some((count, price, 1))));
    }
    store.delete(2, 7)?;
    assert_eq!(store.lookup(7)?, None);
    Ok(())
}

#[test]
fn every_refusal() {
    let (mut entries, mut levels) = (vec![0; entry_words(1)], vec![0; level_words(2)]);
    let settings = Settings { deepest: 2, ratio: 2, buffer: 1, term: 4 };
    assert_eq!(Store::make(&mut entries[..8], &mut levels, settings).unwrap_err(), Refusal::EntryLength);
    assert_eq!(Store::make(&mut [], &mut [], settings).unwrap_err(), Refusal::EntryLength);
    assert_eq!(
        Store::make(&mut vec![0; entry_words(MAX_SLOTS + 1)], &mut levels, settings).unwrap_err(),
        Refusal::EntryLength
    );
    assert_eq!(
        Store::make(&mut entries, &mut levels, Settings { buffer: 65, ..settings }).unwrap_err(),
        Refusal::Settings
    );
    assert_eq!(Store::make(&mut entries, &mut levels[..15], settings).unwrap_err(), Refusal::LevelTable);
    assert_eq!(Store::open(&mut entries, &mut levels).unwrap_err(), Refusal::LevelTable);
    let mut store = Store::make(&mut entries, &mut levels, settings).unwrap();
    assert_eq!(store.put(1, MAX_DOCKET + 1, tally(1, 0)), Err(Refusal::Docket));
    assert_eq!(store.delete_range(1, 1, 0), Err(Refusal::Docket));
    assert_eq!(store.lookup(MAX_DOCKET + 1), Err(Refusal::Docket));
    assert_eq!(store.tick(0), Err(Refusal::Clock));
    assert_eq!(store.delete_range_dated(1, 0, 9, 2), Err(Refusal::Date));
    assert_eq!(numbers(store.put(1, 5, tally(50, 5))), Ok((1, 0)));
    assert_eq!(numbers(store.put(2, 5, tally(51, 5))), Ok((1, 1)));
    assert_eq!(store.put(3, 6, tally(60, 6)), Err(Refusal::Full));
    assert_eq!(parts(store.lookup(5)), Ok(Some((51, 5, 2))));
    assert_eq!(numbers(store.delete(4, 5)), Ok((0, 2)));
    entries[4] = 1;
    let before = (entries.clone(), levels.clone());
    assert_eq!(check(&entries, &levels), Err(Refusal::Unsound));
    assert_eq!(Store::open(&mut entries, &mut levels).unwrap_err(), Refusal::Unsound);
    assert_eq!((entries, levels), before);
}

#[test]
fn numbers_and_texts() {
    let all = [
        Refusal::EntryLength,
        Refusal::LevelTable,
        Refusal::Unsound,
        Refusal::Docket,
        Refusal::Clock,
        Refusal::Settings,
        Refusal::Full,
        Refusal::Date,
    ];
    assert_eq!(all.map(Refusal::number), [1, 2, 3, 4, 5, 6, 7, 10]);
    let texts: std::collections::BTreeSet<String> = all.iter().map(Refusal::to_string).collect();
    assert_eq!(texts.len(), all.len());
}

#[test]
fn the_largest_store() -> Result<(), Refusal> {
    let (mut entries, mut levels) = (vec![0; entry_words(MAX_SLOTS)], vec![0; level_words(6)]);
    let mut store =
        Store::make(&mut entries, &mut levels, Settings { deepest: 6, ratio: 10, buffer: 64, term: u32::MAX })?;
    assert_eq!(numbers(store.put(1, MAX_DOCKET, tally(1, 0))), Ok((0, 0)));
    assert_eq!(parts(store.lookup(MAX_DOCKET)), Ok(Some((1, 0, 1))));
    Ok(())
}

/// The crate and the header are of one version.
#[test]
fn the_version() {
    let number = |name: &str| {
        let line = include_str!("../../include/guontrem.h").lines().find_map(|line| line.strip_prefix(name));
        line.expect("the header has it").trim().to_string()
    };
    let (major, minor) = (number("#define GUONTREM_VERSION_MAJOR"), number("#define GUONTREM_VERSION_MINOR"));
    assert_eq!(env!("CARGO_PKG_VERSION"), format!("{major}.{minor}.0"));
}
