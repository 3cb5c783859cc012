//! Two tables lent for reading and writing.
use crate::answers;
use crate::ffi;
use crate::{check, Found, Grower, Passed, Refusal, Row, Scanned, Settings, Tally, View};

/// Two lent tables that hold a store.
///
/// A timed call ([`put`](Store::put), [`delete`](Store::delete), [`delete_range`](Store::delete_range),
/// [`delete_range_dated`](Store::delete_range_dated), [`flush`](Store::flush), [`tick`](Store::tick)) ends with the pass, which merges
/// each level, the buffer too, that has too many records or has a delete as old as its limit of time. A refused call leaves every word
/// as it was; only [`Refusal::Full`] leaves the levels merged down, which no lookup and no scan can tell.
///
/// Erasure, in a store that [`make`](Store::make) made and only these calls changed: once a delete was accepted and a call at least the
/// term after it was accepted, both tables are word for word what they would be had an earlier put that the delete covers carried any
/// other count or price.
#[derive(Debug)]
pub struct Store<'a> {
    entries: &'a mut [u32],
    levels: &'a mut [u32],
}

impl<'a> Store<'a> {
    /// Makes a fresh store, whatever the tables held; the slots follow from the entry table's length.
    ///
    /// Refusals, in this order: [`EntryLength`](Refusal::EntryLength), [`Settings`](Refusal::Settings),
    /// [`LevelTable`](Refusal::LevelTable) where its length is not the one for the deepest level.
    ///
    /// ```
    /// use guontrem::{Refusal, Settings, Store};
    ///
    /// let settings = Settings { deepest: 7, ratio: 2, buffer: 1, term: 1 };
    /// assert_eq!(Store::make(&mut [0; 10], &mut [0; 16], settings).unwrap_err(), Refusal::Settings);
    /// ```
    pub fn make(entries: &'a mut [u32], levels: &'a mut [u32], settings: Settings) -> Result<Self, Refusal> {
        let Settings { deepest, ratio, buffer, term } = settings;
        let mut store = Store { entries, levels };
        let (e, ne, l, nl) = store.lend();
        // SAFETY: as `lend` says.
        Refusal::check(unsafe { ffi::guontrem_make(e, ne, l, nl, deepest, ratio, buffer, term) })?;
        Ok(store)
    }

    /// Takes up tables that hold a store already.
    ///
    /// Refusals: those of [`check`].
    ///
    /// ```
    /// use guontrem::{entry_words, level_words, Settings, Store, Tally};
    ///
    /// let mut entries = [0; entry_words(6)];
    /// let mut levels = [0; level_words(2)];
    /// let settings = Settings { deepest: 2, ratio: 2, buffer: 2, term: 9 };
    /// Store::make(&mut entries, &mut levels, settings)?.put(1, 7, Tally { count: 70, price: 3 })?;
    /// let store = Store::open(&mut entries, &mut levels)?;
    /// assert_eq!(store.lookup(7)?.unwrap().tally.price, 3);
    /// # Ok::<(), guontrem::Refusal>(())
    /// ```
    pub fn open(entries: &'a mut [u32], levels: &'a mut [u32]) -> Result<Self, Refusal> {
        check(entries, levels)?;
        Ok(Store { entries, levels })
    }

    /// Puts a docket's count and price, in place of those it had.
    ///
    /// Refusals, in this order: those of [`check`], [`Docket`](Refusal::Docket), [`Clock`](Refusal::Clock), [`Full`](Refusal::Full).
    pub fn put(&mut self, clock: u32, docket: u32, tally: Tally) -> Result<Passed, Refusal> {
        let (e, ne, l, nl) = self.lend();
        // SAFETY: as `lend` says.
        answers::passed(unsafe { ffi::guontrem_put(e, ne, l, nl, clock, docket, tally.count, tally.price) })
    }

    /// Deletes a docket, live or not; never refused for lack of a slot.
    ///
    /// Refusals, in this order: those of [`check`], [`Docket`](Refusal::Docket), [`Clock`](Refusal::Clock).
    pub fn delete(&mut self, clock: u32, docket: u32) -> Result<Passed, Refusal> {
        let (e, ne, l, nl) = self.lend();
        // SAFETY: as `lend` says.
        answers::passed(unsafe { ffi::guontrem_delete(e, ne, l, nl, clock, docket) })
    }

    /// Deletes the dockets from lo to hi, both included; never refused for lack of a slot.
    ///
    /// Refusals, in this order: those of [`check`], [`Docket`](Refusal::Docket), [`Clock`](Refusal::Clock).
    pub fn delete_range(&mut self, clock: u32, lo: u32, hi: u32) -> Result<Passed, Refusal> {
        let (e, ne, l, nl) = self.lend();
        // SAFETY: as `lend` says.
        answers::passed(unsafe { ffi::guontrem_delete_range(e, ne, l, nl, clock, lo, hi) })
    }

    /// Deletes, of the dockets from lo to hi, those whose put was at the date or before it; the date is from 1 to the clock. It covers
    /// every put there with such a clock, also one that a newer put already replaced. Never refused for lack of a slot.
    ///
    /// Refusals, in this order: those of [`check`], [`Docket`](Refusal::Docket), [`Clock`](Refusal::Clock), [`Date`](Refusal::Date).
    ///
    /// ```
    /// use guontrem::{entry_words, level_words, Settings, Store, Tally, MAX_DOCKET};
    ///
    /// let mut entries = [0; entry_words(6)];
    /// let mut levels = [0; level_words(2)];
    /// let mut store = Store::make(&mut entries, &mut levels, Settings { deepest: 2, ratio: 2, buffer: 2, term: 9 })?;
    /// store.put(1, 7, Tally { count: 70, price: 3 })?;
    /// store.put(2, 8, Tally { count: 80, price: 4 })?;
    /// store.delete_range_dated(5, 0, MAX_DOCKET, 1)?;
    /// assert_eq!(store.lookup(7)?, None);
    /// assert_eq!(store.lookup(8)?.unwrap().tally, Tally { count: 80, price: 4 });
    /// # Ok::<(), guontrem::Refusal>(())
    /// ```
    pub fn delete_range_dated(&mut self, clock: u32, lo: u32, hi: u32, date: u32) -> Result<Passed, Refusal> {
        let (e, ne, l, nl) = self.lend();
        // SAFETY: as `lend` says.
        answers::passed(unsafe { ffi::guontrem_delete_range_dated(e, ne, l, nl, clock, lo, hi, date) })
    }

    /// Merges the buffer first, full or not. The term needs no flush.
    ///
    /// Refusals, in this order: those of [`check`], [`Clock`](Refusal::Clock).
    pub fn flush(&mut self, clock: u32) -> Result<Passed, Refusal> {
        let (e, ne, l, nl) = self.lend();
        // SAFETY: as `lend` says.
        answers::passed(unsafe { ffi::guontrem_flush(e, ne, l, nl, clock) })
    }

    /// Does the pass alone, so that what has come due is merged.
    ///
    /// Refusals, in this order: those of [`check`], [`Clock`](Refusal::Clock).
    ///
    /// ```
    /// use guontrem::{entry_words, level_words, Settings, Store};
    ///
    /// let mut entries = [0; entry_words(6)];
    /// let mut levels = [0; level_words(2)];
    /// let mut store = Store::make(&mut entries, &mut levels, Settings { deepest: 2, ratio: 2, buffer: 1, term: 4 })?;
    /// store.delete(1, 5)?;
    /// assert_eq!(store.tick(4)?.purged, 0);
    /// assert_eq!(store.tick(5)?.purged, 1);
    /// # Ok::<(), guontrem::Refusal>(())
    /// ```
    pub fn tick(&mut self, clock: u32) -> Result<Passed, Refusal> {
        let (e, ne, l, nl) = self.lend();
        // SAFETY: as `lend` says.
        answers::passed(unsafe { ffi::guontrem_tick(e, ne, l, nl, clock) })
    }

    /// When to wake, as [`View::wake`] says: the clock of the next merge that a delete makes due, if one waits for it.
    ///
    /// Refusals: those of [`check`].
    pub fn wake(&self) -> Result<Option<u64>, Refusal> {
        self.view().wake()
    }

    /// Looks a docket up; nothing where it is absent.
    ///
    /// Refusals, in this order: those of [`check`], [`Docket`](Refusal::Docket).
    pub fn lookup(&self, docket: u32) -> Result<Option<Found>, Refusal> {
        self.view().lookup(docket)
    }

    /// Fills rows with the live dockets from lo to hi, as [`View::scan`] does; [`View::live`] gives them one by one.
    ///
    /// Refusals, in this order: those of [`check`], [`Docket`](Refusal::Docket).
    pub fn scan(&self, lo: u32, hi: u32, rows: &mut [Row]) -> Result<Scanned, Refusal> {
        self.view().scan(lo, hi, rows)
    }

    /// The store for reading alone, until it is written again.
    pub fn view(&self) -> View<'_> {
        View::of_sound(self.entries, self.levels)
    }

    /// What a grower may read of the store, until it is written again: counts and stamps, no price.
    pub fn grower(&self) -> Grower<'_> {
        self.view().grower()
    }

    /// Both tables as the archive takes them: valid for reads and writes of their lengths, and apart from each other.
    fn lend(&mut self) -> (*mut u32, usize, *mut u32, usize) {
        (self.entries.as_mut_ptr(), self.entries.len(), self.levels.as_mut_ptr(), self.levels.len())
    }
}
