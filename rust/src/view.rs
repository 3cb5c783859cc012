//! Two tables lent for reading alone.
use crate::answers;
use crate::ffi;
use crate::settings::SLOT_WORDS;
use crate::{Found, Grower, Live, Refusal, Row, Scanned, Settings};

/// Checks two tables, as every call but [`Store::make`](crate::Store::make) does first.
///
/// Refusals, in this order: [`EntryLength`](Refusal::EntryLength), [`LevelTable`](Refusal::LevelTable), [`Unsound`](Refusal::Unsound).
///
/// ```
/// use guontrem::{check, Refusal};
///
/// assert_eq!(check(&[0; 8], &[0; 16]), Err(Refusal::EntryLength));
/// assert_eq!(check(&[0; 10], &[0; 16]), Err(Refusal::LevelTable));
/// ```
pub fn check(entries: &[u32], levels: &[u32]) -> Result<(), Refusal> {
    // SAFETY: both slices are valid for reads of their lengths, and nothing else is read.
    Refusal::check(unsafe { ffi::guontrem_check(entries.as_ptr(), entries.len(), levels.as_ptr(), levels.len()) })
}

/// Two tables that hold a store, lent for reading alone: tables in read-only memory, or a [`Store`](crate::Store) that others look at.
///
/// The tables passed the check and cannot change while they are lent, so [`clock`](View::clock), [`slots`](View::slots) and
/// [`settings`](View::settings) are those of the store, and a call on a view is refused for its dockets alone. Each call checks the
/// tables all the same.
#[derive(Clone, Copy, Debug)]
pub struct View<'a> {
    entries: &'a [u32],
    levels: &'a [u32],
}

impl<'a> View<'a> {
    /// Takes up tables that hold a store.
    ///
    /// Refusals: those of [`check`](crate::check()).
    ///
    /// ```
    /// use guontrem::{entry_words, level_words, Refusal, Settings, Store, Tally, View};
    ///
    /// let (mut entries, mut levels) = ([0; entry_words(6)], [0; level_words(2)]);
    /// assert_eq!(View::open(&entries, &levels).unwrap_err(), Refusal::LevelTable);
    /// let settings = Settings { deepest: 2, ratio: 2, buffer: 2, term: 9 };
    /// Store::make(&mut entries, &mut levels, settings)?.put(5, 7, Tally { count: 70, price: 3 })?;
    ///
    /// let view = View::open(&entries, &levels)?;
    /// assert_eq!(view.lookup(7)?.unwrap().tally, Tally { count: 70, price: 3 });
    /// assert_eq!((view.clock(), view.slots(), view.settings()), (5, 6, settings));
    /// # Ok::<(), guontrem::Refusal>(())
    /// ```
    pub fn open(entries: &'a [u32], levels: &'a [u32]) -> Result<Self, Refusal> {
        check(entries, levels)?;
        Ok(View { entries, levels })
    }

    /// A view of a store's own tables, which are sound since it was made or taken up.
    pub(crate) fn of_sound(entries: &'a [u32], levels: &'a [u32]) -> Self {
        View { entries, levels }
    }

    /// Checks the tables once more, for a caller whose memory may fail.
    ///
    /// Refusals: those of [`check`](crate::check()).
    pub fn check(&self) -> Result<(), Refusal> {
        check(self.entries, self.levels)
    }

    /// The clock of the last accepted timed call; 0 in a fresh store.
    pub fn clock(&self) -> u32 {
        self.entries[1]
    }

    /// How many slots the store has.
    pub fn slots(&self) -> usize {
        self.entries.len() / SLOT_WORDS - 1
    }

    /// The settings that the store was made with.
    pub fn settings(&self) -> Settings {
        Settings { deepest: self.levels[0], ratio: self.levels[1], buffer: self.levels[2], term: self.levels[3] }
    }

    /// When to wake: the clock of the next merge that a delete makes due; nothing where no delete waits for one.
    ///
    /// After an accepted timed call, ticks before that clock merge and purge nothing and change no word but the last clock, and a tick at
    /// it merges. So a controller may sleep till then instead of ticking. It may lie past `u32::MAX`, where there is no tick.
    ///
    /// Refusals: those of [`check`](crate::check()).
    ///
    /// ```
    /// use guontrem::{entry_words, level_words, Settings, Store};
    ///
    /// let (mut entries, mut levels) = ([0; entry_words(6)], [0; level_words(2)]);
    /// let mut store = Store::make(&mut entries, &mut levels, Settings { deepest: 2, ratio: 2, buffer: 2, term: 9 })?;
    /// assert_eq!(store.wake()?, None);
    /// store.delete(5, 7)?;
    /// assert_eq!(store.wake()?, Some(8));
    /// assert_eq!(store.tick(7)?.merges, 0);
    /// assert_eq!(store.tick(8)?.merges, 1);
    /// assert_eq!(store.wake()?, Some(14));
    /// # Ok::<(), guontrem::Refusal>(())
    /// ```
    pub fn wake(&self) -> Result<Option<u64>, Refusal> {
        let (e, ne, l, nl) = self.lend();
        // SAFETY: as `lend` says.
        answers::wake(unsafe { ffi::guontrem_wake(e, ne, l, nl) })
    }

    /// Looks a docket up; nothing where it is absent.
    ///
    /// Refusals, in this order: those of [`check`](crate::check()), [`Docket`](Refusal::Docket).
    pub fn lookup(&self, docket: u32) -> Result<Option<Found>, Refusal> {
        let (e, ne, l, nl) = self.lend();
        let mut price = 0;
        // SAFETY: as `lend` says; the word for the price is this function's own.
        let answer = unsafe { ffi::guontrem_lookup(e, ne, l, nl, docket, &mut price) };
        answers::found(answer, price)
    }

    /// Fills rows with the live dockets from lo to hi, ascending, as many as there is room for; rows past the count stay as they were.
    ///
    /// Refusals, in this order: those of [`check`](crate::check()), [`Docket`](Refusal::Docket).
    ///
    /// ```
    /// use guontrem::{entry_words, level_words, Row, Settings, Store, Tally};
    ///
    /// let (mut entries, mut levels) = ([0; entry_words(6)], [0; level_words(2)]);
    /// let mut store = Store::make(&mut entries, &mut levels, Settings { deepest: 2, ratio: 2, buffer: 2, term: 9 })?;
    /// store.put(1, 8, Tally { count: 80, price: 4 })?;
    /// store.put(2, 7, Tally { count: 70, price: 3 })?;
    /// let mut rows = [Row::default(); 1];
    /// let scanned = store.view().scan(0, 65535, &mut rows)?;
    /// assert_eq!((scanned.count, scanned.next), (1, Some(8)));
    /// assert_eq!((rows[0].docket, rows[0].count, rows[0].price, rows[0].stamp), (7, 70, 3, 2));
    /// # Ok::<(), guontrem::Refusal>(())
    /// ```
    pub fn scan(&self, lo: u32, hi: u32, rows: &mut [Row]) -> Result<Scanned, Refusal> {
        let (e, ne, l, nl) = self.lend();
        // SAFETY: as `lend` says; the rows are valid for writes of their length, and `Row` has the layout of the header.
        answers::scanned(unsafe { ffi::guontrem_scan(e, ne, l, nl, lo, hi, rows.as_mut_ptr(), rows.len()) })
    }

    /// The live dockets from lo to hi, ascending, one by one.
    ///
    /// Refusals, all of them here: those of [`check`](crate::check()), [`Docket`](Refusal::Docket). Past that, no step is refused.
    ///
    /// ```
    /// use guontrem::{entry_words, level_words, Settings, Store, Tally, MAX_DOCKET};
    ///
    /// let (mut entries, mut levels) = ([0; entry_words(6)], [0; level_words(2)]);
    /// let mut store = Store::make(&mut entries, &mut levels, Settings { deepest: 2, ratio: 2, buffer: 2, term: 9 })?;
    /// store.put(1, 8, Tally { count: 80, price: 4 })?;
    /// store.put(2, 7, Tally { count: 70, price: 3 })?;
    /// let mut worth = 0;
    /// for row in store.view().live(0, MAX_DOCKET)? {
    ///     worth += row.price;
    /// }
    /// assert_eq!(worth, 7);
    /// # Ok::<(), guontrem::Refusal>(())
    /// ```
    pub fn live(&self, lo: u32, hi: u32) -> Result<Live<'a>, Refusal> {
        Live::begin(*self, lo, hi)
    }

    /// What a grower may read of the tables: counts and stamps, no price.
    pub fn grower(&self) -> Grower<'a> {
        Grower::of(*self)
    }

    /// Both tables as the archive takes them: valid for reads of their lengths, and nothing writes them meanwhile.
    pub(crate) fn lend(&self) -> (*const u32, usize, *const u32, usize) {
        (self.entries.as_ptr(), self.entries.len(), self.levels.as_ptr(), self.levels.len())
    }
}
