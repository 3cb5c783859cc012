//! What a grower's terminal may read.
use crate::answers;
use crate::ffi;
use crate::{Count, CountRow, Refusal, Scanned, View};

/// Two tables that hold a store, lent for reading counts and stamps alone; made by [`Store::grower`](crate::Store::grower),
/// [`View::grower`] or over borrowed tables.
///
/// It has no way to a price, and it shows no word of the tables in its `Debug`. Two stores whose puts differ in price alone answer it
/// alike.
#[derive(Clone, Copy)]
pub struct Grower<'a> {
    view: View<'a>,
}

impl<'a> Grower<'a> {
    /// Takes up tables that hold a store.
    ///
    /// Refusals: those of [`check`](crate::check()).
    ///
    /// ```
    /// use guontrem::{entry_words, level_words, Grower, Settings, Store, Tally};
    ///
    /// let (mut entries, mut levels) = ([0; entry_words(6)], [0; level_words(2)]);
    /// let settings = Settings { deepest: 2, ratio: 2, buffer: 2, term: 9 };
    /// Store::make(&mut entries, &mut levels, settings)?.put(5, 7, Tally { count: 70, price: 3 })?;
    ///
    /// let seen = Grower::open(&entries, &levels)?.lookup(7)?.unwrap();
    /// assert_eq!((seen.count, seen.stamp), (70, 5));
    /// # Ok::<(), guontrem::Refusal>(())
    /// ```
    pub fn open(entries: &'a [u32], levels: &'a [u32]) -> Result<Self, Refusal> {
        View::open(entries, levels).map(Self::of)
    }

    pub(crate) fn of(view: View<'a>) -> Self {
        Grower { view }
    }

    /// Looks a docket up; nothing where it is absent.
    ///
    /// Refusals, in this order: those of [`check`](crate::check()), [`Docket`](Refusal::Docket).
    pub fn lookup(&self, docket: u32) -> Result<Option<Count>, Refusal> {
        let (e, ne, l, nl) = self.view.lend();
        // SAFETY: as `lend` says.
        answers::counted(unsafe { ffi::guontrem_lookup_count(e, ne, l, nl, docket) })
    }

    /// Fills rows with the live dockets from lo to hi, ascending, as many as there is room for; rows past the count stay as they were.
    ///
    /// Refusals, in this order: those of [`check`](crate::check()), [`Docket`](Refusal::Docket).
    ///
    /// ```
    /// use guontrem::{entry_words, level_words, CountRow, Settings, Store, Tally};
    ///
    /// let (mut entries, mut levels) = ([0; entry_words(6)], [0; level_words(2)]);
    /// let mut store = Store::make(&mut entries, &mut levels, Settings { deepest: 2, ratio: 2, buffer: 2, term: 9 })?;
    /// store.put(1, 8, Tally { count: 80, price: 4 })?;
    /// store.put(2, 7, Tally { count: 70, price: 3 })?;
    /// let mut rows = [CountRow::default(); 1];
    /// let scanned = store.grower().scan(0, 65535, &mut rows)?;
    /// assert_eq!((scanned.count, scanned.next), (1, Some(8)));
    /// assert_eq!((rows[0].docket, rows[0].count, rows[0].stamp), (7, 70, 2));
    /// # Ok::<(), guontrem::Refusal>(())
    /// ```
    pub fn scan(&self, lo: u32, hi: u32, rows: &mut [CountRow]) -> Result<Scanned, Refusal> {
        let (e, ne, l, nl) = self.view.lend();
        // SAFETY: as `lend` says; the rows are valid for writes of their length, and `CountRow` has the layout of the header.
        answers::scanned(unsafe { ffi::guontrem_scan_counts(e, ne, l, nl, lo, hi, rows.as_mut_ptr(), rows.len()) })
    }
}

impl core::fmt::Debug for Grower<'_> {
    fn fmt(&self, f: &mut core::fmt::Formatter<'_>) -> core::fmt::Result {
        f.debug_struct("Grower").finish_non_exhaustive()
    }
}
