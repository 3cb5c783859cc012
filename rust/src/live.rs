//! A scan as an iterator.
use crate::{Refusal, Row, View};
use core::iter::FusedIterator;

/// How many rows one scan fetches.
const BLOCK: usize = 64;

/// The live dockets of a range, ascending; made by [`View::live`].
///
/// Rows are fetched 64 at a time into an array in here, so nothing is allocated. Each block is a scan with its own check of the
/// tables; where there is room for many rows, one [`View::scan`] into it takes less time.
///
/// The tables are lent unchanged as long as this lives, and each block begins at a live docket that the block before named, so a block
/// is never refused. Should one be, since memory failed, this panics rather than leave dockets out.
#[derive(Clone, Debug)]
pub struct Live<'a> {
    view: View<'a>,
    hi: u32,
    /// Rows from `at` to `count` are still to be given.
    rows: [Row; BLOCK],
    at: usize,
    count: usize,
    /// The first live docket past these rows.
    next: Option<u32>,
}

impl<'a> Live<'a> {
    pub(crate) fn begin(view: View<'a>, lo: u32, hi: u32) -> Result<Self, Refusal> {
        let mut live = Live { view, hi, rows: [Row::default(); BLOCK], at: 0, count: 0, next: None };
        live.fetch(lo)?;
        Ok(live)
    }

    /// The block of rows from a docket on, in place of those that were given.
    fn fetch(&mut self, lo: u32) -> Result<(), Refusal> {
        let scanned = self.view.scan(lo, self.hi, &mut self.rows)?;
        (self.at, self.count, self.next) = (0, scanned.count, scanned.next);
        Ok(())
    }
}

impl Iterator for Live<'_> {
    type Item = Row;

    fn next(&mut self) -> Option<Row> {
        if self.at == self.count {
            self.fetch(self.next?).expect("a scan from a live docket of lent tables is not refused");
        }
        let row = self.rows[..self.count].get(self.at).copied();
        self.at += usize::from(row.is_some());
        row
    }

    fn size_hint(&self) -> (usize, Option<usize>) {
        let here = self.count - self.at;
        // The next docket is live, and each of the others up to hi may be.
        let (least, most) = self.next.map_or((0, 0), |next| (1, (self.hi - next) as usize + 1));
        (here + least, Some(here + most))
    }
}

impl FusedIterator for Live<'_> {}
