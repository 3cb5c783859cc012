//! What calls answer, and how the archive's numbers are read.
use crate::Refusal;

/// What an accepted timed call did beside its own part.
#[derive(Clone, Copy, Debug, PartialEq, Eq)]
#[non_exhaustive]
pub struct Passed {
    /// The merges whose upper level had a record.
    pub merges: u32,
    /// How many records went: held before + written - held after.
    pub purged: u32,
}

/// What a put stores for a docket.
///
/// A caller writes both out by name, so this struct is not `#[non_exhaustive]`.
#[derive(Clone, Copy, Debug, Default, PartialEq, Eq, Hash)]
pub struct Tally {
    /// How many there are.
    pub count: u32,
    /// What they cost.
    pub price: u32,
}

/// A docket's tally, and the clock of the put.
#[derive(Clone, Copy, Debug, PartialEq, Eq)]
#[non_exhaustive]
pub struct Found {
    /// The count and the price.
    pub tally: Tally,
    /// The clock of the put.
    pub stamp: u32,
}

/// What a grower sees of a docket: its count, and the clock of the put.
#[derive(Clone, Copy, Debug, PartialEq, Eq)]
#[non_exhaustive]
pub struct Count {
    /// The count.
    pub count: u32,
    /// The clock of the put.
    pub stamp: u32,
}

/// A live docket, as a scan gives it. Rows to lend to a scan are `Row::default()`, all zero.
#[repr(C)]
#[derive(Clone, Copy, Debug, Default, PartialEq, Eq)]
#[non_exhaustive]
pub struct Row {
    /// The docket.
    pub docket: u32,
    /// Its count.
    pub count: u32,
    /// Its price.
    pub price: u32,
    /// The clock of the put.
    pub stamp: u32,
}

/// A live docket, as a grower's scan gives it. Rows to lend to such a scan are `CountRow::default()`, all zero.
#[repr(C)]
#[derive(Clone, Copy, Debug, Default, PartialEq, Eq)]
#[non_exhaustive]
pub struct CountRow {
    /// The docket.
    pub docket: u32,
    /// Its count.
    pub count: u32,
    /// The clock of the put.
    pub stamp: u32,
}

/// What a scan filled.
#[derive(Clone, Copy, Debug, PartialEq, Eq)]
#[non_exhaustive]
pub struct Scanned {
    /// How many rows were filled.
    pub count: usize,
    /// The next live docket, if live dockets outnumber the rows.
    pub next: Option<u32>,
}

/// A timed call's number: purged in the lower half, merges from bit 32, the refusal from bit 40.
pub(crate) fn passed(answer: u64) -> Result<Passed, Refusal> {
    Refusal::check((answer >> 40) as u32)?;
    Ok(Passed { merges: (answer >> 32) as u32 & 0xff, purged: answer as u32 })
}

/// The number of when to wake: the clock, or bit 63 with the refusal below it, 0 where nothing is owed.
pub(crate) fn wake(answer: u64) -> Result<Option<u64>, Refusal> {
    if answer >> 63 == 0 {
        return Ok(Some(answer));
    }
    Refusal::check(answer as u32)?;
    Ok(None)
}

/// A lookup's number: the count, or the refusal, in the lower half; the stamp above, which is 0 where nothing is found.
pub(crate) fn counted(answer: u64) -> Result<Option<Count>, Refusal> {
    let (stamp, rest) = ((answer >> 32) as u32, answer as u32);
    if stamp != 0 {
        return Ok(Some(Count { count: rest, stamp }));
    }
    Refusal::check(rest)?;
    Ok(None)
}

/// The same with the price, which the hall's lookup leaves in the word that it is lent.
pub(crate) fn found(answer: u64, price: u32) -> Result<Option<Found>, Refusal> {
    let with_price = |Count { count, stamp }| Found { tally: Tally { count, price }, stamp };
    Ok(counted(answer)?.map(with_price))
}

/// A scan's number: the count in the lower half, the next docket from bit 32, more in bit 48, the refusal from bit 56.
pub(crate) fn scanned(answer: u64) -> Result<Scanned, Refusal> {
    Refusal::check((answer >> 56) as u32)?;
    let more = answer >> 48 & 1 == 1;
    Ok(Scanned { count: answer as u32 as usize, next: more.then_some((answer >> 32) as u32 & 0xffff) })
}
