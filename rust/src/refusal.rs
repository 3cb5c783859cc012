//! Why a call is refused.
use core::fmt;

/// Why a call is refused. Where two apply, the earlier in a call's documentation is the answer.
///
/// Later versions may have more: a `match` needs a case for those that it does not name.
#[derive(Clone, Copy, Debug, PartialEq, Eq, Hash)]
#[repr(u32)]
#[non_exhaustive]
pub enum Refusal {
    /// The entry table's length is that of no allowed number of slots.
    EntryLength = 1,
    /// A setting in the level table's first row is out of range, or the table's length is not the one for its deepest level.
    LevelTable = 2,
    /// The tables are not sound: no store.
    Unsound = 3,
    /// A docket above [`MAX_DOCKET`](crate::MAX_DOCKET), or lo above hi.
    Docket = 4,
    /// Clock 0, or before the last accepted one.
    Clock = 5,
    /// A setting out of range.
    Settings = 6,
    /// Every slot holds a live docket, and the put's is none of them.
    Full = 7,
    /// Date 0, or after the call's clock.
    Date = 10,
}

impl Refusal {
    /// The number that stands for the refusal everywhere but in Rust.
    pub const fn number(self) -> u32 {
        self as u32
    }

    /// What a number says: 0 is no refusal.
    pub(crate) fn check(number: u32) -> Result<(), Refusal> {
        match number {
            0 => Ok(()),
            1 => Err(Refusal::EntryLength),
            2 => Err(Refusal::LevelTable),
            3 => Err(Refusal::Unsound),
            4 => Err(Refusal::Docket),
            5 => Err(Refusal::Clock),
            6 => Err(Refusal::Settings),
            7 => Err(Refusal::Full),
            10 => Err(Refusal::Date),
            _ => unreachable!("the archive answers no other number"),
        }
    }
}

impl fmt::Display for Refusal {
    fn fmt(&self, f: &mut fmt::Formatter<'_>) -> fmt::Result {
        f.write_str(match self {
            Refusal::EntryLength => "the entry table has a length that is not allowed",
            Refusal::LevelTable => "the level table's first row or its length is not allowed",
            Refusal::Unsound => "the tables are not sound",
            Refusal::Docket => "a docket is above the last, or lo is above hi",
            Refusal::Clock => "the clock is 0 or before the last accepted one",
            Refusal::Settings => "a setting is out of range",
            Refusal::Full => "every slot holds another live docket",
            Refusal::Date => "the date is 0 or after the call's clock",
        })
    }
}

impl core::error::Error for Refusal {}
