//! What a store is made with, and how long its tables are.

/// The most slots that a store may have; the fewest is 1.
pub const MAX_SLOTS: usize = 65535;

/// The last docket; the first is 0.
pub const MAX_DOCKET: u32 = 65535;

/// The words of a slot.
pub(crate) const SLOT_WORDS: usize = 5;

/// The words of the entry table for so many slots.
pub const fn entry_words(slots: usize) -> usize {
    SLOT_WORDS * (slots + 1)
}

/// The words of the level table for the deepest level.
pub const fn level_words(deepest: usize) -> usize {
    4 * (deepest + 2)
}

/// The settings of a store, fixed when it is made.
///
/// They are the four words of the level table's first row. A caller writes them out by name, and a fifth would be another format of
/// the tables, so this struct is not `#[non_exhaustive]`.
#[derive(Clone, Copy, Debug, PartialEq, Eq, Hash)]
pub struct Settings {
    /// The deepest level, 2 to 6; level 0 is the buffer.
    pub deepest: u32,
    /// The size ratio between one level and the next, 2 to 10.
    pub ratio: u32,
    /// The buffer's size in records, 1 to 64.
    pub buffer: u32,
    /// How many ticks after a delete what it covered may stay in the tables; not 0.
    pub term: u32,
}
