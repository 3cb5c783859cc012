//! The archive's functions, as `include/guontrem.h` declares them.
use crate::{CountRow, Row};

extern "C" {
    pub fn guontrem_make(
        entries: *mut u32,
        entry_words: usize,
        levels: *mut u32,
        level_words: usize,
        deepest: u32,
        ratio: u32,
        buffer: u32,
        term: u32,
    ) -> u32;
    pub fn guontrem_check(entries: *const u32, entry_words: usize, levels: *const u32, level_words: usize) -> u32;
    pub fn guontrem_put(
        entries: *mut u32,
        entry_words: usize,
        levels: *mut u32,
        level_words: usize,
        clock: u32,
        docket: u32,
        count: u32,
        price: u32,
    ) -> u64;
    pub fn guontrem_delete(
        entries: *mut u32,
        entry_words: usize,
        levels: *mut u32,
        level_words: usize,
        clock: u32,
        docket: u32,
    ) -> u64;
    pub fn guontrem_delete_range(
        entries: *mut u32,
        entry_words: usize,
        levels: *mut u32,
        level_words: usize,
        clock: u32,
        lo: u32,
        hi: u32,
    ) -> u64;
    pub fn guontrem_delete_range_dated(
        entries: *mut u32,
        entry_words: usize,
        levels: *mut u32,
        level_words: usize,
        clock: u32,
        lo: u32,
        hi: u32,
        date: u32,
    ) -> u64;
    pub fn guontrem_flush(
        entries: *mut u32,
        entry_words: usize,
        levels: *mut u32,
        level_words: usize,
        clock: u32,
    ) -> u64;
    pub fn guontrem_tick(
        entries: *mut u32,
        entry_words: usize,
        levels: *mut u32,
        level_words: usize,
        clock: u32,
    ) -> u64;
    pub fn guontrem_wake(entries: *const u32, entry_words: usize, levels: *const u32, level_words: usize) -> u64;
    pub fn guontrem_lookup(
        entries: *const u32,
        entry_words: usize,
        levels: *const u32,
        level_words: usize,
        docket: u32,
        price: *mut u32,
    ) -> u64;
    pub fn guontrem_lookup_count(
        entries: *const u32,
        entry_words: usize,
        levels: *const u32,
        level_words: usize,
        docket: u32,
    ) -> u64;
    pub fn guontrem_scan(
        entries: *const u32,
        entry_words: usize,
        levels: *const u32,
        level_words: usize,
        lo: u32,
        hi: u32,
        rows: *mut Row,
        row_count: usize,
    ) -> u64;
    pub fn guontrem_scan_counts(
        entries: *const u32,
        entry_words: usize,
        levels: *const u32,
        level_words: usize,
        lo: u32,
        hi: u32,
        rows: *mut CountRow,
        row_count: usize,
    ) -> u64;
}
