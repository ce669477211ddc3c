//! The archive's exports, as `include/nannyjiffy.h` and `crates/flow_c/src/lib.rt` have them: a slice is a pointer and a
//! length.
//!
//! # Safety
//!
//! A pointer is not null, is aligned, and has as many words or bytes as its length says; what is lent as `*mut` overlaps
//! with no other memory of the call. No content and no length is excluded.

extern "C" {
    pub fn nannyjiffy_load(sheet: *const u8, sheet_bytes: usize, rows: *mut i32, rows_words: usize) -> u32;

    pub fn nannyjiffy_start(
        rows: *const i32,
        rows_words: usize,
        state: *mut i32,
        state_words: usize,
        strides: *mut u32,
    ) -> u32;

    pub fn nannyjiffy_look(
        rows: *const i32,
        rows_words: usize,
        state: *const i32,
        state_words: usize,
        role: u32,
        value: *mut i32,
        value_words: usize,
        list: *mut u8,
        list_bytes: usize,
        valued: *mut u32,
        fails: *mut u32,
        bytes: *mut usize,
    ) -> u32;

    pub fn nannyjiffy_handle(
        rows: *const i32,
        rows_words: usize,
        state: *mut i32,
        state_words: usize,
        event: *const u8,
        event_bytes: usize,
        strides: *mut u32,
    ) -> u32;

    pub fn nannyjiffy_receipt(
        prices: *const u8,
        prices_bytes: usize,
        order: *const i32,
        order_words: usize,
        cents: *mut u64,
    ) -> u32;
}
