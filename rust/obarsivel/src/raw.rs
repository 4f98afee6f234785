//! The archive's C functions as they are (see `include/obarsivel.h`); `lib.rs` wraps them.
//! Every pointer is followed by its length in elements. With the feature `mock` they
//! are functions of the same form over the plain reader.

/// How many cells the tables have at full capacity.
pub const TABLE_CELLS: usize = 36_617;

/// How many cells a load works in.
pub const WORK_CELLS: usize = 42_578;

#[cfg(feature = "mock")]
pub use crate::mock::*;

#[cfg(not(feature = "mock"))]
extern "C" {
    /// The archive's version: major * 65536 + minor * 256 + patch.
    pub fn obarsivel_version() -> u32;

    /// Loads a description of an edition: 0, or place * 64 + the refusal's number.
    pub fn obarsivel_load(
        text: *const u8,
        text_len: usize,
        image: *const u8,
        image_len: usize,
        base: u32,
        edition: u32,
        tables: *mut u64,
        tables_len: usize,
        work: *mut u64,
        work_len: usize,
    ) -> u64;

    /// Finds an object by name: its number, -1 for none, or -20, -22.
    pub fn obarsivel_find(
        text: *const u8,
        text_len: usize,
        image: *const u8,
        image_len: usize,
        base: u32,
        tables: *const u64,
        tables_len: usize,
        name: *const u8,
        name_len: usize,
    ) -> i64;

    /// Reads an element into `out` (raw, state, first, second, what is shown) and `shown`: 0 or the refusal's number.
    pub fn obarsivel_read(
        text: *const u8,
        text_len: usize,
        image: *const u8,
        image_len: usize,
        base: u32,
        tables: *const u64,
        tables_len: usize,
        object: u32,
        part: u8,
        index: u32,
        out: *mut i64,
        out_len: usize,
        shown: *mut f64,
        shown_len: usize,
    ) -> u32;

    /// Makes the list: 0 or the refusal's number.
    pub fn obarsivel_make_list(
        text: *const u8,
        text_len: usize,
        image: *const u8,
        image_len: usize,
        base: u32,
        tables: *const u64,
        tables_len: usize,
        raw: *mut i64,
        raw_len: usize,
        state: *mut u8,
        state_len: usize,
        first: *mut i64,
        first_len: usize,
        second: *mut i64,
        second_len: usize,
    ) -> u32;

    /// Writes a raw value: 0 or the refusal's number.
    pub fn obarsivel_write_raw(
        text: *const u8,
        text_len: usize,
        image: *mut u8,
        image_len: usize,
        base: u32,
        tables: *const u64,
        tables_len: usize,
        raw: *mut i64,
        raw_len: usize,
        state: *mut u8,
        state_len: usize,
        first: *mut i64,
        first_len: usize,
        second: *mut i64,
        second_len: usize,
        object: u32,
        part: u8,
        index: u32,
        value: i64,
    ) -> u32;

    /// Writes an asked physical value, a decimal as text: 0 or the refusal's number.
    pub fn obarsivel_write_physical(
        text: *const u8,
        text_len: usize,
        image: *mut u8,
        image_len: usize,
        base: u32,
        tables: *const u64,
        tables_len: usize,
        raw: *mut i64,
        raw_len: usize,
        state: *mut u8,
        state_len: usize,
        first: *mut i64,
        first_len: usize,
        second: *mut i64,
        second_len: usize,
        object: u32,
        part: u8,
        index: u32,
        asked: *const u8,
        asked_len: usize,
    ) -> u32;

    /// Prints the list: how many bytes were written, or minus the refusal's number.
    pub fn obarsivel_listing(
        text: *const u8,
        text_len: usize,
        image: *const u8,
        image_len: usize,
        base: u32,
        tables: *const u64,
        tables_len: usize,
        raw: *const i64,
        raw_len: usize,
        state: *const u8,
        state_len: usize,
        first: *const i64,
        first_len: usize,
        second: *const i64,
        second_len: usize,
        out: *mut u8,
        out_len: usize,
    ) -> i64;
}
