//! The verified library's functions, as `include/limbatue.h` declares them.
//!
//! Nothing checks these declarations against the Rattle source: they are kept beside the header, and `tests/comparison.rs` takes this file in and calls each of them.

unsafe extern "C" {
    pub safe fn limbatue_version() -> u32;
    pub fn limbatue_numbers(sheet: *const u8, sheet_length: usize, answer: *mut u64, answer_length: usize) -> u32;
    pub fn limbatue_settle(
        sheet: *const u8,
        sheet_length: usize,
        table: *mut u32,
        table_length: usize,
        answer: *mut u64,
        answer_length: usize,
    ) -> u32;
    pub fn limbatue_settle_since(
        sheet: *const u8,
        sheet_length: usize,
        table: *mut u32,
        table_length: usize,
        since: *mut u32,
        since_length: usize,
        answer: *mut u64,
        answer_length: usize,
    ) -> u32;
    pub fn limbatue_row_check(
        table: *const u32,
        table_length: usize,
        kinds: usize,
        kind: usize,
        answer: *mut u64,
        answer_length: usize,
    ) -> u32;
    pub fn limbatue_compare(
        sheet: *const u8,
        sheet_length: usize,
        first: usize,
        second: usize,
        answer: *mut u64,
        answer_length: usize,
    ) -> u32;
    pub fn limbatue_prime_form(
        sheet: *const u8,
        sheet_length: usize,
        field: usize,
        counts: *mut u64,
        counts_length: usize,
    ) -> u32;
    pub fn limbatue_walk(
        sheet: *const u8,
        sheet_length: usize,
        first: usize,
        second: usize,
        limit: u64,
        desk: usize,
        session: *mut u32,
        session_length: usize,
        answer: *mut u64,
        answer_length: usize,
    ) -> u32;
    pub fn limbatue_page(
        sheet: *const u8,
        sheet_length: usize,
        page: *mut u8,
        page_length: usize,
        answer: *mut u64,
        answer_length: usize,
    ) -> u32;
    pub fn limbatue_shelf_number(
        sheet: *const u8,
        sheet_length: usize,
        field: usize,
        answer: *mut u64,
        answer_length: usize,
    ) -> u32;
    pub fn limbatue_shelf_field(
        sheet: *const u8,
        sheet_length: usize,
        size: usize,
        number: u64,
        counts: *mut u16,
        counts_length: usize,
    ) -> u32;
    pub fn limbatue_squads(
        sheet: *const u8,
        sheet_length: usize,
        whole: usize,
        squad: usize,
        remainder: *mut u64,
        remainder_length: usize,
        answer: *mut u64,
        answer_length: usize,
    ) -> u32;
    pub fn limbatue_finer_compare(
        sheet: *const u8,
        sheet_length: usize,
        first: usize,
        second: usize,
        answer: *mut u64,
        answer_length: usize,
    ) -> u32;
    pub fn limbatue_finer_prime_form(
        sheet: *const u8,
        sheet_length: usize,
        field: usize,
        counts: *mut u64,
        counts_length: usize,
    ) -> u32;
    pub fn limbatue_frequencies(
        sheet: *const u8,
        sheet_length: usize,
        field: usize,
        size: usize,
        counts: *mut u32,
        counts_length: usize,
    ) -> u32;
}
