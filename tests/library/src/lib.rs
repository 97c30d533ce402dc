//! The proved library for Rust: the functions that include/nagbiro.h declares.

extern "C" {
    pub fn nagbiro_check(table: *const u8, table_length: usize, a: *mut usize, b: *mut usize, c: *mut usize) -> u32;
    pub fn nagbiro_frames(
        table: *mut u8,
        table_length: usize,
        names: *const u8,
        names_length: usize,
        report: *const u8,
        report_length: usize,
        place: *mut usize,
    ) -> u32;
    pub fn nagbiro_ordered(
        table: *const u8,
        table_length: usize,
        out: *mut u8,
        out_length: usize,
        written: *mut usize,
        place: *mut usize,
    ) -> u32;
    pub fn nagbiro_synchronising(
        table: *const u8,
        table_length: usize,
        words: *mut u64,
        words_length: usize,
        place: *mut usize,
    ) -> u32;
    pub fn nagbiro_call_order(
        table: *const u8,
        table_length: usize,
        order: *mut u8,
        order_length: usize,
        place: *mut usize,
    ) -> u32;
    pub fn nagbiro_one_choice(
        table: *const u8,
        table_length: usize,
        choice: *const u8,
        choice_length: usize,
        sizes: *mut u32,
        sizes_length: usize,
        safe: *mut u32,
        place: *mut usize,
    ) -> u32;
    pub fn nagbiro_what_if(
        table: *const u8,
        table_length: usize,
        count: usize,
        choices: *const u8,
        choices_length: usize,
        sizes: *mut u32,
        sizes_length: usize,
        safe: *mut u16,
        place: *mut usize,
    ) -> u32;
    pub fn nagbiro_best_choice(
        table: *const u8,
        table_length: usize,
        verdicts: *mut u8,
        verdicts_length: usize,
        sizes: *mut u32,
        sizes_length: usize,
        place: *mut usize,
    ) -> u32;
}
