// The calls of Rifflerleek, and the constants that the examples need, as include/rifflerleek.h has them: a slice is a pointer and a length.

pub const ROW_LIMIT: usize = 256;
pub const RECORD_LIMIT: usize = 1024;
pub const RECORD_WORDS: usize = 6;
pub const DONE: u32 = 0;
pub const UNKNOWN_BIT: usize = 2;
pub const ORDER_EQUAL: usize = 0;
pub const ORDER_INSIDE: usize = 1;
pub const ORDER_AROUND: usize = 2;
pub const KIND_ADD: u32 = 13;

#[repr(C)]
pub struct Answer {
    pub refusal: u32,
    pub place: usize,
    pub result: usize,
    pub second_result: u64,
}

#[repr(C)]
pub struct FourNumbers {
    pub refusal: u32,
    pub place: usize,
    pub first: u32,
    pub second: u32,
    pub third: u32,
    pub fourth: u32,
}

#[rustfmt::skip]
#[link(name = "rifflerleek", kind = "static")]
extern "C" {
    pub fn rifflerleek_run(width: *const u8, widths: usize, lock: *const u8, locks: usize, mask: *mut u32, masks: usize, value: *mut u32, values: usize, words: *const u32, word_count: usize, first: usize, last: usize) -> Answer;
    pub fn rifflerleek_count(width: *const u8, widths: usize, lock: *const u8, locks: usize, mask: *const u32, masks: usize, value: *const u32, values: usize, row: usize) -> Answer;
    pub fn rifflerleek_size(width: *const u8, widths: usize, lock: *const u8, locks: usize, mask: *const u32, masks: usize, value: *const u32, values: usize, words: *const u32, word_count: usize) -> Answer;
    pub fn rifflerleek_write(width: *const u8, widths: usize, lock: *const u8, locks: usize, mask: *const u32, masks: usize, value: *const u32, values: usize, words: *const u32, word_count: usize, out: *mut u8, out_length: usize) -> Answer;
    pub fn rifflerleek_read(text: *const u8, text_length: usize, width: *mut u8, widths: usize, lock: *mut u8, locks: usize, mask: *mut u32, masks: usize, value: *mut u32, values: usize, words: *mut u32, word_count: usize) -> Answer;
    pub fn rifflerleek_field(text: *const u8, text_length: usize, line: usize, field: usize) -> Answer;
    pub fn rifflerleek_product_bit(width: u32, mask_a: u32, value_a: u32, mask_b: u32, value_b: u32, bit: u32) -> Answer;
    pub fn rifflerleek_witnesses(kind: u32, width: u32, mask_a: u32, value_a: u32, mask_b: u32, value_b: u32, bit: u32) -> FourNumbers;
    pub fn rifflerleek_range(width: u32, mask: u32, value: u32, low: u64, high: u64) -> FourNumbers;
    pub fn rifflerleek_reset_bits(width: *const u8, widths: usize, lock: *const u8, locks: usize, mask: *mut u32, masks: usize, value: *mut u32, values: usize, words: *const u32, word_count: usize, row: usize, bit: u32) -> Answer;
    pub fn rifflerleek_settle(width: *const u8, widths: usize, lock: *const u8, locks: usize, mask: *mut u32, masks: usize, value: *mut u32, values: usize, words: *const u32, word_count: usize, states: *const u32, state_count: usize, nexts: *const u32, next_count: usize) -> Answer;
    pub fn rifflerleek_prune(width: *const u8, widths: usize, lock: *const u8, locks: usize, mask: *const u32, masks: usize, value: *const u32, values: usize, words: *mut u32, word_count: usize, marks: *const u8, mark_count: usize) -> Answer;
    pub fn rifflerleek_compare_states(width: *const u8, widths: usize, mask_1: *const u32, masks_1: usize, value_1: *const u32, values_1: usize, mask_2: *const u32, masks_2: usize, value_2: *const u32, values_2: usize) -> Answer;
}
