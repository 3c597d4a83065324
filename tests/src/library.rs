//! The C interface of the library under test, as include/rlc.h gives it.

#[rustfmt::skip]
extern "C" {
    pub fn rlc_open(record: *mut u32, record_n: usize, edges: *mut u32, edges_n: usize, index: *mut u64, index_n: usize) -> u32;
    pub fn rlc_insert(record: *mut u32, record_n: usize, from: u32, label: u32, to: u32, edges: *mut u32, edges_n: usize, index: *mut u64, index_n: usize, work: *mut u64, work_n: usize) -> u32;
    pub fn rlc_remove(record: *mut u32, record_n: usize, from: u32, label: u32, to: u32, edges: *mut u32, edges_n: usize, index: *mut u64, index_n: usize, work: *mut u64, work_n: usize) -> u32;
    pub fn rlc_query(record: *const u32, record_n: usize, start: u32, destination: u32, pattern: *const u8, pattern_n: usize, edges: *const u32, edges_n: usize, index: *const u64, index_n: usize, work: *mut u64, work_n: usize) -> u32;
    pub fn rlc_query_two(record: *const u32, record_n: usize, start: u32, destination: u32, first: *const u8, first_n: usize, second: *const u8, second_n: usize, edges: *const u32, edges_n: usize, index: *const u64, index_n: usize, work: *mut u64, work_n: usize) -> u64;
    pub fn rlc_search(record: *const u32, record_n: usize, start: u32, destination: u32, pattern: *const u8, pattern_n: usize, level_limit: u32, edges: *const u32, edges_n: usize, work: *mut u64, work_n: usize) -> u64;
    pub fn rlc_route(record: *const u32, record_n: usize, start: u32, destination: u32, pattern: *const u8, pattern_n: usize, edges: *const u32, edges_n: usize, walk: *mut u32, walk_n: usize, work: *mut u64, work_n: usize) -> u64;
    pub fn rlc_read_card(record: *mut u32, record_n: usize, card: *const u8, card_n: usize, edges: *mut u32, edges_n: usize, index: *mut u64, index_n: usize, work: *mut u64, work_n: usize) -> u32;
    pub fn rlc_write_card(record: *const u32, record_n: usize, edges: *const u32, edges_n: usize, output: *mut u8, output_n: usize) -> u64;
    pub fn rlc_minimum_repeat(pattern: *const u8, pattern_n: usize) -> u32;
    pub fn rlc_minimum_repeat_computed(pattern: *const u8, pattern_n: usize) -> u32;
    pub fn rlc_times_written(pattern: *const u8, pattern_n: usize) -> u32;
}
