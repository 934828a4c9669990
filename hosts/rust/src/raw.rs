//! The four calls of docs/INTERFACE.md as C declares them, for every Rust program here that links them.

#[repr(C)]
#[derive(Clone, Copy, Debug, PartialEq)]
pub struct Reply {
    pub code: u64,
    pub count: u64,
    pub warning: u64,
    pub wanted: u64,
    pub held: u64,
}

extern "C" {
    pub fn flat_start(state: *mut u64, words: usize, tolerance: u64, axes: *const u64, count: usize) -> Reply;
    pub fn flat_seed(state: *mut u64, words: usize, axis: u64, value: u64) -> Reply;
    pub fn flat_push(
        state: *mut u64,
        words: usize,
        store: *mut u64,
        store_words: usize,
        rows: *mut u64,
        row_words: usize,
        row: *const u64,
        this_row_words: usize,
    ) -> Reply;
    pub fn flat_close(
        state: *mut u64,
        words: usize,
        store: *const u64,
        store_words: usize,
        rows: *mut u64,
        row_words: usize,
    ) -> Reply;
}
