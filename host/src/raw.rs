//! The functions of ../../include/tillbonnet.h as they are. `Store` is the way to call them; the comparison and the benchmark use
//! these.
//!
//! # Safety
//!
//! Each asks only that a pointer with a length points to that many words (it is not null, even where the length is 0), which nobody
//! else changes during the call, and that `labels`, `first` and `says` are words outside the store.

// SAFETY: the signatures are those of ../../include/tillbonnet.h, whose functions libhost.a has (../build.rs links it); the one
// that is `safe` takes numbers alone.
unsafe extern "C" {
    pub safe fn tillbonnet_need(n: usize, events: usize, form: u64) -> usize;
    pub fn tillbonnet_open(
        store: *mut u64,
        words: usize,
        n: usize,
        events: usize,
        steps: u64,
        form: u64,
        labels: *const u64,
        label_words: usize,
    ) -> u32;
    pub fn tillbonnet_gate(store: *mut u64, words: usize, gate: u64, a: usize, b: usize) -> u32;
    pub fn tillbonnet_turn(store: *mut u64, words: usize, kind: u64, k: u64, q: usize) -> u32;
    pub fn tillbonnet_record(store: *mut u64, words: usize, kind: u64, q: usize, tag: u32, first: *mut usize) -> u32;
    pub fn tillbonnet_measure(store: *mut u64, words: usize, q: usize, first: *mut usize) -> u32;
    pub fn tillbonnet_reset(store: *mut u64, words: usize, q: usize, first: *mut usize) -> u32;
    pub fn tillbonnet_ccx(store: *mut u64, words: usize, a: usize, b: usize, t: usize, first: *mut usize) -> u32;
    pub fn tillbonnet_ccz(store: *mut u64, words: usize, a: usize, b: usize, t: usize, first: *mut usize) -> u32;
    pub fn tillbonnet_kill(store: *mut u64, words: usize, id: usize) -> u32;
    pub fn tillbonnet_clear(store: *mut u64, words: usize) -> u32;
    pub fn tillbonnet_read(store: *const u64, words: usize, id: usize, says: *mut i64, says_words: usize) -> u32;
    pub fn tillbonnet_look(
        store: *const u64,
        words: usize,
        kind: u64,
        q: usize,
        says: *mut i64,
        says_words: usize,
    ) -> u32;
}
