//! Memory between closed pages, so that a read or write outside of a slice, by one word or by 2^27, ends the process; and what is
//! said when it does, or when a call does not come back in time. For Linux on x86-64, as the library is.

use std::sync::OnceLock;
use std::sync::atomic::{AtomicU64, Ordering::Relaxed};

// SAFETY: the signatures are the C library's on x86-64 Linux: sizes, offsets and a handler's address have 64 bits, an int 32.
unsafe extern "C" {
    fn mmap(at: *mut u8, bytes: usize, may: i32, how: i32, file: i32, from: i64) -> *mut u8;
    fn mprotect(at: *mut u8, bytes: usize, may: i32) -> i32;
    fn signal(number: i32, then: usize) -> usize;
    fn alarm(seconds: u32) -> u32;
    fn write(file: i32, text: *const u8, bytes: usize) -> isize;
    fn _exit(code: i32) -> !;
}

const PAGE: usize = 4096;
/// The bytes that are closed on each side; they are only addresses, no memory.
const CLOSED: usize = 1 << 30;
const NOTHING: i32 = 0;
const READ_WRITE: i32 = 3;
/// Private, of no file, and nothing set aside for it.
const PRIVATE_ANONYMOUS: i32 = 0x4022;

/// What stands in the words of a region that are not lent.
pub const BLANK: u64 = 0x626c_616e_6b20_2121;

/// Words between closed pages.
pub struct Region {
    first: *mut u64,
    words: usize,
    /// The part that is lent: from where, how many.
    lent: (usize, usize),
}

impl Region {
    /// At least so many words, rounded up to whole pages.
    pub fn new(words: usize) -> Self {
        let bytes = (8 * words).next_multiple_of(PAGE).max(PAGE);
        // SAFETY: a fresh mapping of our own, of which only the middle is opened.
        unsafe {
            let at = mmap(std::ptr::null_mut(), bytes + 2 * CLOSED, NOTHING, PRIVATE_ANONYMOUS, -1, 0);
            assert!(at as isize != -1, "no memory");
            assert_eq!(mprotect(at.add(CLOSED), bytes, READ_WRITE), 0);
            let first = at.add(CLOSED).cast::<u64>();
            let mut region = Self { first, words: bytes / 8, lent: (0, 0) };
            region.all().fill(BLANK);
            region
        }
    }

    fn all(&mut self) -> &mut [u64] {
        // SAFETY: the mapping is this region's, and every bit pattern is a word.
        unsafe { std::slice::from_raw_parts_mut(self.first, self.words) }
    }

    /// Lends so many words, which end where the closed page begins, or begin where the other one ends. What was lent before is
    /// blank again.
    pub fn lend(&mut self, words: usize, at_end: bool) {
        let (from, count) = self.lent;
        self.all()[from..from + count].fill(BLANK);
        assert!(words <= self.words);
        self.lent = (if at_end { self.words - words } else { 0 }, words);
    }

    pub fn slice(&mut self) -> &mut [u64] {
        let (from, count) = self.lent;
        &mut self.all()[from..from + count]
    }

    pub fn pointer(&mut self) -> *mut u64 {
        // SAFETY: at most one past the words.
        unsafe { self.first.add(self.lent.0) }
    }

    pub fn len(&self) -> usize {
        self.lent.1
    }

    pub fn is_empty(&self) -> bool {
        self.lent.1 == 0
    }

    /// Whether the words beside what is lent are blank: 64 on each side, or all.
    pub fn blank(&mut self, all: bool) -> bool {
        let (from, count) = self.lent;
        let end = from + count;
        let (low, high) = if all { (0, self.words) } else { (from.saturating_sub(64), (end + 64).min(self.words)) };
        let words = self.all();
        words[low..from].iter().chain(&words[end..high]).all(|&w| w == BLANK)
    }
}

/// Where the run is, for the handler: the seed, the job or batch, and the call in it.
pub static SEED: AtomicU64 = AtomicU64::new(0);
pub static BATCH: AtomicU64 = AtomicU64::new(0);
pub static CALL: AtomicU64 = AtomicU64::new(0);

/// How to see it again: the program and its option.
static AGAIN: OnceLock<&'static str> = OnceLock::new();

/// From now on a fault or a call that takes too long says where it was and ends the process with 1.
pub fn watch(again: &'static str) {
    AGAIN.set(again).expect("once");
    // SAFETY: the handler only reads numbers and writes to the standard error.
    unsafe {
        for number in [4, 7, 8, 11, 14] {
            signal(number, died as extern "C" fn(i32) as usize);
        }
    }
}

/// So many seconds for what comes next.
pub fn patience(seconds: u32) {
    // SAFETY: no memory is touched.
    unsafe { alarm(seconds) };
}

extern "C" fn died(number: i32) {
    let mut line = [0u8; 160];
    let mut len = 0;
    let mut put = |text: &[u8]| {
        line[len..len + text.len()].copy_from_slice(text);
        len += text.len();
    };
    put(if number == 14 { b"DIED: no answer in time" } else { b"DIED: a fault" });
    put(b", see ");
    put(AGAIN.get().map_or(b"" as &[u8], |again| again.as_bytes()));
    put(b" ");
    put(&decimal(SEED.load(Relaxed)));
    put(b":");
    put(&decimal(BATCH.load(Relaxed)));
    put(b" call ");
    put(&decimal(CALL.load(Relaxed)));
    put(b"\n");
    // SAFETY: the bytes written are the line's.
    unsafe {
        write(2, line.as_ptr(), len);
        _exit(1)
    }
}

/// Twenty digits, without allocating.
fn decimal(mut value: u64) -> [u8; 20] {
    let mut digits = [b'0'; 20];
    for digit in digits.iter_mut().rev() {
        *digit = b'0' + (value % 10) as u8;
        value /= 10;
    }
    digits
}
