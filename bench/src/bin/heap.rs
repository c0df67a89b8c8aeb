//! The store's size against the original's heap, for the circuits of the whole runs: a table in Markdown. A program of its own,
//! since its allocator counts and that takes time.

use bench::cases::{SHAPES, STYLES, shape};
use bench::ours::{Ours, Words};
use bench::whole::{EVENTS, STEPS, circuit};
use oracle::judge::speed::Speed;
use std::alloc::{GlobalAlloc, Layout, System};
use std::sync::atomic::{AtomicUsize, Ordering::Relaxed};

struct Counting;

static NOW: AtomicUsize = AtomicUsize::new(0);
static MOST: AtomicUsize = AtomicUsize::new(0);

fn more(bytes: usize) {
    MOST.fetch_max(NOW.fetch_add(bytes, Relaxed) + bytes, Relaxed);
}

// SAFETY: every call is the same call of `System`, which keeps the promises; counting changes two atomics and does not allocate.
unsafe impl GlobalAlloc for Counting {
    unsafe fn alloc(&self, layout: Layout) -> *mut u8 {
        more(layout.size());
        // SAFETY: the caller keeps what `alloc` asks of the layout, and it is handed on as it came.
        unsafe { System.alloc(layout) }
    }
    unsafe fn alloc_zeroed(&self, layout: Layout) -> *mut u8 {
        more(layout.size());
        // SAFETY: as in `alloc`.
        unsafe { System.alloc_zeroed(layout) }
    }
    unsafe fn dealloc(&self, at: *mut u8, layout: Layout) {
        NOW.fetch_sub(layout.size(), Relaxed);
        // SAFETY: the block is `System`'s, as all blocks are, and the caller hands over the layout that it was allocated with.
        unsafe { System.dealloc(at, layout) }
    }
    unsafe fn realloc(&self, at: *mut u8, layout: Layout, size: usize) -> *mut u8 {
        // Both blocks may be there for a while.
        more(size);
        NOW.fetch_sub(layout.size(), Relaxed);
        // SAFETY: as in `dealloc`; the size is the caller's, who keeps what `realloc` asks of it.
        unsafe { System.realloc(at, layout, size) }
    }
}

#[global_allocator]
static COUNTING: Counting = Counting;

/// A word that no call writes, so that what stays is what was not written.
const MARK: u64 = 0x5a5a_1234_dead_beef;

fn main() {
    println!("| circuit | store, bytes | written, in pages of 4 KiB, bytes | original at the end, bytes | original at most, bytes | store / end | written / end |");
    println!("|---|--:|--:|--:|--:|--:|--:|");
    for (n, sliced) in SHAPES {
        for (style, name) in STYLES {
            let c = circuit(style, n, sliced, EVENTS, false);
            let mut ours = Ours::open(&c.words, sliced, EVENTS, STEPS as u64, Words::Zeroed);
            ours.words.iter_mut().for_each(|w| _ = w.write(MARK));
            ours.reopen(&c.words);
            ours.run(&c.ours);
            let (store, written) = (8 * ours.words.len(), 4096 * pages(&ours));
            drop(ours);
            let before = NOW.load(Relaxed);
            MOST.store(before, Relaxed);
            let mut theirs = Speed::open(&c.labels, sliced, STEPS);
            theirs.run(&c.theirs);
            let (end, most) = (NOW.load(Relaxed) - before, MOST.load(Relaxed) - before);
            let (a, b) = (store as f64 / end as f64, written as f64 / end as f64);
            println!("| {name}, {} | {store} | {written} | {end} | {most} | {a:.2} | {b:.2} |", shape(n, sliced));
        }
    }
}

/// Pages with a word that was written.
fn pages(ours: &Ours) -> usize {
    // SAFETY: `main` has written `MARK` to every word.
    ours.words.chunks(512).filter(|page| page.iter().any(|w| unsafe { w.assume_init() } != MARK)).count()
}
