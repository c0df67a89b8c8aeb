//! What stands in the words that `damage` calls the library on: no store at all, something like one, or a good one with words
//! changed.

use crate::jobs::gate;
use crate::random::Random;
use crate::sides::{Raw, Side};
use crate::words::Layout;
use oracle::judge::{Call, Kind};

/// The kinds of contents, each with a name for the count.
pub const KINDS: [&str; 26] = [
    "random words",
    "random words behind a header",
    "small numbers behind a header",
    "all zero",
    "all ones",
    "a slice of 0 to 20 words",
    "a good store, fewer words lent",
    "a good store",
    "changed: any words",
    "changed: many words",
    "changed: header",
    "changed: phases",
    "changed: rows",
    "changed: labels of rows",
    "changed: events recorded, events at the last clear",
    "changed: heads",
    "changed: links",
    "changed: labels of events",
    "changed: tags",
    "changed: signatures",
    "changed: axes",
    "changed: live words",
    "changed: counts",
    "changed: lists",
    "a good store, some words short, and word 0 says so",
    "the last list full, its length one too many",
];

/// The words of one store, and what is known of them.
pub struct Contents {
    pub kind: usize,
    pub words: Vec<u64>,
    /// The sizes that they were opened with, if they were.
    pub at: Option<Layout>,
}

/// Sizes of a store of a few thousand words at most; sliced ones of more than one block among them.
fn sizes(random: &mut Random) -> (usize, usize, bool) {
    match random.below(10) {
        9 => (random.pick(&[63, 64, 65, 127, 128]), random.from(1, 20) as usize, false),
        8 => (random.from(193, 300) as usize, random.from(1, 8) as usize, false),
        0..3 => (random.from(1, 6) as usize, random.from(1, 30) as usize, false),
        3..5 => (random.from(1, 6) as usize, random.from(1, 200) as usize, true),
        5 => (random.from(1, 32) as usize, random.from(1, 40) as usize, true),
        6 => (random.from(33, 140) as usize, random.from(1, 12) as usize, false),
        _ => (random.from(1, 3) as usize, random.from(60, 90) as usize, false),
    }
}

/// A store just opened.
fn fresh(random: &mut Random, n: usize, cap: usize, sliced: bool) -> (Raw, Layout) {
    let at = Layout::of(n, cap, sliced);
    let slack = random.pick(&[0, 0, 0, 1, 2]);
    let mut raw = Raw::new(&(0..at.end + slack).map(|_| random.word()).collect::<Vec<_>>());
    let few = random.chance(1, 2);
    let labels: Vec<u64> = (0..4 * n).map(|_| if few { random.below(3) } else { random.word() }).collect();
    let steps = random.pick(&[3, 50, 1 << 20]);
    assert_eq!(raw.open(raw.lent, n as u64, cap as u64, steps, sliced as u64, &labels), 0);
    (raw, at)
}

/// The last list ends where the store does, so that a length of one too many leads out of it.
fn overfull(random: &mut Random) -> (Vec<u64>, Layout) {
    let sliced = random.chance(1, 3);
    let n = if sliced { random.from(1, 32) } else { random.pick(&[64, 64, 127, 128]) };
    let cap = random.pick(&[1, 1, 2, 3, 10, 64]);
    let (mut raw, at) = fresh(random, n as usize, cap, sliced);
    let kind = random.pick(&Kind::ALL);
    (0..cap).for_each(|_| assert_eq!(raw.call(&Call::Record { kind, q: n - 1, tag: 1 }).answer, 0));
    let mut words = raw.store().to_vec();
    words[at.count(at.lists - 1)] += 1;
    (words, at)
}

/// A store that our own calls have left.
fn good(random: &mut Random) -> (Vec<u64>, Layout) {
    let (n, cap, sliced) = sizes(random);
    let (mut raw, at) = fresh(random, n, cap, sliced);
    let n = n as u64;
    for k in 0..random.below(2 * cap as u64 + 8) {
        let a = if random.chance(1, 3) { n - 1 } else { random.below(n) };
        let b = random.below(n);
        let call = match random.below(10) {
            0..2 => Call::Gate(gate(random.below(11), a, b)),
            2..8 => Call::Record { kind: random.pick(&Kind::ALL), q: a, tag: k as u32 },
            8 => Call::Kill(random.below(k + 1)),
            _ => random.pick(&[Call::Measure(a), Call::Reset(b), Call::Clear, Call::Ccx(a, b, 0)]),
        };
        raw.call(&call);
    }
    (raw.store().to_vec(), at)
}

/// A value that counts, links and positions go wrong with.
fn bad(old: u64, at: &Layout, random: &mut Random) -> u64 {
    let word = random.word();
    let (n, cap) = (at.n as u64, at.cap as u64);
    random.pick(&[
        old.wrapping_add(1), old.wrapping_sub(1), old.wrapping_add(1), old.wrapping_sub(1), 0, 1, 2, 3, 4, 64, 65, 1 << 63, u64::MAX,
        u64::MAX - 1, (1 << 63) - 1, 1 << 32, 1 << 61, n, cap, cap + 1, cap - 1, 2 * cap, word, word % (2 * cap + 2),
        old ^ 1 << (word % 64), word % 70_000,
    ])
}

/// The words of a room.
fn room(kind: usize, at: &Layout) -> std::ops::Range<usize> {
    match kind {
        10 => 0..5,
        11 | 12 => at.frame..at.sketch,
        13 => at.sketch..at.numbers,
        14 => at.numbers..at.heads,
        15 => at.heads..at.links,
        16 => at.links..at.labels,
        17 => at.labels..at.tags,
        18 => at.tags..at.sigs,
        19 => at.sigs..at.axes,
        20 => at.axes..at.live,
        21 => at.live..at.counts,
        22 => at.counts..at.entries,
        23 => at.entries..at.end,
        _ => 0..at.end,
    }
}

impl Contents {
    pub fn draw(random: &mut Random) -> Self {
        let kind = random.index(KINDS.len());
        let (n, cap, sliced) = sizes(random);
        let at = Layout::of(n, cap, sliced);
        let mut any = |words: usize| (0..words).map(|_| random.word()).collect::<Vec<u64>>();
        match kind {
            0 => Self { kind, words: any(at.end), at: None },
            1 => {
                let mut words = any(at.end);
                header(&mut words, &at);
                Self { kind, words, at: Some(at) }
            }
            2 => {
                let mut words: Vec<u64> = any(at.end).iter().map(|w| w % (cap as u64 + 3).min(1 + w % 41)).collect();
                header(&mut words, &at);
                Self { kind, words, at: Some(at) }
            }
            3 => Self { kind, words: vec![0; at.end], at: None },
            4 => Self { kind, words: vec![u64::MAX; at.end], at: None },
            5 => {
                let words = any(21);
                let len = words[0] as usize % 21;
                let small = words.iter().map(|w| if words[1] % 2 == 0 { w % 15 } else { *w });
                Self { kind, words: small.take(len).collect(), at: None }
            }
            _ => Self::changed(kind, random),
        }
    }

    fn changed(kind: usize, random: &mut Random) -> Self {
        let (words, at) = if kind == 25 { overfull(random) } else { good(random) };
        let mut contents = Self { kind, words, at: Some(at) };
        match kind {
            6 => {
                let len = random.index(contents.words.len());
                let len = random.pick(&[len, contents.words.len() - 1, 13, 14]).min(contents.words.len());
                contents.words.truncate(len);
            }
            7 | 25 => (),
            24 => {
                let short = random.pick(&[1, 1, 1, 2, 64]);
                let len = at.end.saturating_sub(short).max(1);
                contents.words.truncate(len);
                contents.words[0] = len as u64;
            }
            9 => {
                let times = random.from(10, 400);
                (0..times).for_each(|_| contents.damage(random));
            }
            _ => {
                let times = random.pick(&[1, 1, 1, 2, 3, 8]);
                (0..times).for_each(|_| contents.damage(random));
            }
        }
        contents
    }

    /// One more word changed, in the room that this kind is about.
    pub fn damage(&mut self, random: &mut Random) {
        let Some(at) = self.at else { return };
        let range = room(self.kind, &at);
        let mut place = range.start + random.index(range.len());
        if self.kind == 11 {
            place = at.row(random.index(2), random.index(at.n));
        }
        if self.kind == 23 && random.chance(1, 2) {
            // An entry that is in use, or a mask or live word of the first blocks.
            let list = random.index(at.lists);
            let used = self.words.get(at.count(list)).map_or(1, |&len| (len as usize).clamp(1, at.cap));
            place = at.entry(list, random.index(used));
        }
        if let Some(word) = self.words.get_mut(place) {
            *word = bad(*word, &at, random);
        }
    }
}

/// The five words of a header that fits.
fn header(words: &mut [u64], at: &Layout) {
    let len = words.len() as u64;
    words[..5].copy_from_slice(&[len, at.n as u64, at.sliced as u64, at.cap as u64, 1 << 10]);
}
