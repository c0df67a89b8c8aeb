//! Whole runs: opening, a circuit until the room for events is full, and giving the memory back; and openings alone.

use crate::circuits::{Style, extend};
use crate::ours::{Mine, Ours, Words, label_words, mine};
use crate::rng::Rng;
use crate::timing::{Case, region};
use oracle::judge::speed::{Item, Speed};
use std::hint::black_box;

pub const EVENTS: usize = 12_000;
pub const STEPS: usize = 1 << 20;

pub struct Circuit {
    pub labels: Vec<(u128, u128)>,
    pub words: Vec<u64>,
    pub theirs: Vec<Item>,
    pub ours: Vec<Mine>,
    pub rotations: usize,
    pub folds: usize,
}

/// The circuit up to the first item that has no room, but no more than 200,000 items.
pub fn circuit(style: Style, n: usize, sliced: bool, events: usize, zero: bool) -> Circuit {
    let mut rng = Rng::new(n as u64 + 1000);
    let labels = rng.labels(n, zero);
    let words = label_words(&labels);
    let mut store = Ours::open(&words, sliced, events, STEPS as u64, Words::Zeroed);
    let (mut theirs, mut ours): (Vec<Item>, Vec<Mine>) = (Vec::new(), Vec::new());
    let (mut rotations, mut folds) = (0, 0);
    'all: while ours.len() < 200_000 {
        let from = theirs.len();
        extend(style, n, &mut rng, &mut theirs);
        for item in &theirs[from..] {
            let item = mine(item);
            if !store.fits(&item) {
                break 'all;
            }
            if let Mine::Rotation { kind, q, .. } = item {
                rotations += 1;
                folds += usize::from(store.look(kind, q)[0] == 1);
            }
            store.run(&[item]);
            ours.push(item);
        }
    }
    theirs.truncate(ours.len());
    Circuit { labels, words, theirs, ours, rotations, folds }
}

/// With the opening and the giving back of memory in the time, for words come by like this; or without.
pub fn case<'a>(c: &'a Circuit, sliced: bool, events: usize, opening: Option<Words>) -> Case<'a> {
    let mut kept = Ours::open(&c.words, sliced, events, STEPS as u64, Words::Zeroed);
    Case {
        calls: 1,
        repeats: false,
        ours: Box::new(move |_| {
            if let Some(words) = opening {
                return region(|| Ours::open(&c.words, sliced, events, STEPS as u64, words).run(&c.ours));
            }
            kept.reopen(&c.words);
            region(|| kept.run(&c.ours))
        }),
        theirs: Box::new(move |_| {
            if opening.is_some() {
                return region(|| Speed::open(&c.labels, sliced, STEPS).run(&c.theirs));
            }
            let mut it = Speed::open(&c.labels, sliced, STEPS);
            region(|| it.run(&c.theirs))
        }),
    }
}

/// Opening and giving back.
pub fn opening<'a>(n: usize, sliced: bool, events: usize, come: Words) -> Case<'a> {
    let labels = Rng::new(3).labels(n, false);
    let words = label_words(&labels);
    Case {
        calls: 1,
        repeats: true,
        ours: Box::new(move |times| {
            let (t, ()) = region(|| {
                for _ in 0..times {
                    black_box(Ours::open(black_box(&words), sliced, events, STEPS as u64, come));
                }
            });
            (t, 0)
        }),
        theirs: Box::new(move |times| {
            let (t, ()) = region(|| {
                for _ in 0..times {
                    black_box(Speed::open(black_box(&labels), sliced, STEPS));
                }
            });
            (t, 0)
        }),
    }
}
