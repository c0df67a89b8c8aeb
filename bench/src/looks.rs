//! Looks alone: 12,000 events of a given weight, one axis asked for again and again; or many axes, none of them recorded.

use crate::circuits::{Axis, anticommute, axis, scramble, towards};
use crate::ours::{Ours, Words, coded, label_words, number};
use crate::rng::Rng;
use crate::timing::{Case, region};
use crate::whole::{EVENTS, STEPS};
use oracle::judge::Kind;
use oracle::judge::speed::{Gate, Speed};

/// Both sides after the same calls.
pub struct Pair {
    pub ours: Ours,
    pub theirs: Speed,
}

impl Pair {
    pub fn open(n: usize, sliced: bool, zero: bool, rng: &mut Rng) -> Self {
        let labels = rng.labels(n, zero);
        Self { ours: Ours::open(&label_words(&labels), sliced, EVENTS, STEPS as u64, Words::Zeroed), theirs: Speed::open(&labels, sliced, STEPS) }
    }

    pub fn steps(&mut self, gates: &[Gate]) {
        self.ours.steps(&gates.iter().map(coded).collect::<Vec<_>>());
        self.theirs.steps(gates);
    }

    /// A rotation about the string; the frames are fresh before and after.
    pub fn record(&mut self, a: &Axis) {
        let (gates, back, q) = towards(a);
        self.steps(&gates);
        self.ours.records(&[(number(Kind::Z), q)]);
        self.theirs.records(&[(Kind::Z, q)]);
        self.steps(&back);
    }
}

/// Where the axis asked for was recorded, and what is in the way.
#[derive(Clone, Copy, PartialEq, Eq)]
pub enum Place {
    Far,
    Near,
    Nowhere,
    BlockedFar,
    BlockedNear,
}

/// Events on `weight` qubits that commute with the axis asked for, which is on `probe` qubits, but for one if it is blocked.
pub fn pair(n: usize, sliced: bool, weight: usize, probe: usize, place: Place, zero: bool) -> (Pair, u32) {
    let mut rng = Rng::new(17);
    let mut p = Pair::open(n, sliced, zero, &mut rng);
    let asked = axis(&mut rng, n, probe);
    let (at, block) = match place {
        Place::Far => (0, EVENTS),
        Place::Near => (EVENTS - 100, EVENTS),
        Place::Nowhere => (EVENTS, EVENTS),
        Place::BlockedFar => (0, EVENTS - 1),
        Place::BlockedNear => (EVENTS - 100, EVENTS - 50),
    };
    for id in 0..EVENTS {
        if id == at {
            p.record(&asked);
            continue;
        }
        let a = std::iter::repeat_with(|| axis(&mut rng, n, weight)).find(|a| anticommute(a, &asked) == (id == block) && *a != asked);
        p.record(&a.expect("there are enough strings"));
    }
    let (gates, _, q) = towards(&asked);
    p.steps(&gates);
    (p, q)
}

pub fn one<'a>(n: usize, sliced: bool, weight: usize, probe: usize, place: Place, zero: bool) -> Case<'a> {
    let (p, q) = pair(n, sliced, weight, probe, place, zero);
    let says = p.ours.look(number(Kind::Z), q);
    let want = match place {
        Place::Far | Place::Near => 1,
        Place::Nowhere => 0,
        Place::BlockedFar | Place::BlockedNear => 2,
    };
    assert_eq!(says[0], want, "the look is of the kind that is timed");
    asked(p, vec![(Kind::Z, q)])
}

/// Every axis of a scrambled or an almost fresh frame, none of which was recorded.
pub fn absent<'a>(n: usize, sliced: bool, dense: bool, zero: bool) -> Case<'a> {
    let mut rng = Rng::new(23);
    let mut p = Pair::open(n, sliced, zero, &mut rng);
    for _ in 0..EVENTS {
        let a = axis(&mut rng, n, 5);
        p.record(&a);
    }
    if dense {
        p.steps(&scramble(&mut rng, n));
    }
    let mut all: Vec<_> = (0..n as u32).flat_map(|q| [Kind::X, Kind::Y, Kind::Z].map(|k| (k, q))).collect();
    for i in (1..all.len()).rev() {
        all.swap(i, rng.below(i + 1));
    }
    asked(p, all)
}

fn asked<'a>(mut p: Pair, all: Vec<(Kind, u32)>) -> Case<'a> {
    assert_eq!(p.ours.lists(), p.theirs.lists());
    let mine: Vec<_> = all.iter().map(|&(k, q)| (number(k), q)).collect();
    let calls = all.len();
    let ours = p.ours;
    Case {
        calls,
        repeats: true,
        ours: Box::new(move |times| region(|| ours.looks(&mine, calls * times))),
        theirs: Box::new(move |times| region(|| p.theirs.looks(&all, calls * times))),
    }
}
