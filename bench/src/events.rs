//! Records, blockers and kills alone. Both sides keep their memory from one measurement to the next, so that no fresh memory is
//! paid for.

use crate::circuits::{axis, scramble, towards};
use crate::gates::gate;
use crate::looks::Pair;
use crate::ours::{Coded, Ours, Words, coded, label_words, number};
use crate::rng::Rng;
use crate::timing::{Case, region};
use crate::whole::EVENTS;
use oracle::judge::Kind;
use oracle::judge::speed::{Gate, Speed};

/// A pair with a dense frame, or one whose rows are on a few qubits, and the labels that it was opened with.
fn framed(n: usize, sliced: bool, dense: bool, rng: &mut Rng) -> (Pair, Vec<Gate>, Vec<u64>) {
    let labels = rng.labels(n, false);
    let words = label_words(&labels);
    let gates = if dense { scramble(rng, n) } else { (0..n).map(|_| gate("mixed", n, rng)).collect() };
    let mut p = Pair {
        ours: Ours::open(&words, sliced, EVENTS, 1 << 20, Words::Zeroed),
        theirs: Speed::open(&labels, sliced, 1 << 20),
    };
    p.steps(&gates);
    (p, gates, words)
}

pub fn records<'a>(n: usize, sliced: bool, dense: bool) -> Case<'a> {
    let mut rng = Rng::new(29);
    let (p, gates, words) = framed(n, sliced, dense, &mut rng);
    let all: Vec<_> = (0..EVENTS).map(|_| (Kind::ALL[rng.below(3)], rng.below(n) as u32)).collect();
    let mine: Vec<_> = all.iter().map(|&(k, q)| (number(k), q)).collect();
    let calls: Vec<_> = gates.iter().map(coded).collect();
    let (mut ours, mut theirs) = (p.ours, p.theirs);
    Case {
        calls: EVENTS,
        repeats: false,
        ours: Box::new(move |_| {
            ours.reopen(&words);
            ours.steps(&calls);
            let (t, ()) = region(|| ours.records(&mine));
            (t, ours.lists())
        }),
        theirs: Box::new(move |_| {
            theirs.empty();
            let (t, ()) = region(|| theirs.records(&all));
            (t, theirs.lists())
        }),
    }
}

/// The blockers of measure, reset or ccx until the room is full.
pub fn blockers<'a>(what: &'static str, n: usize, sliced: bool, dense: bool) -> Case<'a> {
    let mut rng = Rng::new(31);
    let (p, gates, words) = framed(n, sliced, dense, &mut rng);
    let each = match what {
        "measure" => 1,
        "reset" => 2,
        _ => 7,
    };
    let count = EVENTS / each;
    let all: Vec<Gate> = (0..count)
        .map(|_| {
            let (a, b) = rng.two(n);
            let c = (0..n).find(|c| *c != a && *c != b).expect("three qubits");
            match what {
                "measure" => Gate::measure { qubit: a as u32, cbit: 0 },
                "reset" => Gate::reset(a as u32),
                _ => Gate::ccx { control1: a as u32, control2: b as u32, target: c as u32 },
            }
        })
        .collect();
    let mine: Vec<_> = all.iter().map(coded).collect();
    let calls: Vec<_> = gates.iter().map(coded).collect();
    let (mut ours, mut theirs) = (p.ours, p.theirs);
    Case {
        calls: count,
        repeats: false,
        ours: Box::new(move |_| {
            ours.reopen(&words);
            ours.steps(&calls);
            let (t, ()) = region(|| ours.steps(&mine));
            (t, ours.lists())
        }),
        theirs: Box::new(move |_| {
            theirs.empty();
            let (t, ()) = region(|| theirs.steps(&all));
            (t, theirs.lists())
        }),
    }
}

#[derive(Clone, Copy, PartialEq, Eq)]
pub enum Order {
    NewestFirst,
    OldestFirst,
    Random,
}

/// All of 12,000 rotations of distinct axes killed, lists rebuilt and compacted on the way.
pub fn kills<'a>(n: usize, sliced: bool, weight: usize, order: Order) -> Case<'a> {
    let mut rng = Rng::new(37);
    let labels = rng.labels(n, false);
    let words = label_words(&labels);
    let mut p = Pair { ours: Ours::open(&words, sliced, EVENTS, 1 << 20, Words::Zeroed), theirs: Speed::open(&labels, sliced, 1 << 20) };
    let axes: Vec<_> = (0..EVENTS).map(|_| axis(&mut rng, n, weight)).collect();
    axes.iter().for_each(|a| p.record(a));
    let mut ids: Vec<usize> = (0..EVENTS).collect();
    match order {
        Order::NewestFirst => ids.reverse(),
        Order::OldestFirst => {}
        Order::Random => (1..EVENTS).rev().for_each(|i| ids.swap(i, rng.below(i + 1))),
    }
    let (mut ours, mut theirs) = (p.ours, p.theirs);
    let (mine, ways) = (ids.clone(), axes.iter().map(towards).collect::<Vec<_>>());
    let calls: Vec<_> = ways.iter().map(|(go, back, q)| (codes(go), codes(back), *q)).collect();
    // Both record all events again before each measurement, so that their memory is as warm as after recording.
    Case {
        calls: EVENTS,
        repeats: false,
        ours: Box::new(move |_| {
            ours.reopen(&words);
            for (go, back, q) in &calls {
                ours.steps(go);
                ours.records(&[(number(Kind::Z), *q)]);
                ours.steps(back);
            }
            let (t, ()) = region(|| ours.kills(&mine));
            (t, ours.lists())
        }),
        theirs: Box::new(move |_| {
            theirs.empty();
            for (go, back, q) in &ways {
                theirs.steps(go);
                theirs.records(&[(Kind::Z, *q)]);
                theirs.steps(back);
            }
            let (t, ()) = region(|| theirs.kills(&ids));
            (t, theirs.lists())
        }),
    }
}

fn codes(gates: &[Gate]) -> Vec<Coded> {
    gates.iter().map(coded).collect()
}
