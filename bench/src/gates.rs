//! Gates alone: each kind, and a mix of h, s and cnot.

use crate::ours::{Ours, Words, coded, label_words};
use crate::rng::Rng;
use crate::timing::{Case, region};
use oracle::judge::speed::{Gate, Speed, mix};

pub const KINDS: [&str; 12] = ["h", "x", "y", "z", "s", "sdg", "sx", "cnot", "cz", "cy", "swap", "mixed"];

pub fn gate(kind: &str, n: usize, rng: &mut Rng) -> Gate {
    let (a, b) = rng.two(n);
    let (q, control, target) = (a as u32, a as u32, b as u32);
    match kind {
        "h" => Gate::h(q),
        "x" => Gate::x(q),
        "y" => Gate::y(q),
        "z" => Gate::z(q),
        "s" => Gate::s(q),
        "sdg" => Gate::sdg(q),
        "sx" => Gate::sx(q),
        "cnot" => Gate::cnot { control, target },
        "cz" => Gate::cz { control, target },
        "cy" => Gate::cy { control, target },
        "swap" => Gate::swap(q, target),
        _ => {
            let pick = ["h", "s", "cnot"][rng.below(3)];
            gate(pick, n, rng)
        }
    }
}

pub fn case<'a>(kind: &'static str, n: usize) -> Case<'a> {
    let mut rng = Rng::new(n as u64);
    let labels = rng.labels(n, false);
    let theirs: Vec<Gate> = (0..4096).map(|_| gate(kind, n, &mut rng)).collect();
    let ours: Vec<_> = theirs.iter().map(coded).collect();
    let mut a = Ours::open(&label_words(&labels), false, 1, 1, Words::Zeroed);
    let mut b = Speed::open(&labels, false, 1);
    Case {
        calls: 4096,
        repeats: true,
        ours: Box::new(move |times| {
            let (t, ()) = region(|| (0..times).for_each(|_| a.steps(&ours)));
            (t, a.frames().iter().fold(0, |s, &w| mix(s, w)))
        }),
        theirs: Box::new(move |times| {
            let (t, ()) = region(|| (0..times).for_each(|_| b.steps(&theirs)));
            (t, b.frames().iter().fold(0, |s, &w| mix(s, w)))
        }),
    }
}
