//! All cases by name. A case is made when it is asked for: some take a second to set up.

use crate::circuits::Style;
use crate::events::{Order, blockers, kills, records};
use crate::gates::KINDS;
use crate::looks::{Place, absent, one};
use crate::ours::Words;
use crate::timing::Case;
use crate::whole::{EVENTS, case, circuit, opening};

pub struct Named {
    pub name: String,
    pub make: Box<dyn Fn() -> Case<'static>>,
}

/// The shapes: qubits, sliced.
pub const SHAPES: [(usize, bool); 4] = [(32, true), (192, false), (64, false), (65, false)];

pub fn shape(n: usize, sliced: bool) -> String {
    format!("n={n} {}", if sliced { "sliced" } else { "scalar" })
}

pub const STYLES: [(Style, &str); 4] =
    [(Style::ManyFolds, "many folds"), (Style::SomeFolds, "some folds"), (Style::NoFolds, "no folds"), (Style::DenseFolds, "many folds, dense")];

pub const OPENINGS: [(Option<Words>, &str); 3] =
    [(Some(Words::Zeroed), "with opening"), (Some(Words::AsTheyCome), "with opening, words as they come"), (None, "without opening")];

pub fn all() -> Vec<Named> {
    let mut cases = Vec::new();
    let mut add = |name: String, make: Box<dyn Fn() -> Case<'static>>| cases.push(Named { name, make });
    for (n, sliced) in SHAPES {
        for (style, name) in STYLES {
            for (opening, what) in OPENINGS {
                add(format!("whole run {what}, {name}, {}", shape(n, sliced)), whole(style, n, sliced, opening));
            }
        }
    }
    for (n, sliced, events) in [(32, true, EVENTS), (192, false, EVENTS), (32, true, 48), (32, false, 48), (192, false, 48), (4, true, 48)] {
        for (words, what) in [(Words::Zeroed, "zeroed words"), (Words::AsTheyCome, "words as they come")] {
            add(format!("opening, {what}, {}, E={events}", shape(n, sliced)), Box::new(move || opening(n, sliced, events, words)));
        }
    }
    for n in [32, 64, 65, 192] {
        for kind in KINDS {
            add(format!("gate {kind}, n={n}"), Box::new(move || crate::gates::case(kind, n)));
        }
    }
    for (n, sliced) in SHAPES {
        looks_of(n, sliced, &mut add);
        events_of(n, sliced, &mut add);
    }
    cases
}

/// The circuit is kept for good: a case borrows it.
fn whole(style: Style, n: usize, sliced: bool, opening: Option<Words>) -> Box<dyn Fn() -> Case<'static>> {
    Box::new(move || case(Box::leak(Box::new(circuit(style, n, sliced, EVENTS, false))), sliced, EVENTS, opening))
}

fn looks_of(n: usize, sliced: bool, add: &mut impl FnMut(String, Box<dyn Fn() -> Case<'static>>)) {
    let s = shape(n, sliced);
    let places = [
        (Place::Far, "found far"),
        (Place::Near, "found near"),
        (Place::Nowhere, "none"),
        (Place::BlockedFar, "blocked far"),
        (Place::BlockedNear, "blocked near"),
    ];
    let (few, some) = if sliced { (3, 2) } else { (4, 4) };
    for (weight, probe) in [(few, few), (if n > 64 { 24 } else { n }, some), (n, n)] {
        for (place, name) in places {
            add(format!("look {name}, events on {weight}, axis on {probe}, {s}"), Box::new(move || one(n, sliced, weight, probe, place, false)));
        }
    }
    for (dense, name) in [(false, "sparse"), (true, "dense")] {
        add(format!("look none, all {name} axes of a frame, {s}"), Box::new(move || absent(n, sliced, dense, false)));
    }
    for (place, name) in [(Place::Far, "found far"), (Place::Nowhere, "none")] {
        add(format!("look {name}, all labels 0, events on {few}, {s}"), Box::new(move || one(n, sliced, few, few, place, true)));
    }
}

fn events_of(n: usize, sliced: bool, add: &mut impl FnMut(String, Box<dyn Fn() -> Case<'static>>)) {
    let s = shape(n, sliced);
    for (dense, name) in [(false, "sparse"), (true, "dense")] {
        add(format!("record, {name}, {s}"), Box::new(move || records(n, sliced, dense)));
        for what in ["measure", "reset", "ccx"] {
            add(format!("{what}, {name}, {s}"), Box::new(move || blockers(what, n, sliced, dense)));
        }
    }
    for (weight, name) in [(5, "on 5"), (n, "dense")] {
        for (order, first) in [(Order::NewestFirst, "newest first"), (Order::OldestFirst, "oldest first"), (Order::Random, "at random")] {
            add(format!("kill {first}, {name}, {s}"), Box::new(move || kills(n, sliced, weight, order)));
        }
    }
}
