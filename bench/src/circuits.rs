//! Inputs: gates that bring a wanted axis into a frame, and endless circuits with many, some and no folds.

use crate::gates::gate;
use crate::rng::Rng;
use oracle::judge::Kind;
use oracle::judge::speed::{Angled, Gate, Item};

/// A Pauli string: for each qubit 0, or 1 for X, 2 for Z, 3 for Y.
pub type Axis = Vec<u8>;

/// A string on `weight` random qubits of n.
pub fn axis(rng: &mut Rng, n: usize, weight: usize) -> Axis {
    let mut a = vec![0; n];
    let mut left = weight;
    while left > 0 {
        let q = if weight == n { left - 1 } else { rng.below(n) };
        if a[q] == 0 {
            a[q] = 1 + rng.below(3) as u8;
            left -= 1;
        }
    }
    a
}

pub fn anticommute(a: &Axis, b: &Axis) -> bool {
    a.iter().zip(b).filter(|(p, q)| **p != 0 && **q != 0 && p != q).count() % 2 == 1
}

/// Gates after which, on fresh frames, z[q] is the string, for the q given back; and the gates that take them back.
pub fn towards(a: &Axis) -> (Vec<Gate>, Vec<Gate>, u32) {
    let first = a.iter().position(|&p| p != 0).expect("not the identity") as u32;
    let mut gates = Vec::new();
    let mut back = Vec::new();
    for (q, &p) in a.iter().enumerate() {
        let q = q as u32;
        if p == 3 {
            gates.push(Gate::s(q));
            back.push(Gate::sdg(q));
        }
        if p & 1 == 1 {
            gates.push(Gate::h(q));
            back.push(Gate::h(q));
        }
    }
    for (q, &p) in a.iter().enumerate() {
        if p != 0 && q as u32 != first {
            let join = Gate::cnot { control: q as u32, target: first };
            gates.push(join.clone());
            back.push(join);
        }
    }
    back.reverse();
    (gates, back, first)
}

/// Gates that leave every row on about half of the qubits or more.
pub fn scramble(rng: &mut Rng, n: usize) -> Vec<Gate> {
    (0..40 * n).map(|_| gate("mixed", n, rng)).collect()
}

fn rotation(kind: Kind, q: usize, angled: Angled) -> Item {
    Item::Rotation { kind, q: q as u32, angled }
}

/// The endless circuits.
#[derive(Clone, Copy, Debug, PartialEq, Eq)]
pub enum Style {
    /// Random gates and rotations: rows grow dense, no axis comes twice.
    NoFolds,
    /// Toffolis on near qubits written out in T gates, as adders have them; now and then ccx, measure, and a gate that clears.
    SomeFolds,
    /// Rotations about ZZ of neighbours, each several times in a layer, between layers of RX.
    ManyFolds,
    /// The same behind a scramble, so that every axis is dense.
    DenseFolds,
}

/// Adds a next part of the circuit.
pub fn extend(style: Style, n: usize, rng: &mut Rng, items: &mut Vec<Item>) {
    match style {
        Style::NoFolds => random_part(n, rng, items),
        Style::SomeFolds => toffoli_part(n, rng, items),
        Style::ManyFolds => layers_part(n, rng, items),
        Style::DenseFolds => {
            if items.is_empty() {
                items.extend(scramble(rng, n).into_iter().map(Item::Gate));
            }
            layers_part(n, rng, items);
        }
    }
}

fn random_part(n: usize, rng: &mut Rng, items: &mut Vec<Item>) {
    for _ in 0..64 {
        for _ in 0..3 {
            items.push(Item::Gate(gate("mixed", n, rng)));
        }
        // A gate that changes the row asked for, so that its axis is a new one.
        let (q, other) = rng.two(n);
        let kind = Kind::ALL[rng.below(4)];
        let (control, target) = if kind == Kind::X { (q, other) } else { (other, q) };
        items.push(Item::Gate(Gate::cnot { control: control as u32, target: target as u32 }));
        items.push(rotation(kind, q, Angled::Any));
    }
    items.push(Item::Gate(Gate::measure { qubit: rng.below(n) as u32, cbit: 0 }));
}

fn toffoli_part(n: usize, rng: &mut Rng, items: &mut Vec<Item>) {
    let start = rng.below(n - 7);
    let (a, b) = rng.two(7);
    let t = (0..8).find(|i| *i != a && *i != b && rng.below(2) == 0).unwrap_or(7);
    let [a, b, t] = [a, b, t].map(|q| q + start);
    let cx = |c: usize, t: usize| Item::Gate(Gate::cnot { control: c as u32, target: t as u32 });
    let tee = |q: usize| rotation(Kind::Z, q, Angled::T);
    let h = || Item::Gate(Gate::h(t as u32));
    items.extend([h(), cx(b, t), tee(t), cx(a, t), tee(t), cx(b, t), tee(t), cx(a, t), tee(b), tee(t), h()]);
    items.extend([cx(a, b), tee(a), tee(b), cx(a, b)]);
    match rng.below(512) {
        0..16 => items.push(Item::Gate(Gate::ccx { control1: a as u32, control2: b as u32, target: t as u32 })),
        16..48 => items.push(Item::Gate(Gate::measure { qubit: t as u32, cbit: 0 })),
        48..128 => items.push(Item::Gate(Gate::h(rng.below(n) as u32))),
        128 => items.push(Item::Gate(Gate::ch { control: 0, target: 1 })),
        _ => {}
    }
}

fn layers_part(n: usize, rng: &mut Rng, items: &mut Vec<Item>) {
    for _ in 0..8 * n {
        let a = rng.below(n - 1);
        let cx = Item::Gate(Gate::cnot { control: a as u32, target: a as u32 + 1 });
        items.extend([cx.clone(), rotation(Kind::Z, a + 1, Angled::Any), cx]);
    }
    for _ in 0..2 * n {
        items.push(rotation(Kind::X, rng.below(n), Angled::Any));
    }
    items.push(Item::Gate(Gate::measure { qubit: rng.below(n) as u32, cbit: 0 }));
}
