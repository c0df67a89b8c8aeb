//! Every gate and turn after every other on two qubits: all 11 gates on all ordered choices of qubits and all turns, 54 in all,
//! so 2,916 pairs, each in both forms, on fresh frames and on scrambled ones; then all axes are recorded and looked for.

use crate::jobs::gate;
use crate::random::Random;
use crate::run::{Old, Op, Opening};
use oracle::judge::{Call, Form, Kind};

/// All gates and turns on two qubits.
pub fn all() -> Vec<Call> {
    let mut calls = Vec::new();
    for number in 0..11 {
        for (a, b) in [(0, 1), (1, 0)] {
            calls.push(Call::Gate(gate(number, a, b)));
        }
    }
    for kind in Kind::ALL {
        for k in [0, 2, 4, 6] {
            calls.extend([0, 1].map(|q| Call::Turn { k, kind, q }));
        }
    }
    calls
}

/// How many jobs there are.
pub fn count() -> u64 {
    let one = all().len() as u64;
    one * one * 4
}

/// Job `index` of them.
pub fn job(index: u64) -> (Opening, Vec<Op>) {
    let calls = all();
    let one = calls.len() as u64;
    let (pair, how) = (index / 4, index % 4);
    let mut random = Random::of(0x7061_6972, index);
    let mut ops = Vec::new();
    if how % 2 == 1 {
        ops.extend((0..6).map(|_| Op::Call(random.pick(&calls))));
    }
    ops.push(Op::Call(calls[(pair / one) as usize]));
    ops.push(Op::Call(calls[(pair % one) as usize]));
    for q in 0..2 {
        ops.extend(Kind::ALL.iter().map(|&kind| Op::Call(Call::Record { kind, q, tag: random.word() as u32 })));
    }
    for q in 0..2 {
        ops.extend(Kind::ALL.iter().map(|&kind| Op::Call(Call::Look { kind, q })));
    }
    let form = if how / 2 == 0 { Form::Scalar } else { Form::Sliced };
    let labels = (0..8).map(|_| random.word()).collect();
    let opening = Opening { n: 2, cap: 8, steps: 1 << 20, form, labels, old: Old::Random, slack: 0, extra: 0, seed: random.word() };
    (opening, ops)
}
