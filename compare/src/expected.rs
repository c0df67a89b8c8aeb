//! What the words of a store should be, worked out from the original's state alone: every word that a state relies on
//! (docs/STORE.md). The other words should be as they were, so a copy of the store from before a call, with these words put over
//! it, is the store after it.

use crate::words::Layout;
use oracle::judge::{Judge, Plane};

/// What the original does not keep in a form that can be read: the label under which each event was recorded (its map is keyed by
/// it) and how many events there were at the last clear (its map is emptied). Both are taken from the `Judge` when the call is
/// made.
#[derive(Default)]
pub struct Notes {
    /// `None` for a blocker.
    pub labels: Vec<Option<u128>>,
    pub cleared: usize,
}

/// A part of a store that a call can touch.
#[derive(Clone, Copy, Debug, PartialEq, Eq)]
pub enum Part {
    /// Both rows of a qubit and their labels.
    Qubit(usize),
    /// Events recorded, events at the last clear.
    Numbers,
    /// Tag with sign, label, signature, axis, and the live word of its block.
    Event(usize),
    /// The head of a bucket and the links of all live rotations in it.
    Chain(usize),
    /// Length, dead count and entries; sliced also masks and live words.
    List(usize),
}

/// Hands each word of a part with its place to `put`.
pub fn part(part: Part, judge: &Judge, notes: &Notes, at: &Layout, put: &mut impl FnMut(usize, u64)) {
    match part {
        Part::Qubit(q) => qubit(q, judge, at, put),
        Part::Numbers => {
            put(at.numbers, judge.events() as u64);
            put(at.numbers + 1, notes.cleared as u64);
        }
        Part::Event(id) => {
            event(id, judge, notes, at, put);
            live_word(id / 64, judge, at, put);
        }
        Part::Chain(k) => chain(k, judge, notes, at, put),
        Part::List(b) => list(b, judge, at, put),
    }
}

/// Every word that the state relies on. `opened` is the length of the slice at its opening.
pub fn whole(judge: &Judge, notes: &Notes, at: &Layout, opened: usize, put: &mut impl FnMut(usize, u64)) {
    put(0, opened as u64);
    put(1, judge.qubits() as u64);
    put(2, at.sliced as u64);
    put(3, judge.capacity() as u64);
    put(4, judge.allowance() as u64);
    part(Part::Numbers, judge, notes, at, put);
    for q in 0..at.n {
        qubit(q, judge, at, put);
    }
    for id in 0..judge.events() {
        event(id, judge, notes, at, put);
    }
    for block in 0..judge.events().div_ceil(64) {
        live_word(block, judge, at, put);
    }
    for b in 0..at.lists {
        list(b, judge, at, put);
    }
    chains(judge, notes, at, put);
}

fn label(place: usize, label: u128, put: &mut impl FnMut(usize, u64)) {
    put(place, (label >> 64) as u64);
    put(place + 1, label as u64);
}

fn slice(place: usize, words: &[u64], put: &mut impl FnMut(usize, u64)) {
    for (k, &w) in words.iter().enumerate() {
        put(place + k, w);
    }
}

fn qubit(q: usize, judge: &Judge, at: &Layout, put: &mut impl FnMut(usize, u64)) {
    for (k, plane) in [Plane::X, Plane::Z].into_iter().enumerate() {
        let row = judge.row(plane, q);
        let place = at.row(k, q);
        put(place, row.phase as u64);
        slice(place + 1, row.x, put);
        slice(place + 1 + at.l, row.z, put);
        label(at.row_label(k, q), judge.label(plane, q), put);
    }
}

fn event(id: usize, judge: &Judge, notes: &Notes, at: &Layout, put: &mut impl FnMut(usize, u64)) {
    let event = judge.event(id).expect("an event that was recorded");
    let word = event.rotation.map_or(0, |(tag, sign)| 4 * tag as u64 + if sign == 1 { 1 } else { 3 });
    put(at.tags + id, word);
    if let Some(l) = notes.labels[id] {
        label(at.labels + 2 * id, l, put);
    }
    put(at.sigs + id, if event.live { event.signature } else { 0 });
    slice(at.axis(id), event.axis, put);
}

/// The live bits of 64 events; those past the last event are 0.
fn live_word(block: usize, judge: &Judge, at: &Layout, put: &mut impl FnMut(usize, u64)) {
    let last = judge.events().min(64 * block + 64);
    let live = (64 * block..last).filter(|&id| judge.event(id).is_some_and(|e| e.live));
    put(at.live + block, live.fold(0, |word, id| word | 1 << (id % 64)));
}

/// The live rotations of bucket k, newest first.
fn chain(k: usize, judge: &Judge, notes: &Notes, at: &Layout, put: &mut impl FnMut(usize, u64)) {
    let mut head = 0;
    for (id, label) in notes.labels.iter().enumerate() {
        if label.is_some_and(|l| at.bucket(l) == k) && judge.event(id).is_some_and(|e| e.live) {
            put(at.links + id, head);
            head = id as u64 + 1;
        }
    }
    put(at.heads + k, head);
}

/// The same of all buckets at once.
fn chains(judge: &Judge, notes: &Notes, at: &Layout, put: &mut impl FnMut(usize, u64)) {
    let mut heads = vec![0; at.cap];
    for (id, label) in notes.labels.iter().enumerate() {
        let Some(label) = label else { continue };
        if judge.event(id).is_some_and(|e| e.live) {
            let head = &mut heads[at.bucket(*label)];
            put(at.links + id, *head);
            *head = id as u64 + 1;
        }
    }
    slice(at.heads, &heads, put);
}

fn list(b: usize, judge: &Judge, at: &Layout, put: &mut impl FnMut(usize, u64)) {
    let list = judge.list(b);
    put(at.count(b), list.ids.len() as u64);
    put(at.count(b) + 1, list.dead as u64);
    for (k, &id) in list.ids.iter().enumerate() {
        put(at.entry(b, k), id as u64);
    }
    if at.sliced {
        for block in 0..list.ids.len().div_ceil(64) {
            slice(at.masks(b, block), &list.masks[2 * at.n * block..2 * at.n * (block + 1)], put);
            put(at.live_word(b, block), list.live[block]);
        }
    }
}
