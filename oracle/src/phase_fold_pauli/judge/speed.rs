//! The original for ../../../../bench: its own items driven in loops of this crate, as the original's own loop does, with none of
//! `Judge`'s checks.
//!
//! A grandchild of phase_fold_pauli.rs, so it sees that file's private items; numbers in comments are its lines. What a rotation
//! does to the circuit that comes out (angles, `deleted`, `replacements`) is left out here and on our side.

use super::super::*;
use super::Kind;

pub use crate::circuit::Gate;

/// What a rotation's fold leaves behind: a rotation that is recorded again, or a Clifford angle (T twice) that turns the frames.
#[derive(Clone, Copy, Debug, PartialEq, Eq)]
pub enum Angled {
    Any,
    T,
}

/// One gate of a whole run. Measure, reset, ccx, ccz and the gates that clear are `Gate`s, as in 276.
#[derive(Clone, Debug)]
pub enum Item {
    Gate(Gate),
    Rotation { kind: Kind, q: u32, angled: Angled },
}

/// How the sums of both sides mix in a word.
pub fn mix(sum: u64, w: u64) -> u64 {
    (sum ^ w).wrapping_mul(0x9e37_79b9_7f4a_7c15).rotate_left(23)
}

pub struct Speed {
    folder: Folder<'static>,
}

impl Speed {
    /// 144. The context is an empty struct here, so nothing is leaked.
    pub fn open(labels: &[(u128, u128)], sliced: bool, allowance: usize) -> Self {
        let n = labels.len();
        let angles = Box::leak(Box::default());
        Self { folder: Folder::new(labels, n, n.div_ceil(64).max(1), allowance, sliced, 0, angles) }
    }

    /// 152: gates, measurements and the like, one after the other.
    pub fn steps(&mut self, gates: &[Gate]) {
        for gate in gates {
            self.folder.step(0, gate).expect("there is room");
        }
    }

    /// 340, 341 and 344: `times` looks, each about the next of the axes asked for. The sum is over the partners' numbers and
    /// relative signs.
    pub fn looks(&mut self, asked: &[(Kind, u32)], times: usize) -> u64 {
        let f = &mut self.folder;
        let mut sum = 0;
        for i in 0..times {
            let (kind, q) = asked[i % asked.len()];
            let kind = kind.original();
            let hash = f.sketch.axis(kind, q);
            let sign = f.exact.axis(kind, q, &mut f.axis);
            let seen = f.history.partner(hash, &f.axis);
            sum = mix(sum, seen.map_or(0, |id| found(id, f.history.events[id].rotation.as_ref().expect("a rotation").sign * sign)));
        }
        sum
    }

    /// 340, 341 and 376 to 382: rotations recorded without a look, their tags counting up.
    pub fn records(&mut self, asked: &[(Kind, u32)]) {
        for (tag, &(kind, q)) in asked.iter().enumerate() {
            self.record(tag, kind.original(), q);
        }
    }

    fn record(&mut self, gate: usize, kind: RotationKind, q: u32) {
        let f = &mut self.folder;
        let hash = f.sketch.axis(kind, q);
        let sign = f.exact.axis(kind, q, &mut f.axis);
        let rotation = Rotation { gate, sign, angle: Angle(crate::angle::Angle::other()), input_gates: 1 };
        f.history.record_rotation(rotation, hash, &f.axis).expect("there is room");
    }

    /// 570.
    pub fn kills(&mut self, ids: &[usize]) {
        for &id in ids {
            self.folder.history.kill(id);
        }
    }

    /// A whole run. The sum is over what each look found.
    pub fn run(&mut self, items: &[Item]) -> u64 {
        let mut sum = 0;
        for (idx, item) in items.iter().enumerate() {
            match item {
                Item::Gate(gate) => self.folder.step(idx, gate).expect("there is room"),
                Item::Rotation { kind, q, angled } => sum = mix(sum, self.rotation(idx, *q, kind.original(), *angled)),
            }
        }
        sum
    }

    /// 334: look; on a fold kill the partner, and turn the frames or record what is merged; else record. Every fold is taken.
    fn rotation(&mut self, idx: usize, q: u32, kind: RotationKind, angled: Angled) -> u64 {
        let f = &mut self.folder;
        let hash = f.sketch.axis(kind, q);
        let sign = f.exact.axis(kind, q, &mut f.axis);
        let mut seen = 0;
        if let Some(id) = f.history.partner(hash, &f.axis) {
            let prior = f.history.rotation(id);
            seen = mix(found(id, prior.sign * sign), prior.gate as u64);
            f.history.kill(id);
            if angled == Angled::T {
                let k = if prior.sign * sign == 1 { 2 } else { 0 };
                f.apply_clifford_angle(Angle(crate::angle::Angle::quarters(k)), q, kind);
                return seen;
            }
        }
        let rotation = Rotation { gate: idx, sign, angle: Angle(crate::angle::Angle::other()), input_gates: 1 };
        f.history.record_rotation(rotation, hash, &f.axis).expect("there is room");
        seen
    }

    /// No events, with all room kept that has been allocated: for cases in which neither side is to pay for fresh memory.
    pub fn empty(&mut self) {
        let h = &mut self.folder.history;
        h.events.clear();
        h.axes.clear();
        h.sigs.clear();
        h.live.0.clear();
        h.newest.clear();
        match &mut h.lists {
            SupportLists::Scalar(lists) => lists.iter_mut().for_each(|list| {
                list.ids.clear();
                list.dead = 0;
            }),
            SupportLists::Sliced(lists) => lists.iter_mut().for_each(|list| {
                list.ids.clear();
                list.masks.clear();
                list.live.clear();
                list.dead = 0;
            }),
        }
    }

    pub fn events(&self) -> usize {
        self.folder.history.events.len()
    }

    /// Both frames as our store has them: for each qubit phase and words of x[q] and of z[q], then for each qubit both labels,
    /// high word first.
    pub fn frames(&self) -> Vec<u64> {
        let f = &self.folder;
        let mut words = Vec::new();
        for (x, z) in f.exact.x.iter().zip(&f.exact.z) {
            for row in [x, z] {
                words.push(u64::from(row.phase));
                words.extend_from_slice(&row.words);
            }
        }
        for (x, z) in f.sketch.x.iter().zip(&f.sketch.z) {
            for label in [x, z] {
                words.extend([(label >> 64) as u64, *label as u64]);
            }
        }
        words
    }

    /// The lengths and dead counts of all lists, in a sum.
    pub fn lists(&self) -> u64 {
        match &self.folder.history.lists {
            SupportLists::Scalar(lists) => lists.iter().fold(0, |s, l| mix(mix(s, l.ids.len() as u64), l.dead as u64)),
            SupportLists::Sliced(lists) => lists.iter().fold(0, |s, l| mix(mix(s, l.ids.len() as u64), l.dead as u64)),
        }
    }
}

/// A partner's number and relative sign in a word.
pub fn found(id: usize, sign: i8) -> u64 {
    2 * (id as u64 + 1) + u64::from(sign == 1)
}
