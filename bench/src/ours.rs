//! Our side: a store of its own words and the C functions of ../../include/tillbonnet.h, called in loops like those of `oracle`'s
//! speed.rs. Nothing is checked between the calls but what the C function answers, once for a whole loop.

use oracle::judge::Kind;
use oracle::judge::speed::{Angled, Gate, Item, found, mix};
use std::mem::MaybeUninit;
use tillbonnet::raw::*;

/// A call that is not about a rotation, by number: 0 to 10 are the gates of the header, then measure, reset, ccx, ccz and clear.
#[derive(Clone, Copy, Debug)]
pub struct Coded {
    pub number: u32,
    pub a: u32,
    pub b: u32,
    pub c: u32,
}

#[derive(Clone, Copy, Debug)]
pub enum Mine {
    Call(Coded),
    Rotation { kind: u64, q: u32, angled: Angled },
}

pub fn number(kind: Kind) -> u64 {
    match kind {
        Kind::X => 0,
        Kind::Y => 1,
        Kind::Z => 2,
        Kind::P => 3,
    }
}

pub fn coded(gate: &Gate) -> Coded {
    let (number, a, b, c) = match *gate {
        Gate::h(q) => (0, q, 0, 0),
        Gate::x(q) => (1, q, 0, 0),
        Gate::y(q) => (2, q, 0, 0),
        Gate::z(q) => (3, q, 0, 0),
        Gate::s(q) => (4, q, 0, 0),
        Gate::sdg(q) => (5, q, 0, 0),
        Gate::sx(q) => (6, q, 0, 0),
        Gate::cnot { control, target } => (7, control, target, 0),
        Gate::cz { control, target } => (8, control, target, 0),
        Gate::cy { control, target } => (9, control, target, 0),
        Gate::swap(a, b) => (10, a, b, 0),
        Gate::measure { qubit, .. } => (11, qubit, 0, 0),
        Gate::reset(q) => (12, q, 0, 0),
        Gate::ccx { control1, control2, target } => (13, control1, control2, target),
        Gate::ccz { control1, control2, target } => (14, control1, control2, target),
        Gate::ch { .. } => (15, 0, 0, 0),
        _ => panic!("no such gate in this benchmark"),
    };
    Coded { number, a, b, c }
}

pub fn mine(item: &Item) -> Mine {
    match item {
        Item::Gate(gate) => Mine::Call(coded(gate)),
        Item::Rotation { kind, q, angled } => Mine::Rotation { kind: number(*kind), q: *q, angled: *angled },
    }
}

/// Four words a qubit, as the header wants them.
pub fn label_words(labels: &[(u128, u128)]) -> Vec<u64> {
    labels.iter().flat_map(|&(x, z)| [(x >> 64) as u64, x as u64, (z >> 64) as u64, z as u64]).collect()
}

/// How a host comes by the words of a store.
#[derive(Clone, Copy, Debug, PartialEq, Eq)]
pub enum Words {
    /// `vec![0; need]`.
    Zeroed,
    /// As the allocator gives them: an opening relies on no old contents.
    AsTheyCome,
}

#[derive(Clone)]
pub struct Ours {
    pub words: Box<[MaybeUninit<u64>]>,
    pub n: usize,
    pub room: usize,
    pub form: u64,
    pub allowance: u64,
}

impl Ours {
    /// As a host opens a store: words from the allocator, then the opening.
    pub fn open(labels: &[u64], sliced: bool, room: usize, allowance: u64, words: Words) -> Self {
        let (n, form) = (labels.len() / 4, u64::from(sliced));
        let need = tillbonnet_need(n, room, form);
        let words = match words {
            Words::Zeroed => Box::new_zeroed_slice(need),
            Words::AsTheyCome => Box::new_uninit_slice(need),
        };
        let mut new = Self { words, n, room, form, allowance };
        new.reopen(labels);
        new
    }

    fn lent(&mut self) -> (*mut u64, usize) {
        (self.words.as_mut_ptr().cast(), self.words.len())
    }

    /// Words that the calls so far have written.
    fn written(&self, from: usize, to: usize) -> &[u64] {
        // SAFETY: asked for are the frames, the number of events and the lists' counts, all of which the opening in `open` wrote.
        unsafe { self.words[from..to].assume_init_ref() }
    }

    /// The same words opened again.
    pub fn reopen(&mut self, labels: &[u64]) {
        let (p, len) = self.lent();
        // SAFETY: `p` and `len` are this store's words, all of them; `labels` is another slice, lent with its own length.
        let k = unsafe { tillbonnet_open(p, len, self.n, self.room, self.allowance, self.form, labels.as_ptr(), labels.len()) };
        assert_eq!(k, 0);
    }

    pub fn steps(&mut self, calls: &[Coded]) {
        let (p, len) = self.lent();
        let mut bad = 0;
        for call in calls {
            // SAFETY: `p` and `len` are this store's words, all of them, which `&mut self` keeps for this function alone.
            bad |= unsafe { step(p, len, call) };
        }
        assert_eq!(bad, 0);
    }

    pub fn looks(&self, asked: &[(u64, u32)], times: usize) -> u64 {
        let (p, len) = (self.words.as_ptr().cast(), self.words.len());
        let (mut sum, mut bad) = (0, 0);
        for i in 0..times {
            let (kind, q) = asked[i % asked.len()];
            let mut says = [0; 4];
            // SAFETY: `p` and `len` are this store's words, only read here; `says` is a local array of four words.
            bad |= unsafe { tillbonnet_look(p, len, kind, q as usize, says.as_mut_ptr(), 4) };
            sum = mix(sum, if says[0] == 1 { found(says[1] as usize, says[2] as i8) } else { 0 });
        }
        assert_eq!(bad, 0);
        sum
    }

    /// What a look says, and its steps.
    pub fn look(&self, kind: u64, q: u32) -> [i64; 4] {
        let mut says = [0; 4];
        // SAFETY: this store's words with their own length, only read here; `says` is a local array of four words.
        let bad = unsafe { tillbonnet_look(self.words.as_ptr().cast(), self.words.len(), kind, q as usize, says.as_mut_ptr(), 4) };
        assert_eq!(bad, 0);
        says
    }

    pub fn records(&mut self, asked: &[(u64, u32)]) {
        let (p, len) = self.lent();
        let (mut first, mut bad) = (0, 0);
        for (tag, &(kind, q)) in asked.iter().enumerate() {
            // SAFETY: `p` and `len` are this store's words, all of them; `first` is a local.
            bad |= unsafe { tillbonnet_record(p, len, kind, q as usize, tag as u32, &mut first) };
        }
        assert_eq!(bad, 0);
    }

    pub fn kills(&mut self, ids: &[usize]) {
        let (p, len) = self.lent();
        let mut bad = 0;
        for &id in ids {
            // SAFETY: `p` and `len` are this store's words, all of them, which `&mut self` keeps for this function alone.
            bad |= unsafe { tillbonnet_kill(p, len, id) };
        }
        assert_eq!(bad, 0);
    }

    pub fn run(&mut self, items: &[Mine]) -> u64 {
        let (p, len) = self.lent();
        // What belongs to a rotation (its gate, its angle) is the host's to keep, by the event's number.
        let mut gates = vec![0; self.room];
        let (mut sum, mut bad) = (0, 0);
        for (idx, item) in items.iter().enumerate() {
            // SAFETY: `p` and `len` are this store's words, all of them, which `&mut self` keeps for this function alone.
            match *item {
                Mine::Call(call) => bad |= unsafe { step(p, len, &call) },
                Mine::Rotation { kind, q, angled } => {
                    let (seen, answer) = unsafe { rotation(p, len, &mut gates, idx, kind, q as usize, angled) };
                    sum = mix(sum, seen);
                    bad |= answer;
                }
            }
        }
        assert_eq!(bad, 0);
        sum
    }

    /// Whether there is room for this item's events whatever it finds.
    pub fn fits(&self, item: &Mine) -> bool {
        let more = match item {
            Mine::Rotation { .. } => 1,
            Mine::Call(Coded { number: 11, .. }) => 1,
            Mine::Call(Coded { number: 12, .. }) => 2,
            Mine::Call(Coded { number: 13 | 14, .. }) => 7,
            Mine::Call(_) => 0,
        };
        self.events() + more <= self.room
    }

    fn history(&self) -> usize {
        let l = self.n.div_ceil(64);
        14 + 2 * self.n * (2 * l + 1) + 4 * self.n
    }

    pub fn events(&self) -> usize {
        self.written(self.history(), self.history() + 1)[0] as usize
    }

    /// The frames' words (docs/STORE.md).
    pub fn frames(&self) -> &[u64] {
        self.written(14, self.history())
    }

    /// The lengths and dead counts of all lists, in a sum.
    pub fn lists(&self) -> u64 {
        let l = self.n.div_ceil(64);
        let counts = self.history() + 2 + 6 * self.room + self.room * 2 * l + self.room.div_ceil(64);
        let lists = if self.form == 1 { self.n } else { 64 };
        self.written(counts, counts + 2 * lists).iter().fold(0, |s, &w| mix(s, w))
    }
}

/// The call of this number, and its answer.
///
/// # Safety
///
/// `p` points to `len` words that nobody else reads or changes meanwhile.
#[inline(always)]
unsafe fn step(p: *mut u64, len: usize, call: &Coded) -> u32 {
    let (a, b, c, mut first) = (call.a as usize, call.b as usize, call.c as usize, 0);
    // SAFETY: the caller says so of `p` and `len`; `first` is a local, outside of those words.
    unsafe {
        match call.number {
            0..=10 => tillbonnet_gate(p, len, u64::from(call.number), a, b),
            11 => tillbonnet_measure(p, len, a, &mut first),
            12 => tillbonnet_reset(p, len, a, &mut first),
            13 => tillbonnet_ccx(p, len, a, b, c, &mut first),
            14 => tillbonnet_ccz(p, len, a, b, c, &mut first),
            _ => tillbonnet_clear(p, len),
        }
    }
}

/// speed.rs's `rotation`. The partner's gate is in the host's own table, as the original has it in its events.
///
/// # Safety
///
/// `p` points to `len` words that nobody else reads or changes meanwhile.
#[inline(always)]
unsafe fn rotation(p: *mut u64, len: usize, gates: &mut [u32], idx: usize, kind: u64, q: usize, angled: Angled) -> (u64, u32) {
    let (mut says, mut first, mut seen) = ([0; 4], 0, 0);
    // SAFETY: the caller says so of `p` and `len`; `says`, four words, and `first` are locals, outside of those words.
    unsafe {
        let mut bad = tillbonnet_look(p, len, kind, q, says.as_mut_ptr(), 4);
        if says[0] == 1 {
            let id = says[1] as usize;
            seen = mix(found(id, says[2] as i8), u64::from(gates[id]));
            bad |= tillbonnet_kill(p, len, id);
            if angled == Angled::T {
                let k = if says[2] == 1 { 2 } else { 0 };
                return (seen, bad | tillbonnet_turn(p, len, kind, k, q));
            }
        }
        bad |= tillbonnet_record(p, len, kind, q, idx as u32, &mut first);
        gates[first] = idx as u32;
        (seen, bad)
    }
}
