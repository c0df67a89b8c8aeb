//! The partner search of phase folding, proved in Rattle (../crates/host), as a Rust value that owns its store.
//!
//! A [`Store`] hands its own words to every call and nobody else can touch them, so a store that is too short (3) and words that
//! are no store's (9) cannot come back, and gates, kinds and forms are named by enums, so 10 cannot either. What is left of the
//! refusals is [`Refusal`]. ../compare/tests/wrapper.rs holds the wrapper against the original.

pub mod raw;

use std::mem::MaybeUninit;

/// Why an opening or a call was refused; nothing has changed then.
#[derive(Clone, Copy, Debug, PartialEq, Eq)]
pub enum Refusal {
    /// No qubits or more than 23,168, more than 2^20 steps, or the sliced form with more than 32 qubits.
    Shape,
    /// Room for no events, for more than 2^24, or for more than 2^25 words of axes.
    Events,
    /// The labels are not four words a qubit.
    Labels,
    /// A qubit is n or more.
    NoQubit,
    /// One call names a qubit twice.
    SameQubit,
    /// No room for the events that the call records.
    NoRoom,
    /// No such event, or a blocker; for a kill also a dead one.
    NoEvent,
    /// A turn other than 0, 2, 4 or 6 eighths.
    Turn,
}

impl std::fmt::Display for Refusal {
    fn fmt(&self, f: &mut std::fmt::Formatter<'_>) -> std::fmt::Result {
        f.write_str(match self {
            Self::Shape => "qubits, steps or form out of range",
            Self::Events => "room for no events or for too many",
            Self::Labels => "labels that are not four words a qubit",
            Self::NoQubit => "no such qubit",
            Self::SameQubit => "a qubit named twice",
            Self::NoRoom => "no room for the events",
            Self::NoEvent => "no such rotation",
            Self::Turn => "a turn other than 0, 2, 4 or 6 eighths",
        })
    }
}

impl std::error::Error for Refusal {}

#[derive(Clone, Copy, Debug, PartialEq, Eq)]
pub enum Form {
    Scalar,
    Sliced,
}

/// `P` is a phase rotation: the axis of Z.
#[derive(Clone, Copy, Debug, PartialEq, Eq)]
pub enum Kind {
    X,
    Y,
    Z,
    P,
}

/// Of `Cnot`, `Cz` and `Cy` the first qubit is the control.
#[derive(Clone, Copy, Debug, PartialEq, Eq)]
pub enum Gate {
    H(usize),
    X(usize),
    Y(usize),
    Z(usize),
    S(usize),
    Sdg(usize),
    Sx(usize),
    Cnot(usize, usize),
    Cz(usize, usize),
    Cy(usize, usize),
    Swap(usize, usize),
}

/// What a read says of a rotation.
#[derive(Clone, Copy, Debug, PartialEq, Eq)]
pub struct Reading {
    pub tag: u32,
    pub sign: i8,
    pub live: bool,
}

/// What a look says, with the steps that it spent.
#[derive(Clone, Copy, Debug, PartialEq, Eq)]
pub enum Sight {
    /// The partner, and its sign times the present one.
    Found { id: usize, sign: i8, steps: u32 },
    None { steps: u32 },
    Blocked { steps: u32 },
    Out { steps: u32 },
}

/// A store with its own words. An opening relies on none of their old contents, so they are taken from the allocator as they come
/// and never swept; words that no state relies on may stay so.
#[derive(Clone)]
pub struct Store {
    words: Box<[MaybeUninit<u64>]>,
}

impl Form {
    fn number(self) -> u64 {
        match self {
            Self::Scalar => 0,
            Self::Sliced => 1,
        }
    }
}

impl Kind {
    fn number(self) -> u64 {
        match self {
            Self::X => 0,
            Self::Y => 1,
            Self::Z => 2,
            Self::P => 3,
        }
    }
}

impl Gate {
    fn numbers(self) -> (u64, usize, usize) {
        match self {
            Self::H(q) => (0, q, 0),
            Self::X(q) => (1, q, 0),
            Self::Y(q) => (2, q, 0),
            Self::Z(q) => (3, q, 0),
            Self::S(q) => (4, q, 0),
            Self::Sdg(q) => (5, q, 0),
            Self::Sx(q) => (6, q, 0),
            Self::Cnot(a, b) => (7, a, b),
            Self::Cz(a, b) => (8, a, b),
            Self::Cy(a, b) => (9, a, b),
            Self::Swap(a, b) => (10, a, b),
        }
    }
}

/// 01's number as a result.
fn told(number: u32) -> Result<(), Refusal> {
    match number {
        0 => Ok(()),
        1 => Err(Refusal::Shape),
        2 => Err(Refusal::Events),
        // Only an opening gives 3 here, and its store has the words that it needs: it is the labels.
        3 => Err(Refusal::Labels),
        4 => Err(Refusal::NoQubit),
        5 => Err(Refusal::SameQubit),
        6 => Err(Refusal::NoRoom),
        7 => Err(Refusal::NoEvent),
        8 => Err(Refusal::Turn),
        // 9 and 10 cannot come: the contracts of crates/host, and the words are this store's alone.
        _ => unreachable!("a store of our own answered {number}"),
    }
}

impl Store {
    /// How many words a store takes, or `None` where no opening accepts these sizes.
    pub fn need(n: usize, events: usize, form: Form) -> Option<usize> {
        match raw::tillbonnet_need(n, events, form.number()) {
            0 => None,
            words => Some(words),
        }
    }

    /// A store for n qubits and up to `events` events, `steps` steps for each look. Labels: four random words a qubit, X high,
    /// X low, Z high, Z low.
    pub fn open(n: usize, events: usize, steps: u64, form: Form, labels: &[u64]) -> Result<Self, Refusal> {
        // Where no opening accepts the sizes any words will do: the opening says which of them is refused.
        let mut store = Self { words: Box::new_uninit_slice(Self::need(n, events, form).unwrap_or(0)) };
        let (at, words) = store.lent();
        // SAFETY: both slices are lent with their own lengths, and `labels` is not part of the store.
        let number = unsafe {
            raw::tillbonnet_open(at, words, n, events, steps, form.number(), labels.as_ptr(), labels.len())
        };
        told(number).map(|()| store)
    }

    pub fn gate(&mut self, gate: Gate) -> Result<(), Refusal> {
        let (number, a, b) = gate.numbers();
        let (at, words) = self.lent();
        // SAFETY: the words are lent with their own length.
        told(unsafe { raw::tillbonnet_gate(at, words, number, a, b) })
    }

    /// A turn by k eighths of a full turn: 0, 2, 4 or 6.
    pub fn turn(&mut self, kind: Kind, k: u64, q: usize) -> Result<(), Refusal> {
        let (at, words) = self.lent();
        // SAFETY: the words are lent with their own length.
        told(unsafe { raw::tillbonnet_turn(at, words, kind.number(), k, q) })
    }

    /// Records a rotation; its number.
    pub fn record(&mut self, kind: Kind, q: usize, tag: u32) -> Result<usize, Refusal> {
        // SAFETY: `recorded` hands over the words with their own length, and its own `first`.
        self.recorded(|s, w, first| unsafe { raw::tillbonnet_record(s, w, kind.number(), q, tag, first) })
    }

    /// Records the blocker of a measurement; its number.
    pub fn measure(&mut self, q: usize) -> Result<usize, Refusal> {
        // SAFETY: `recorded` hands over the words with their own length, and its own `first`.
        self.recorded(|s, w, first| unsafe { raw::tillbonnet_measure(s, w, q, first) })
    }

    /// Records the two blockers of a reset; the number of the first.
    pub fn reset(&mut self, q: usize) -> Result<usize, Refusal> {
        // SAFETY: `recorded` hands over the words with their own length, and its own `first`.
        self.recorded(|s, w, first| unsafe { raw::tillbonnet_reset(s, w, q, first) })
    }

    /// Records the seven blockers of a ccx with controls a and b and target t; the number of the first.
    pub fn ccx(&mut self, a: usize, b: usize, t: usize) -> Result<usize, Refusal> {
        // SAFETY: `recorded` hands over the words with their own length, and its own `first`.
        self.recorded(|s, w, first| unsafe { raw::tillbonnet_ccx(s, w, a, b, t, first) })
    }

    /// The same of a ccz.
    pub fn ccz(&mut self, a: usize, b: usize, t: usize) -> Result<usize, Refusal> {
        // SAFETY: `recorded` hands over the words with their own length, and its own `first`.
        self.recorded(|s, w, first| unsafe { raw::tillbonnet_ccz(s, w, a, b, t, first) })
    }

    /// Kills a rotation that merged away.
    pub fn kill(&mut self, id: usize) -> Result<(), Refusal> {
        let (at, words) = self.lent();
        // SAFETY: the words are lent with their own length.
        told(unsafe { raw::tillbonnet_kill(at, words, id) })
    }

    /// From now on no rotation recorded so far can be found.
    pub fn clear(&mut self) {
        let (at, words) = self.lent();
        // SAFETY: the words are lent with their own length.
        told(unsafe { raw::tillbonnet_clear(at, words) }).expect("a clear of an open store is never refused");
    }

    /// Tag, sign and whether the rotation is live, of dead ones too.
    pub fn read(&self, id: usize) -> Result<Reading, Refusal> {
        let mut says = [0; 3];
        let (at, words) = self.shown();
        // SAFETY: the words are shown with their own length, and `says` is a local array, lent with its own.
        told(unsafe { raw::tillbonnet_read(at, words, id, says.as_mut_ptr(), says.len()) })?;
        Ok(Reading { tag: says[0] as u32, sign: says[1] as i8, live: says[2] != 0 })
    }

    /// Looks for the partner of a rotation about qubit q.
    pub fn look(&self, kind: Kind, q: usize) -> Result<Sight, Refusal> {
        let mut says = [0; 4];
        let (at, words) = self.shown();
        // SAFETY: the words are shown with their own length, and `says` is a local array, lent with its own.
        told(unsafe { raw::tillbonnet_look(at, words, kind.number(), q, says.as_mut_ptr(), says.len()) })?;
        let [what, id, sign, steps] = says;
        let steps = steps as u32;
        Ok(match what {
            0 => Sight::None { steps },
            1 => Sight::Found { id: id as usize, sign: sign as i8, steps },
            2 => Sight::Blocked { steps },
            _ => Sight::Out { steps },
        })
    }

    /// The words to write to, and how many.
    fn lent(&mut self) -> (*mut u64, usize) {
        (self.words.as_mut_ptr().cast(), self.words.len())
    }

    /// The words to read.
    fn shown(&self) -> (*const u64, usize) {
        (self.words.as_ptr().cast(), self.words.len())
    }

    fn recorded(&mut self, call: impl FnOnce(*mut u64, usize, *mut usize) -> u32) -> Result<usize, Refusal> {
        let mut first = 0;
        let (at, words) = self.lent();
        told(call(at, words, &mut first))?;
        Ok(first)
    }
}
