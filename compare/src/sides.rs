//! Our side of a job: the C functions on a store of our own between guard words, or the safe wrapper `tillbonnet::Store`.

use oracle::judge::{Call, Clifford, Form, Kind, Look, Reply};
use tillbonnet::raw::*;

/// What one of our calls gave back, as it stands in the caller's memory. What a call does not write keeps the value `UNTOUCHED`.
#[derive(Clone, Copy, Debug, PartialEq, Eq)]
pub struct Told {
    pub answer: u32,
    pub first: usize,
    pub says: [i64; 4],
}

pub const UNTOUCHED: i64 = 0x5eed_5eed_5eed;

impl Told {
    pub fn number(answer: u32) -> Self {
        Self { answer, first: UNTOUCHED as usize, says: [UNTOUCHED; 4] }
    }

    /// What the header promises where the original says this.
    pub fn from_reply(reply: Reply) -> Self {
        let done = Self::number(0);
        match reply {
            Reply::Done => done,
            Reply::Event(first) => Self { first, ..done },
            Reply::Refused(k) => Self::number(k as u32),
            Reply::Look(look) => {
                let steps = look.steps() as i64;
                let says = match look {
                    Look::None { .. } => [0, 0, 0, steps],
                    Look::Found { id, sign, .. } => [1, id as i64, sign as i64, steps],
                    Look::Blocked { .. } => [2, 0, 0, steps],
                    Look::Out { .. } => [3, 0, 0, steps],
                };
                Self { says, ..done }
            }
        }
    }
}

/// A read: the answer, and tag, sign and live.
pub type Read = (u32, [i64; 3]);

pub trait Side {
    fn call(&mut self, call: &Call) -> Told;
    fn read(&mut self, id: u64) -> Read;
    /// The words lent with every call; the wrapper does not show its own.
    fn words(&self) -> Option<&[u64]>;
    /// The library itself, where calls that the wrapper cannot make are possible.
    fn raw(&mut self) -> Option<&mut Raw>;
}

pub fn form_number(form: Form) -> u64 {
    match form {
        Form::Scalar => 0,
        Form::Sliced => 1,
    }
}

pub fn kind_number(kind: Kind) -> u64 {
    match kind {
        Kind::X => 0,
        Kind::Y => 1,
        Kind::Z => 2,
        Kind::P => 3,
    }
}

/// The number of a gate and its qubits; a gate on one qubit gets a second one that names nothing.
pub fn gate_number(gate: Clifford) -> (u64, usize, usize) {
    let (number, a, b) = match gate {
        Clifford::H(a) => (0, a, u64::MAX),
        Clifford::X(a) => (1, a, a),
        Clifford::Y(a) => (2, a, u64::MAX),
        Clifford::Z(a) => (3, a, a),
        Clifford::S(a) => (4, a, 0),
        Clifford::Sdg(a) => (5, a, u64::MAX),
        Clifford::Sx(a) => (6, a, 1),
        Clifford::Cnot(a, b) => (7, a, b),
        Clifford::Cz(a, b) => (8, a, b),
        Clifford::Cy(a, b) => (9, a, b),
        Clifford::Swap(a, b) => (10, a, b),
    };
    (number, a as usize, b as usize)
}

const GUARDS: usize = 8;
const GUARD: u64 = 0x6775_6172_6467_7561;

/// A store with guard words on both sides.
pub struct Raw {
    memory: Vec<u64>,
    /// How many words each call is lent.
    pub lent: usize,
}

impl Raw {
    /// A slice with these contents.
    pub fn new(contents: &[u64]) -> Self {
        let mut memory = vec![GUARD; contents.len() + 2 * GUARDS];
        memory[GUARDS..GUARDS + contents.len()].copy_from_slice(contents);
        Self { memory, lent: contents.len() }
    }

    pub fn guarded(&self) -> bool {
        let (front, back) = (&self.memory[..GUARDS], &self.memory[GUARDS + self.lent..]);
        back.len() == GUARDS && front.iter().chain(back).all(|&w| w == GUARD)
    }

    pub fn store(&self) -> &[u64] {
        &self.memory[GUARDS..GUARDS + self.lent]
    }

    pub fn store_mut(&mut self) -> &mut [u64] {
        &mut self.memory[GUARDS..GUARDS + self.lent]
    }

    fn at(&mut self) -> *mut u64 {
        self.store_mut().as_mut_ptr()
    }

    /// Opens the first `words` words.
    pub fn open(&mut self, words: usize, n: u64, cap: u64, steps: u64, form: u64, labels: &[u64]) -> u32 {
        assert!(words <= self.lent);
        let at = self.at();
        // SAFETY: `words` words from `at` on are this store's, and `labels` is a slice of its own, lent with its own length.
        unsafe { tillbonnet_open(at, words, n as usize, cap as usize, steps, form, labels.as_ptr(), labels.len()) }
    }

    /// A call that is lent so many words only.
    pub fn call_on(&mut self, words: usize, call: &Call) -> Told {
        assert!(words <= self.lent);
        let s = self.at();
        let Told { mut first, says, .. } = Told::number(0);
        // SAFETY: `words` words from `s` on are this store's, and `first` is no part of them.
        let answer = unsafe {
            match *call {
                Call::Gate(gate) => {
                    let (number, a, b) = gate_number(gate);
                    tillbonnet_gate(s, words, number, a, b)
                }
                Call::Turn { k, kind, q } => tillbonnet_turn(s, words, kind_number(kind), k, q as usize),
                Call::Record { kind, q, tag } => tillbonnet_record(s, words, kind_number(kind), q as usize, tag, &mut first),
                Call::Measure(q) => tillbonnet_measure(s, words, q as usize, &mut first),
                Call::Reset(q) => tillbonnet_reset(s, words, q as usize, &mut first),
                Call::Ccx(a, b, c) => tillbonnet_ccx(s, words, a as usize, b as usize, c as usize, &mut first),
                Call::Ccz(a, b, c) => tillbonnet_ccz(s, words, a as usize, b as usize, c as usize, &mut first),
                Call::Kill(id) => tillbonnet_kill(s, words, id as usize),
                Call::Clear => tillbonnet_clear(s, words),
                Call::Look { kind, q } => return self.look_on(words, kind_number(kind), q, if q.is_multiple_of(2) { 4 } else { 6 }),
            }
        };
        Told { answer, first, says }
    }

    /// A look that is lent so many words, and so many for what it says; words past the first four are left as they were.
    pub fn look_on(&mut self, words: usize, kind: u64, q: u64, says_words: usize) -> Told {
        assert!(words <= self.lent);
        let mut says = [UNTOUCHED; 8];
        assert!(says_words <= says.len());
        // SAFETY: both lengths are within what the pointers point to.
        let answer = unsafe { tillbonnet_look(self.at(), words, kind, q as usize, says.as_mut_ptr(), says_words) };
        assert!(says[4..] == [UNTOUCHED; 4], "a look writes four words at most, it left {says:?}");
        Told { answer, first: UNTOUCHED as usize, says: [says[0], says[1], says[2], says[3]] }
    }

    pub fn read_on(&mut self, words: usize, id: u64, says_words: usize) -> Read {
        assert!(words <= self.lent);
        let mut says = [UNTOUCHED; 8];
        assert!(says_words <= says.len());
        // SAFETY: as above.
        let answer = unsafe { tillbonnet_read(self.at(), words, id as usize, says.as_mut_ptr(), says_words) };
        assert!(says[3..] == [UNTOUCHED; 5], "a read writes three words at most, it left {says:?}");
        (answer, [says[0], says[1], says[2]])
    }

    /// A gate (0), turn (1), record (2) or look (3) whose number names nothing.
    pub fn unnamed(&mut self, which: u64, number: u64, q: u64) -> Told {
        let (s, words, q) = (self.at(), self.lent, q as usize);
        let Told { mut first, says, .. } = Told::number(0);
        // SAFETY: the words are this store's.
        let answer = unsafe {
            match which {
                0 => tillbonnet_gate(s, words, number, q, 0),
                1 => tillbonnet_turn(s, words, number, 2, q),
                2 => tillbonnet_record(s, words, number, q, 7, &mut first),
                _ => return self.look_on(words, number, q as u64, 4),
            }
        };
        Told { answer, first, says }
    }
}

impl Side for Raw {
    fn call(&mut self, call: &Call) -> Told {
        self.call_on(self.lent, call)
    }

    fn read(&mut self, id: u64) -> Read {
        self.read_on(self.lent, id, if id.is_multiple_of(2) { 3 } else { 8 })
    }

    fn words(&self) -> Option<&[u64]> {
        Some(self.store())
    }

    fn raw(&mut self) -> Option<&mut Raw> {
        Some(self)
    }
}

/// The safe wrapper, its answers turned back into what the library would have written.
pub struct Wrapped(pub tillbonnet::Store);

pub fn refusal_number(refusal: tillbonnet::Refusal) -> u32 {
    use tillbonnet::Refusal::*;
    match refusal {
        Shape => 1,
        Events => 2,
        Labels => 3,
        NoQubit => 4,
        SameQubit => 5,
        NoRoom => 6,
        NoEvent => 7,
        Turn => 8,
    }
}

pub fn wrapper_form(form: Form) -> tillbonnet::Form {
    match form {
        Form::Scalar => tillbonnet::Form::Scalar,
        Form::Sliced => tillbonnet::Form::Sliced,
    }
}

fn wrapper_kind(kind: Kind) -> tillbonnet::Kind {
    match kind {
        Kind::X => tillbonnet::Kind::X,
        Kind::Y => tillbonnet::Kind::Y,
        Kind::Z => tillbonnet::Kind::Z,
        Kind::P => tillbonnet::Kind::P,
    }
}

fn wrapper_gate(gate: Clifford) -> tillbonnet::Gate {
    use tillbonnet::Gate;
    match gate {
        Clifford::H(a) => Gate::H(a as usize),
        Clifford::X(a) => Gate::X(a as usize),
        Clifford::Y(a) => Gate::Y(a as usize),
        Clifford::Z(a) => Gate::Z(a as usize),
        Clifford::S(a) => Gate::S(a as usize),
        Clifford::Sdg(a) => Gate::Sdg(a as usize),
        Clifford::Sx(a) => Gate::Sx(a as usize),
        Clifford::Cnot(a, b) => Gate::Cnot(a as usize, b as usize),
        Clifford::Cz(a, b) => Gate::Cz(a as usize, b as usize),
        Clifford::Cy(a, b) => Gate::Cy(a as usize, b as usize),
        Clifford::Swap(a, b) => Gate::Swap(a as usize, b as usize),
    }
}

fn sight_words(sight: tillbonnet::Sight) -> [i64; 4] {
    use tillbonnet::Sight;
    match sight {
        Sight::None { steps } => [0, 0, 0, steps as i64],
        Sight::Found { id, sign, steps } => [1, id as i64, sign as i64, steps as i64],
        Sight::Blocked { steps } => [2, 0, 0, steps as i64],
        Sight::Out { steps } => [3, 0, 0, steps as i64],
    }
}

impl Side for Wrapped {
    fn call(&mut self, call: &Call) -> Told {
        let number = |r: Result<(), tillbonnet::Refusal>| Told::number(r.map_or_else(refusal_number, |()| 0));
        let first = |r: Result<usize, tillbonnet::Refusal>| match r {
            Ok(first) => Told { first, ..Told::number(0) },
            Err(e) => Told::number(refusal_number(e)),
        };
        let s = &mut self.0;
        match *call {
            Call::Gate(gate) => number(s.gate(wrapper_gate(gate))),
            Call::Turn { k, kind, q } => number(s.turn(wrapper_kind(kind), k, q as usize)),
            Call::Record { kind, q, tag } => first(s.record(wrapper_kind(kind), q as usize, tag)),
            Call::Measure(q) => first(s.measure(q as usize)),
            Call::Reset(q) => first(s.reset(q as usize)),
            Call::Ccx(a, b, c) => first(s.ccx(a as usize, b as usize, c as usize)),
            Call::Ccz(a, b, c) => first(s.ccz(a as usize, b as usize, c as usize)),
            Call::Kill(id) => number(s.kill(id as usize)),
            Call::Clear => {
                s.clear();
                Told::number(0)
            }
            Call::Look { kind, q } => match s.look(wrapper_kind(kind), q as usize) {
                Ok(sight) => Told { says: sight_words(sight), ..Told::number(0) },
                Err(e) => Told::number(refusal_number(e)),
            },
        }
    }

    fn read(&mut self, id: u64) -> Read {
        match self.0.read(id as usize) {
            Ok(r) => (0, [r.tag as i64, r.sign as i64, r.live as i64]),
            Err(e) => (refusal_number(e), [UNTOUCHED; 3]),
        }
    }

    fn words(&self) -> Option<&[u64]> {
        None
    }

    fn raw(&mut self) -> Option<&mut Raw> {
        None
    }
}
