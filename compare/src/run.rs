//! One job on both sides, compared after every call.
//!
//! After every call, whatever the size:
//! - the answer, and what the call wrote to `first` or `says` (on a refusal: nothing);
//! - every word of the parts that the call can have touched, against the original's state: the rows, phases and labels of the
//!   qubits it names; the numbers; tag, sign, label, signature, axis and live word of the events it recorded or killed; the chain
//!   of their bucket; all lists of their signature, with length, dead count, entries, masks and live words;
//! - after a look: the chain under its label, a read of what it found and of two more ids (dead, blockers, out of range).
//!
//! At intervals and at the end of the job: the whole store, every word. A word that the state relies on is worked out from the
//! original's state anew (`expected::whole`); any other has to be as it was before the call. A store of W words is compared whole
//! after every call where W is at most 2,000 and after every (W / 2,000)th call, rounded up, else. In between, up to 20,000 words
//! after every call and else after every (W / 20,000)th, the store is compared with the copy that holds the words of the last
//! such comparison and the parts touched since: this finds words written that the call has no business with, so a refusal, a read
//! or a look that writes.
//!
//! The wrapper shows no words: of a job through it the answers, looks and reads are compared, and at the end a read of every
//! event.
//!
//! Absolute signs: the stored sign of every event is part of its word; besides, after a gate or turn (up to 64 qubits) and at
//! the end (for at most 8 qubits) the frames are copied to a small store, x, y and z of the qubit are recorded there, and the signs read
//! are the original's.

mod counts;

use crate::expected::{self, Notes, Part};
use crate::random::Random;
use crate::sides::{Raw, Side, Told, UNTOUCHED, Wrapped, form_number, kind_number, wrapper_form};
use crate::tally::Tally;
use crate::words::{self, Layout};
use oracle::judge::{Call, Clifford, Form, Judge, Kind, Look, Plane, Reply};

/// What an opening finds in the words that it is lent.
#[derive(Clone, Copy, Debug, PartialEq, Eq)]
pub enum Old {
    Random,
    Ones,
    /// Numbers up to 40, as counts and links are.
    Small,
    /// A store with some events, of other sizes.
    Store,
}

/// An opening that both sides accept.
#[derive(Clone, Debug)]
pub struct Opening {
    pub n: usize,
    pub cap: usize,
    pub steps: u64,
    pub form: Form,
    /// Four words a qubit.
    pub labels: Vec<u64>,
    pub old: Old,
    /// Words past the need that the opening is lent, and words past those that later calls are lent.
    pub slack: usize,
    pub extra: usize,
    /// For old contents and for what the comparison itself draws.
    pub seed: u64,
}

#[derive(Clone, Copy, Debug, PartialEq, Eq)]
pub enum Op {
    Call(Call),
    Read(u64),
    /// A call that is lent so many words, fewer than at the opening: 3.
    Short(Call, usize),
    /// Gate, turn, record or look (0 to 3) by a number that names nothing: 10.
    Unnamed { which: u64, number: u64, q: u64 },
    /// A look and a read that are lent too few words for what they say, this many: 3.
    Mute { kind: Kind, q: u64, id: u64, says: usize },
}

#[derive(Clone, Debug)]
pub struct Difference {
    pub op: Option<Op>,
    pub what: String,
    pub ours: String,
    pub rust: String,
}

impl Opening {
    pub fn labels_in_pairs(&self) -> Vec<(u128, u128)> {
        let two = |w: &[u64]| (w[0] as u128) << 64 | w[1] as u128;
        self.labels.chunks(4).map(|w| (two(&w[..2]), two(&w[2..]))).collect()
    }

    pub fn need(&self) -> usize {
        Layout::of(self.n, self.cap, self.form == Form::Sliced).end
    }

    /// The words before the opening.
    pub fn contents(&self) -> Vec<u64> {
        let mut random = Random::of(self.seed, 1);
        let words = self.need() + self.slack + self.extra;
        match self.old {
            Old::Random => (0..words).map(|_| random.word()).collect(),
            Old::Ones => vec![u64::MAX; words],
            Old::Small => (0..words).map(|_| random.below(41)).collect(),
            Old::Store => old_store(words, &mut random),
        }
    }
}

/// Random words with a small store in front that has seen some calls.
fn old_store(words: usize, random: &mut Random) -> Vec<u64> {
    let mut raw = Raw::new(&(0..words).map(|_| random.word()).collect::<Vec<_>>());
    let labels = [random.word(), random.word(), random.word(), random.word()];
    // Where the words are too few for it the opening is refused, and the calls too.
    raw.open(words, 1, random.from(1, 20), 9, random.below(2), &labels);
    for k in 0..12 {
        raw.call(&Call::Record { kind: random.pick(&Kind::ALL), q: 0, tag: k });
        raw.call(&Call::Gate(Clifford::H(0)));
        raw.call(&Call::Kill(random.below(12)));
    }
    raw.store().to_vec()
}

/// How often the whole store is compared: see the top of this file.
#[derive(Clone, Copy, Debug, PartialEq, Eq)]
pub enum How {
    AtIntervals,
    Always,
}

const WHOLE: usize = 2_000;
const COPY: usize = 20_000;

/// A job under way.
pub struct Pair<'a> {
    pub judge: Judge,
    side: &'a mut dyn Side,
    tally: &'a mut Tally,
    notes: Notes,
    at: Layout,
    /// The length of the slice at the opening.
    opened: usize,
    /// The store as it should be.
    copy: Vec<u64>,
    how: How,
    /// Words that could have been compared since the last time.
    whole_due: usize,
    copy_due: usize,
    random: Random,
    signs: Option<Raw>,
    found: Option<usize>,
}

type Checked = Result<(), Difference>;

fn differs<T: std::fmt::Debug>(what: impl Into<String>, ours: T, rust: T) -> Checked {
    Err(Difference { op: None, what: what.into(), ours: format!("{ours:?}"), rust: format!("{rust:?}") })
}

fn same<T: std::fmt::Debug + PartialEq>(what: &str, ours: T, rust: T) -> Checked {
    if ours == rust { Ok(()) } else { differs(what, ours, rust) }
}

/// The library's store, opened over the old contents.
pub fn open_raw(opening: &Opening) -> Result<Raw, Difference> {
    let mut raw = Raw::new(&opening.contents());
    let opened = raw.lent - opening.extra;
    let answer =
        raw.open(opened, opening.n as u64, opening.cap as u64, opening.steps, form_number(opening.form), &opening.labels);
    same("answer of the opening", answer, 0)?;
    Ok(raw)
}

pub fn open_wrapped(opening: &Opening) -> Result<Wrapped, Difference> {
    let form = wrapper_form(opening.form);
    match tillbonnet::Store::open(opening.n, opening.cap, opening.steps, form, &opening.labels) {
        Ok(store) => Ok(Wrapped(store)),
        Err(e) => {
            let what = "opening of the wrapper".into();
            Err(Difference { op: None, what, ours: format!("{e:?}"), rust: "done".into() })
        }
    }
}

impl<'a> Pair<'a> {
    /// Both sides just opened; the whole store is compared.
    pub fn new(opening: &Opening, side: &'a mut dyn Side, tally: &'a mut Tally, how: How) -> Result<Self, Difference> {
        let labels = opening.labels_in_pairs();
        let judge = Judge::open(opening.n as u64, opening.form, &labels, opening.cap as u64, opening.steps)
            .expect("the original accepts the opening");
        let at = Layout::of(opening.n, opening.cap, opening.form == Form::Sliced);
        // Of the wrapper there are no words to compare.
        let raw = side.raw().is_some();
        let copy = if raw { opening.contents() } else { Vec::new() };
        let opened = copy.len().saturating_sub(opening.extra);
        let signs = raw.then(|| Raw::new(&vec![0; Layout::of(opening.n, 3, false).end]));
        let random = Random::of(opening.seed, 2);
        let mut pair = Self {
            judge, side, tally, notes: Notes::default(), at, opened, copy, how, whole_due: 0, copy_due: 0, random, signs, found: None,
        };
        pair.tally.one("opening done");
        pair.whole()?;
        Ok(pair)
    }

    /// One operation on both sides, and the comparison after it.
    pub fn step(&mut self, op: &Op) -> Result<Option<Reply>, Difference> {
        let reply = match *op {
            Op::Call(call) => self.call(&call).map(Some),
            Op::Read(id) => self.read(id).map(|()| None),
            Op::Short(call, words) => self.short(&call, words).map(|()| None),
            Op::Unnamed { which, number, q } => self.unnamed(which, number, q).map(|()| None),
            Op::Mute { kind, q, id, says } => self.mute(kind, q, id, says).map(|()| None),
        };
        let checked = reply.and_then(|reply| self.intervals().map(|()| reply));
        checked.map_err(|d| Difference { op: Some(*op), ..d })
    }

    /// The end of a job: the whole store, and the signs of some qubits; of the wrapper, which shows no words, a read of every
    /// event.
    pub fn finish(&mut self) -> Checked {
        self.whole()?;
        if self.side.words().is_none() {
            (0..self.judge.events() as u64 + 1).try_for_each(|id| self.read(id))?;
        }
        let n = self.at.n;
        for q in (0..n).step_by(n.div_ceil(8)) {
            self.signs_of(q)?;
        }
        let mut labels = std::collections::HashMap::new();
        for id in 0..self.judge.events() {
            if let (Some(label), Some(event)) = (self.notes.labels[id], self.judge.event(id))
                && event.live
                && labels.insert(self.at.bucket(label), label).is_some_and(|other| other != label)
            {
                self.tally.one("shared buckets");
                break;
            }
        }
        self.tally.most("events", self.judge.events() as u64);
        self.tally.most("qubits", n as u64);
        self.tally.most("words of a store", self.copy.len() as u64);
        Ok(())
    }

    fn call(&mut self, call: &Call) -> Result<Reply, Difference> {
        let label = self.label_of(call);
        let lengths = self.lengths(call);
        let before = self.judge.events();
        let reply = self.judge.call(call);
        let told = self.side.call(call);
        self.count(call, reply);
        let expected = Told::from_reply(reply);
        same("answer", told.answer, expected.answer)?;
        same("number of the first event", told.first, expected.first)?;
        same("what the look says (what, id, sign, steps)", told.says, expected.says)?;
        let recorded = self.judge.events() - before;
        match *call {
            Call::Clear => self.notes.cleared = self.judge.events(),
            Call::Record { .. } if recorded == 1 => self.notes.labels.push(label),
            _ => self.notes.labels.extend((0..recorded).map(|_| None)),
        }
        for part in self.touched(call, reply, before) {
            self.part(part)?;
        }
        self.count_lists(call, reply, &lengths);
        match (call, reply) {
            (Call::Look { kind, q }, Reply::Look(look)) => self.looked(*kind, *q as u32, look)?,
            (Call::Gate(_) | Call::Turn { .. }, Reply::Done) if self.at.l == 1 => {
                for q in qubits(call) {
                    self.signs_of(q)?;
                }
            }
            _ => (),
        }
        Ok(reply)
    }

    /// The label that a rotation would be recorded under now.
    fn label_of(&self, call: &Call) -> Option<u128> {
        match *call {
            Call::Record { kind, q, .. } if q < self.at.n as u64 => Some(self.judge.axis_label(kind, q as u32)),
            _ => None,
        }
    }

    /// What a call can have touched, and what it should have.
    fn touched(&self, call: &Call, reply: Reply, before: usize) -> Vec<Part> {
        if matches!(reply, Reply::Refused(_) | Reply::Look(_)) {
            return Vec::new();
        }
        let mut parts: Vec<Part> = Vec::new();
        let mut events: Vec<usize> = (before..self.judge.events()).collect();
        match *call {
            Call::Gate(_) | Call::Turn { .. } => parts.extend(qubits(call).into_iter().map(Part::Qubit)),
            Call::Kill(id) => events.push(id as usize),
            _ => parts.push(Part::Numbers),
        }
        let mut lists = 0;
        for id in events {
            lists |= self.judge.event(id).expect("recorded").signature;
            parts.push(Part::Event(id));
            parts.extend(self.notes.labels[id].map(|label| Part::Chain(self.at.bucket(label))));
        }
        parts.extend((0..64).filter(|b| lists >> b & 1 != 0).map(Part::List));
        parts
    }

    /// Puts a part over the copy and compares it.
    fn part(&mut self, part: Part) -> Checked {
        let (copy, Some(words)) = (&mut self.copy, self.side.words()) else { return Ok(()) };
        let mut count = 0;
        let mut bad = None;
        expected::part(part, &self.judge, &self.notes, &self.at, &mut |at, word| {
            copy[at] = word;
            count += 1;
            if words[at] != word && bad.is_none() {
                bad = Some((at, words[at], word));
            }
        });
        self.tally.add("words compared, in parts touched", count);
        match bad {
            Some((at, ours, rust)) => differs(self.at.name(at), ours, rust),
            None => Ok(()),
        }
    }

    /// The whole store or the copy, where it is time.
    fn intervals(&mut self) -> Checked {
        self.whole_due += WHOLE;
        self.copy_due += COPY;
        if self.how == How::Always || self.whole_due >= self.copy.len() {
            self.whole()
        } else if self.copy_due >= self.copy.len() {
            self.as_copied("copy compared")
        } else {
            Ok(())
        }
    }

    fn whole(&mut self) -> Checked {
        if self.side.words().is_none() {
            return Ok(());
        }
        self.whole_due = 0;
        let copy = &mut self.copy;
        expected::whole(&self.judge, &self.notes, &self.at, self.opened, &mut |at, word| copy[at] = word);
        self.as_copied("whole store compared")
    }

    fn as_copied(&mut self, how: &'static str) -> Checked {
        let Some(words) = self.side.words() else { return Ok(()) };
        self.copy_due = 0;
        self.tally.one(how);
        same("length of the store", words.len(), self.copy.len())?;
        if words != self.copy.as_slice() {
            let at = (0..words.len()).find(|&i| words[i] != self.copy[i]).expect("they differ");
            return differs(self.at.name(at), words[at], self.copy[at]);
        }
        self.tally.add("words compared, in whole stores and copies", words.len() as u64);
        if let Some(raw) = self.side.raw() {
            same("guard words", raw.guarded(), true)?;
        }
        Ok(())
    }

    fn looked(&mut self, kind: Kind, q: u32, look: Look) -> Checked {
        let label = self.judge.axis_label(kind, q);
        if let Some(words) = self.side.words() {
            let ours = words::chain(words, &self.at, label);
            same("chain of the label of the look", ours, Ok(self.judge.chain(label)))?;
        }
        self.found = None;
        if let Look::Found { id, .. } = look {
            self.found = Some(id);
            self.read(id as u64)?;
        }
        let events = self.judge.events() as u64;
        let inside = self.random.below(events + 2);
        self.read(inside)?;
        let odd = self.random.word();
        let other = self.random.pick(&[0, events, self.at.cap as u64, self.at.cap as u64 + 64, 1 << 32, 1 << 63, u64::MAX, odd]);
        self.read(other)
    }

    fn read(&mut self, id: u64) -> Checked {
        self.tally.one("call read");
        let expected = match self.judge.read(id) {
            Ok(read) => {
                self.tally.one(if read.live { "read of a live rotation" } else { "read of a dead rotation" });
                (0, [read.tag as i64, read.sign as i64, read.live as i64])
            }
            Err(k) => {
                self.tally.one("read refused 7");
                if self.judge.event(id as usize).is_some() {
                    self.tally.one("read refused: a blocker");
                }
                (k as u32, [UNTOUCHED; 3])
            }
        };
        let ours = self.side.read(id);
        if ours == expected { Ok(()) } else { differs(format!("read of {id} (answer; tag, sign, live)"), ours, expected) }
    }

    fn short(&mut self, call: &Call, words: usize) -> Checked {
        let (opened, Some(raw)) = (self.opened, self.side.raw()) else { return Ok(()) };
        self.tally.one("call on a slice too short");
        let words = words.min(opened - 1);
        same("a call on a slice that is too short", raw.call_on(words, call), Told::number(3))?;
        same("a read on a slice that is too short", raw.read_on(words, 0, 3), (3, [UNTOUCHED; 3]))
    }

    fn mute(&mut self, kind: Kind, q: u64, id: u64, says: usize) -> Checked {
        let Some(raw) = self.side.raw() else { return Ok(()) };
        self.tally.one("question with too few words for what it says");
        let lent = raw.lent;
        same("a look with too few words", raw.look_on(lent, kind_number(kind), q, says.min(3)), Told::number(3))?;
        same("a read with too few words", raw.read_on(lent, id, says.min(2)), (3, [UNTOUCHED; 3]))
    }

    fn unnamed(&mut self, which: u64, number: u64, q: u64) -> Checked {
        let Some(raw) = self.side.raw() else { return Ok(()) };
        self.tally.one("call that names nothing");
        same("a call that names nothing", raw.unnamed(which, number, q), Told::number(10))
    }

    /// The absolute signs of a qubit: by 01's rule from the rows, and as our library records them.
    fn signs_of(&mut self, q: usize) -> Checked {
        let (Some(words), at) = (self.side.words(), self.at) else { return Ok(()) };
        let w = 2 * at.l + 1;
        for (plane, kind) in [(0, Kind::X), (1, Kind::Z)] {
            let row = &words[at.row(plane, q)..at.row(plane, q) + w];
            same("sign of a row by 01's rule", words::sign(row), Some(self.judge.axis(kind, q as u32).1))?;
        }
        let Some(small) = &mut self.signs else { return Ok(()) };
        let labels = &words[at.sketch..at.numbers];
        same("opening of a small store", small.open(small.lent, at.n as u64, 3, 0, 0, labels), 0)?;
        small.store_mut()[at.frame..at.numbers].copy_from_slice(&words[at.frame..at.numbers]);
        for (k, kind) in [Kind::X, Kind::Y, Kind::Z].into_iter().enumerate() {
            let told = small.call(&Call::Record { kind, q: q as u64, tag: k as u32 });
            same("record on a small store", told, Told { first: k, ..Told::number(0) })?;
            let sign = self.judge.axis(kind, q as u32).1;
            let read = small.read(k as u64);
            if read != (0, [k as i64, sign as i64, 1]) {
                return differs(format!("sign of axis {kind:?} of qubit {q}"), read.1[1], sign as i64);
            }
        }
        self.tally.add("sign by a record on a copy", 3);
        Ok(())
    }
}

/// The qubits of a gate or turn.
fn qubits(call: &Call) -> Vec<usize> {
    match *call {
        Call::Gate(gate) => gate.qubits().into_iter().map(|q| q as usize).collect(),
        Call::Turn { q, .. } => vec![q as usize],
        _ => Vec::new(),
    }
}

/// The rows of the original, for a listing.
pub fn rows(judge: &Judge, q: usize) -> String {
    let show = |plane| {
        let row = judge.row(plane, q);
        format!("i^{} X{:x?} Z{:x?}", row.phase, row.x, row.z)
    };
    format!("x[{q}] = {}, z[{q}] = {}", show(Plane::X), show(Plane::Z))
}
