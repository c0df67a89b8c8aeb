//! The original's search, one call at a time, so that it can be compared with ours call by call.
//!
//! This is a child of phase_fold_pauli.rs, so it sees that file's private items and runs them as they are: frames, events, lists,
//! step counts and searches are the original's. Numbers like "276" in comments are lines of that file.
//!
//! Ours, from document 01 and not from the original: the numbered refusals with their order, the limit on events, "all or
//! nothing" for reset, ccx and ccz, and the names for the ways in which a look fails. Nothing changes on a refusal.

use super::*;

pub mod speed;

#[derive(Clone, Copy, Debug, PartialEq, Eq)]
pub enum Form {
    Scalar,
    Sliced,
}

/// The kind of a rotation, a turn or a look; `P` shares the Z axis.
#[derive(Clone, Copy, Debug, PartialEq, Eq)]
pub enum Kind {
    X,
    Y,
    Z,
    P,
}

/// Which of the two rows of a qubit.
#[derive(Clone, Copy, Debug, PartialEq, Eq)]
pub enum Plane {
    X,
    Z,
}

/// A Clifford gate on qubit numbers that need not be in range. Of two qubits the first is the control.
#[derive(Clone, Copy, Debug, PartialEq, Eq)]
pub enum Clifford {
    H(u64),
    X(u64),
    Y(u64),
    Z(u64),
    S(u64),
    Sdg(u64),
    Sx(u64),
    Cnot(u64, u64),
    Cz(u64, u64),
    Cy(u64, u64),
    Swap(u64, u64),
}

/// Any call but the opening.
#[derive(Clone, Copy, Debug, PartialEq, Eq)]
pub enum Call {
    Gate(Clifford),
    Turn {
        k: u64,
        kind: Kind,
        q: u64,
    },
    Record {
        kind: Kind,
        q: u64,
        tag: u32,
    },
    Measure(u64),
    Reset(u64),
    /// Controls, then the target.
    Ccx(u64, u64, u64),
    Ccz(u64, u64, u64),
    Kill(u64),
    Clear,
    Look {
        kind: Kind,
        q: u64,
    },
}

#[derive(Clone, Copy, Debug, PartialEq, Eq)]
pub enum Look {
    /// `sign` is the product of the sign recorded and the present one.
    Found {
        id: usize,
        sign: i8,
        steps: usize,
    },
    None {
        steps: usize,
    },
    Blocked {
        steps: usize,
    },
    Out {
        steps: usize,
    },
}

impl Look {
    pub fn steps(self) -> usize {
        match self {
            Self::Found { steps, .. } | Self::None { steps } | Self::Blocked { steps } | Self::Out { steps } => steps,
        }
    }
}

/// What a call gives back.
#[derive(Clone, Copy, Debug, PartialEq, Eq)]
pub enum Reply {
    Done,
    /// The event recorded, the first of several.
    Event(usize),
    Look(Look),
    /// 01's answer number, 4 to 8.
    Refused(u8),
}

/// What 01's read gives for a rotation.
#[derive(Clone, Copy, Debug, PartialEq, Eq)]
pub struct Read {
    pub tag: u32,
    pub sign: i8,
    pub live: bool,
}

/// A row i^phase X^x Z^z, `l` words a set.
#[derive(Clone, Debug, PartialEq, Eq)]
pub struct RowView<'a> {
    pub phase: u8,
    pub x: &'a [u64],
    pub z: &'a [u64],
}

#[derive(Clone, Debug, PartialEq, Eq)]
pub struct EventView<'a> {
    /// Tag and sign; `None` for a blocker.
    pub rotation: Option<(u32, i8)>,
    pub live: bool,
    /// X words, then Z words.
    pub axis: &'a [u64],
    pub signature: u64,
}

#[derive(Clone, Debug, PartialEq, Eq)]
pub struct ListView<'a> {
    pub ids: &'a [u32],
    /// Dead entries that are still in the list.
    pub dead: usize,
    /// Sliced: the live word of each block, and 2n masks a block. Scalar: empty.
    pub live: &'a [u64],
    pub masks: &'a [u64],
}

/// How far a search went under some budget: the rotation of the same axis if it came to one, whether all later events commute,
/// and what was spent.
#[derive(Clone, Copy, Debug, PartialEq, Eq)]
struct Search {
    candidate: Option<usize>,
    commutes: bool,
    spent: usize,
}

pub struct Judge {
    folder: Folder<'static>,
    n: usize,
    capacity: usize,
    killed: usize,
}

/// The answers of 01 that refuse an opening or a call.
const SIZES: u8 = 1;
const EVENTS: u8 = 2;
const LABELS: u8 = 3;
const QUBIT: u8 = 4;
const TWICE: u8 = 5;
const FULL: u8 = 6;
const NO_EVENT: u8 = 7;
const TURN: u8 = 8;

impl Judge {
    /// A fresh judge, or 01's answer 1, 2 or 3. The labels, which the original draws at random (97), are given.
    pub fn open(n: u64, form: Form, labels: &[(u128, u128)], capacity: u64, allowance: u64) -> Result<Self, u8> {
        let (n, capacity, allowance) = (n as usize, capacity as usize, allowance as usize);
        let sliced = form == Form::Sliced;
        // 104: the original's own limit on qubits; it has no lower one.
        let fits = n >= 1 && frame_fits(n) && (!sliced || n <= MAX_SLICED_QUBITS);
        if !fits || allowance > MAX_ATTEMPT_STEPS {
            return Err(SIZES);
        }
        let l = n.div_ceil(64);
        // 553: the original asks this at each event.
        let words = capacity.checked_mul(2 * l);
        if capacity == 0 || words.is_none_or(|w| w > MAX_AXIS_WORDS) {
            return Err(EVENTS);
        }
        if labels.len() != n {
            return Err(LABELS);
        }
        // The angle context is an empty struct here, so nothing is lost by leaking it.
        let angles = Box::leak(Box::default());
        let folder = Folder::new(labels, n, l, allowance, sliced, 0, angles); // 144
        Ok(Self { folder, n, capacity, killed: 0 })
    }

    /// Any call, as a value.
    pub fn call(&mut self, call: &Call) -> Reply {
        let done = |r: Result<(), u8>| r.map_or_else(Reply::Refused, |()| Reply::Done);
        let event = |r: Result<usize, u8>| r.map_or_else(Reply::Refused, Reply::Event);
        match *call {
            Call::Gate(gate) => done(self.gate(gate)),
            Call::Turn { k, kind, q } => done(self.turn(k, kind, q)),
            Call::Record { kind, q, tag } => event(self.record(kind, q, tag)),
            Call::Measure(q) => event(self.measure(q)),
            Call::Reset(q) => event(self.reset(q)),
            Call::Ccx(a, b, c) => event(self.ccx(a, b, c)),
            Call::Ccz(a, b, c) => event(self.ccz(a, b, c)),
            Call::Kill(id) => done(self.kill(id)),
            Call::Clear => {
                self.clear();
                Reply::Done
            }
            Call::Look { kind, q } => self.look(kind, q).map_or_else(Reply::Refused, Reply::Look),
        }
    }

    /// 276, its last arm: both frames take the gate (409, 926, 1003).
    pub fn gate(&mut self, gate: Clifford) -> Result<(), u8> {
        self.distinct(&gate.qubits())?;
        self.step(&gate.original());
        Ok(())
    }

    /// 276 and 334 to 339: a rotation by a multiple of pi/2 is applied to the frames (415).
    pub fn turn(&mut self, k: u64, kind: Kind, q: u64) -> Result<(), u8> {
        if ![0, 2, 4, 6].contains(&k) {
            return Err(TURN);
        }
        let q = self.qubit(q)?;
        let angle = crate::angle::Angle::quarters(k as u8);
        self.step(&kind.original().gate(angle, q)); // 1127
        Ok(())
    }

    /// 340, 341 and 376 to 382: `Folder::rotation` with the fold that it tries in between left out.
    pub fn record(&mut self, kind: Kind, q: u64, tag: u32) -> Result<usize, u8> {
        let q = self.qubit(q)?;
        let id = self.room(1)?;
        let f = &mut self.folder;
        let hash = f.sketch.axis(kind.original(), q);
        let sign = f.exact.axis(kind.original(), q, &mut f.axis);
        let rotation = Rotation { gate: tag as usize, sign, angle: Angle(crate::angle::Angle::other()), input_gates: 1 };
        f.history.record_rotation(rotation, hash, &f.axis).expect("room was asked for");
        Ok(id)
    }

    /// 276, its arm for measure.
    pub fn measure(&mut self, q: u64) -> Result<usize, u8> {
        let qubit = self.qubit(q)?;
        let id = self.room(1)?;
        self.step(&Gate::measure { qubit, cbit: 0 });
        Ok(id)
    }

    /// 276, its arm for reset: z[q], then x[q].
    pub fn reset(&mut self, q: u64) -> Result<usize, u8> {
        let q = self.qubit(q)?;
        let id = self.room(2)?;
        self.step(&Gate::reset(q));
        Ok(id)
    }

    /// 276 and 390: seven products.
    pub fn ccx(&mut self, a: u64, b: u64, c: u64) -> Result<usize, u8> {
        self.distinct(&[a, b, c])?;
        let id = self.room(7)?;
        let [control1, control2, target] = [a, b, c].map(|q| q as u32);
        self.step(&Gate::ccx { control1, control2, target });
        Ok(id)
    }

    /// 276 and 390.
    pub fn ccz(&mut self, a: u64, b: u64, c: u64) -> Result<usize, u8> {
        self.distinct(&[a, b, c])?;
        let id = self.room(7)?;
        let [control1, control2, target] = [a, b, c].map(|q| q as u32);
        self.step(&Gate::ccz { control1, control2, target });
        Ok(id)
    }

    /// 570. The original kills only a partner that it has just found (357), so what may be killed is 01's rule.
    pub fn kill(&mut self, id: u64) -> Result<(), u8> {
        match self.read(id) {
            Ok(Read { live: true, .. }) => {
                self.folder.history.kill(id as usize);
                self.killed += 1;
                Ok(())
            }
            _ => Err(NO_EVENT),
        }
    }

    /// 276, its arm for cp, crx, cry, crz, ch and cswap, which does not look at the gate's qubits.
    pub fn clear(&mut self) {
        self.step(&Gate::ch { control: 0, target: 0 });
    }

    /// 340, 341 and 344: the look that `Folder::rotation` makes, with the relative sign of 352.
    ///
    /// The original answers `None` for none, blocked and out of steps alike, so the same search is run under its own allowance
    /// and under one that cannot end. The spends of the second begin with those of the first: it is out of steps exactly when
    /// the second spends more than the allowance, and then what the first has spent is what its `Budget` says.
    pub fn look(&mut self, kind: Kind, q: u64) -> Result<Look, u8> {
        let q = self.qubit(q)?;
        let allowance = self.folder.history.attempt_steps;
        let hash = self.folder.sketch.axis(kind.original(), q);
        let (axis, sign) = self.axis(kind, q);
        let partner = self.folder.history.partner(hash, &axis);
        let within = self.search(hash, &axis, allowance);
        let whole = self.search(hash, &axis, usize::MAX);
        let steps = within.spent;
        let look = if whole.spent > allowance {
            Look::Out { steps }
        } else {
            assert_eq!(within, whole, "a search that fits its allowance is the whole search");
            match whole {
                Search { candidate: None, .. } => Look::None { steps },
                Search { commutes: false, .. } => Look::Blocked { steps },
                Search { candidate: Some(id), .. } => {
                    let sign = self.folder.history.rotation(id).sign * sign;
                    Look::Found { id, sign, steps }
                }
            }
        };
        let found = match look {
            Look::Found { id, .. } => Some(id),
            _ => None,
        };
        assert_eq!(found, partner, "the original's own answer");
        Ok(look)
    }

    /// 01's read; 7 for no event and for a blocker.
    pub fn read(&self, id: u64) -> Result<Read, u8> {
        let event = usize::try_from(id).ok().and_then(|id| self.event(id)).ok_or(NO_EVENT)?;
        let (tag, sign) = event.rotation.ok_or(NO_EVENT)?;
        Ok(Read { tag, sign, live: event.live })
    }

    // What follows only reads.

    pub fn qubits(&self) -> usize {
        self.n
    }

    pub fn form(&self) -> Form {
        match self.folder.history.lists {
            SupportLists::Scalar(_) => Form::Scalar,
            SupportLists::Sliced(_) => Form::Sliced,
        }
    }

    pub fn capacity(&self) -> usize {
        self.capacity
    }

    pub fn allowance(&self) -> usize {
        self.folder.history.attempt_steps
    }

    /// Events recorded so far, dead ones too.
    pub fn events(&self) -> usize {
        self.folder.history.events.len()
    }

    pub fn killed(&self) -> usize {
        self.killed
    }

    /// A row of the exact frame (963).
    pub fn row(&self, plane: Plane, q: usize) -> RowView<'_> {
        let rows = match plane {
            Plane::X => &self.folder.exact.x,
            Plane::Z => &self.folder.exact.z,
        };
        let (x, z) = rows[q].words.split_at(self.folder.history.l);
        RowView { phase: rows[q].phase, x, z }
    }

    /// A row of the sketch (904).
    pub fn label(&self, plane: Plane, q: usize) -> u128 {
        match plane {
            Plane::X => self.folder.sketch.x[q],
            Plane::Z => self.folder.sketch.z[q],
        }
    }

    /// The axis of a kind on a qubit in range, X words then Z words, with its sign (978).
    pub fn axis(&self, kind: Kind, q: u32) -> (Vec<u64>, i8) {
        let mut axis = Vec::new();
        let sign = self.folder.exact.axis(kind.original(), q, &mut axis);
        (axis, sign)
    }

    /// The label of that axis (917).
    pub fn axis_label(&self, kind: Kind, q: u32) -> u128 {
        self.folder.sketch.axis(kind.original(), q)
    }

    /// An event with its axis, signature and live bit (468, 488).
    pub fn event(&self, id: usize) -> Option<EventView<'_>> {
        let h = &self.folder.history;
        let event = h.events.get(id)?;
        Some(EventView {
            rotation: event.rotation.as_ref().map(|r| (r.gate as u32, r.sign)),
            live: h.live.contains(id),
            axis: h.axis(id),
            signature: h.sigs[id],
        })
    }

    /// The live rotations that a look under this label would compare, newest first (605).
    pub fn chain(&self, label: u128) -> Vec<usize> {
        let h = &self.folder.history;
        let mut at = h.newest.get(&label).copied();
        let mut ids = Vec::new();
        while let Some(id) = at {
            if h.live.contains(id) {
                ids.push(id);
            }
            at = h.events[id].older;
        }
        ids
    }

    /// How many lists there are: 64 scalar, n sliced.
    pub fn lists(&self) -> usize {
        match &self.folder.history.lists {
            SupportLists::Scalar(lists) => lists.len(),
            SupportLists::Sliced(lists) => lists.len(),
        }
    }

    /// A list of a signature bit, as it stands (755, 778).
    pub fn list(&self, bit: usize) -> ListView<'_> {
        match &self.folder.history.lists {
            SupportLists::Scalar(lists) => {
                let list = &lists[bit];
                ListView { ids: &list.ids, dead: list.dead, live: &[], masks: &[] }
            }
            SupportLists::Sliced(lists) => {
                let list = &lists[bit];
                ListView { ids: &list.ids, dead: list.dead, live: &list.live, masks: &list.masks }
            }
        }
    }

    /// What the first phase of a look would spend with no limit (588), and what it finds.
    pub fn first_phase(&mut self, kind: Kind, q: u32) -> (Option<usize>, usize) {
        let hash = self.axis_label(kind, q);
        let (axis, _) = self.axis(kind, q);
        let mut budget = Budget(usize::MAX);
        let candidate = self.folder.history.candidate(hash, &axis, &mut budget);
        (candidate, usize::MAX - budget.0)
    }

    /// 580 to 584, `History::partner`, with a budget that can be read afterwards.
    fn search(&mut self, hash: u128, axis: &[u64], allowance: usize) -> Search {
        let history = &mut self.folder.history;
        let mut budget = Budget(allowance);
        let candidate = history.candidate(hash, axis, &mut budget);
        let commutes = candidate.is_some_and(|id| history.commutes_after(id, axis, &mut budget));
        Search { candidate, commutes, spent: allowance - budget.0 }
    }

    fn step(&mut self, gate: &Gate) {
        self.folder.step(0, gate).expect("room was asked for");
    }

    /// Answer 4.
    fn qubit(&self, q: u64) -> Result<u32, u8> {
        if q < self.n as u64 { Ok(q as u32) } else { Err(QUBIT) }
    }

    /// Answer 4 for any of the qubits, then 5.
    fn distinct(&self, qubits: &[u64]) -> Result<(), u8> {
        for &q in qubits {
            self.qubit(q)?;
        }
        let twice = qubits.iter().enumerate().any(|(i, q)| qubits[..i].contains(q));
        if twice { Err(TWICE) } else { Ok(()) }
    }

    /// Answer 6, or the number of the first of k more events.
    fn room(&self, k: usize) -> Result<usize, u8> {
        let events = self.events();
        if events + k > self.capacity { Err(FULL) } else { Ok(events) }
    }
}

impl Kind {
    pub const ALL: [Kind; 4] = [Kind::X, Kind::Y, Kind::Z, Kind::P];

    /// 1109.
    fn original(self) -> RotationKind {
        match self {
            Self::X => RotationKind::X,
            Self::Y => RotationKind::Y,
            Self::Z => RotationKind::Z,
            Self::P => RotationKind::Phase,
        }
    }
}

impl Clifford {
    pub fn qubits(self) -> Vec<u64> {
        match self {
            Self::H(a) | Self::X(a) | Self::Y(a) | Self::Z(a) | Self::S(a) | Self::Sdg(a) | Self::Sx(a) => vec![a],
            Self::Cnot(a, b) | Self::Cz(a, b) | Self::Cy(a, b) | Self::Swap(a, b) => vec![a, b],
        }
    }

    /// The original's gate; the qubits are in range by now.
    fn original(self) -> Gate {
        match self {
            Self::H(a) => Gate::h(a as u32),
            Self::X(a) => Gate::x(a as u32),
            Self::Y(a) => Gate::y(a as u32),
            Self::Z(a) => Gate::z(a as u32),
            Self::S(a) => Gate::s(a as u32),
            Self::Sdg(a) => Gate::sdg(a as u32),
            Self::Sx(a) => Gate::sx(a as u32),
            Self::Cnot(a, b) => Gate::cnot { control: a as u32, target: b as u32 },
            Self::Cz(a, b) => Gate::cz { control: a as u32, target: b as u32 },
            Self::Cy(a, b) => Gate::cy { control: a as u32, target: b as u32 },
            Self::Swap(a, b) => Gate::swap(a as u32, b as u32),
        }
    }
}
