//! Circuit-level Pauli folding with exact commutation checks.
//!
//! The pass walks the circuit once and keeps the Clifford frame: for the
//! Clifford prefix `U` seen so far, the row of each generator `P` (`X_q` or
//! `Z_q`) is `U† P U`. A rotation about `P` after `U` equals a rotation about
//! `U† P U` before it. RX uses the X row, RZ/P/T/T† the Z row, and RY the
//! signed Hermitian product `i X Z`. Two rotations about the same unsigned
//! axis merge, at the later one's position, when every live rotation recorded
//! between them commutes with that axis. CCX and CCZ gates, measurements and
//! resets are recorded as *blockers*: they never merge, but a fold across one
//! must commute with it.
//!
//! The scan is made fast by these tricks. `docs/tableau-abstraction.tex`,
//! section "Making the scan fast", has the details and measurements.
//!
//! - **Fingerprints.** Each X and Z generator gets a random 128-bit label. A
//!   row's fingerprint is the XOR of the labels of its factors, so a second,
//!   *sketch* frame keeps every row's fingerprint at O(1) per gate. A map from
//!   fingerprint to the newest rotation, chained to the older ones, proposes
//!   merge candidates. Only exact axes and an exact commutation check
//!   authorize a rewrite, so the randomness affects speed, not output.
//! - **Pre-check.** A sketch-only scan looks for a repeated fingerprint. If
//!   there is none, nothing can fold, and the exact frame is never built.
//! - **Support lists.** Two axes can anticommute only if they share a qubit.
//!   Each event is listed under each bit of its 64-bit support signature, so
//!   the commutation check visits only events that share support with the
//!   axis.
//! - **Compaction.** Most rotations fold away. A support list drops its dead
//!   entries once a fixed fraction of it is dead, or later scans would walk
//!   past them.
//! - **Bit slicing.** Up to [`MAX_SLICED_QUBITS`] qubits, each support list
//!   is stored as per-qubit X and Z masks over blocks of 64 entries, and a
//!   whole block is tested against an axis with a few word XORs.
//! - **Budget.** Each fold attempt may do a fixed amount of work. Running out
//!   counts as blocked, which bounds the pass to linear time.

use std::collections::hash_map::RandomState;
#[cfg(test)]
use std::f64::consts::PI;
use std::hash::{BuildHasher, Hasher};

use rustc_hash::{FxHashMap, FxHashSet};

use crate::angle::AngleContext;
use crate::circuit::{Circuit, Gate, qubit_operands};
use crate::pass::{Pass, PassState};
use crate::pbc::{packed_anticommutes, support_signature};

/// Maximum retained exact axis storage, in 64-bit words (256 MiB). Reaching
/// it stops further folding; folds already found are kept. Each event stores
/// at least two words, so this also keeps event ids below 2^24, small enough
/// for the `u32` ids of the support lists.
const MAX_AXIS_WORDS: usize = 1 << 25;

/// Work allowed for one fold attempt (candidate lookup plus the commutation
/// check). An attempt that runs out is treated as blocked, and the scan goes
/// on, so one expensive candidate cannot end the pass.
const MAX_ATTEMPT_STEPS: usize = 1 << 20;

/// Widest circuit that uses bit-sliced support lists. A rotation with support
/// `w` costs `O(w²)` to record there (it sets `w` bits in each of `w` lists),
/// which dense wide circuits such as QFT do not recover in faster scans.
const MAX_SLICED_QUBITS: usize = 32;

/// Folds T/T†, P and RZ/RX/RY across Clifford gates, including Hadamards.
/// Numeric angles never snap to Clifford angles or undergo floating modulo
/// reduction. Checked angle arithmetic retains exact pi fractions and declines
/// numeric merges that would round, overflow, or exceed representation limits.
/// Can run independently or after [`crate::phase_fold_rand::PhaseFoldRand`].
pub struct PhaseFoldPauli;

impl Pass for PhaseFoldPauli {
    fn name(&self) -> &str {
        "Pauli folding"
    }

    fn run(&self, circuit: &Circuit) -> Circuit {
        phase_fold_pauli(circuit)
    }
    fn run_with_state(&self, circuit: &Circuit, state: &mut PassState) -> Circuit {
        phase_fold_pauli_with_context(circuit, &mut state.angles)
    }
}

/// Fold rotations using checked angle arithmetic and exact Pauli commutation.
/// Random fingerprints only select candidates; exact checks authorize rewrites.
pub fn phase_fold_pauli(circuit: &Circuit) -> Circuit {
    phase_fold_pauli_with_context(circuit, &mut PassState::default().angles)
}
fn phase_fold_pauli_with_context(circuit: &Circuit, ctx: &mut AngleContext) -> Circuit {
    let lowered = crate::angle::lowered_if_needed(circuit);
    let circuit = &lowered;
    let n = circuit.num_qubits;
    if !frame_fits(n) || !well_formed(circuit) {
        return (**circuit).clone();
    }
    let labels: Vec<_> = (0..circuit.num_qubits)
        .map(|_| (random_label(), random_label()))
        .collect();
    let sliced = circuit.num_qubits <= MAX_SLICED_QUBITS;
    fold_with_context(circuit, &labels, MAX_ATTEMPT_STEPS, sliced, ctx)
}

fn frame_fits(n: usize) -> bool {
    let l = n.div_ceil(64).max(1);
    n.checked_mul(4 * l)
        .is_some_and(|words| words <= MAX_AXIS_WORDS)
}

fn random_label() -> u128 {
    let hi = RandomState::new().build_hasher().finish() as u128;
    let lo = RandomState::new().build_hasher().finish() as u128;
    (hi << 64) | lo
}

/// The pass, with fingerprint labels `(X_q, Z_q)` for each qubit `q`, a
/// per-attempt budget, and bit-sliced (`sliced`) or scalar support lists. The
/// two kinds of list reach the same verdicts; only the budget accounting
/// differs.
#[cfg(test)]
fn fold(circuit: &Circuit, labels: &[(u128, u128)], attempt_steps: usize, sliced: bool) -> Circuit {
    fold_with_context(
        circuit,
        labels,
        attempt_steps,
        sliced,
        &mut AngleContext::default(),
    )
}
fn fold_with_context(
    circuit: &Circuit,
    labels: &[(u128, u128)],
    attempt_steps: usize,
    sliced: bool,
    ctx: &mut AngleContext,
) -> Circuit {
    let n = circuit.num_qubits;
    let l = n.div_ceil(64).max(1);
    // The exact frame has 2n rows of 2l words. Bound it before allocating it,
    // even for a circuit with very few rotations.
    if labels.len() != n || !frame_fits(n) || !well_formed(circuit) || !may_fold(circuit, labels) {
        return circuit.clone();
    }
    let mut folder = Folder::new(
        labels,
        n,
        l,
        attempt_steps,
        sliced,
        circuit.gates.len(),
        ctx,
    );
    for (idx, gate) in circuit.gates.iter().enumerate() {
        if folder.step(idx, gate).is_none() {
            break; // axis storage is full
        }
    }
    folder.rewrite(circuit)
}

/// Every gate kind is handled; the input must only be well formed (qubits
/// in range and distinct, finite angles). Anything else is left as is.
fn well_formed(circuit: &Circuit) -> bool {
    let n = circuit.num_qubits;
    circuit.gates.iter().all(|g| {
        let (len, mut qubits) = qubit_operands(g);
        let qubits = &mut qubits[..len];
        qubits.sort_unstable();
        qubits.iter().all(|&q| (q as usize) < n) && qubits.windows(2).all(|w| w[0] != w[1])
    })
}

/// The pre-check: whether two non-Clifford rotations of the unfolded circuit
/// have the same axis fingerprint. If none do, no two have the same axis.
/// The first fold needs such a pair, so then nothing folds.
fn may_fold(circuit: &Circuit, labels: &[(u128, u128)]) -> bool {
    let mut rotations = circuit
        .gates
        .iter()
        .filter(|g| RotationKind::of(g).is_some());
    if rotations.nth(1).is_none() {
        return false;
    }
    let mut sketch = SketchFrame::new(labels);
    let mut seen = FxHashSet::default();
    for gate in &circuit.gates {
        match *gate {
            Gate::t(q)
            | Gate::tdg(q)
            | Gate::rz(_, q)
            | Gate::rx(_, q)
            | Gate::ry(_, q)
            | Gate::p(_, q) => {
                let kind = RotationKind::of(gate).unwrap();
                let angle = Angle::of(gate);
                if angle.is_clifford() {
                    if let Some(clifford) = angle.clifford_gate(q) {
                        if matches!(kind, RotationKind::X | RotationKind::Y) {
                            if kind == RotationKind::Y {
                                sketch.apply(&Gate::sdg(q));
                            }
                            sketch.apply(&Gate::h(q));
                        }
                        sketch.apply(&clifford);
                        if matches!(kind, RotationKind::X | RotationKind::Y) {
                            sketch.apply(&Gate::h(q));
                            if kind == RotationKind::Y {
                                sketch.apply(&Gate::s(q));
                            }
                        }
                    }
                } else if !seen.insert(sketch.axis(kind, q)) {
                    return true;
                }
            }
            // No frame change, as in the main scan.
            Gate::measure { .. } | Gate::reset(_) | Gate::ccx { .. } | Gate::ccz { .. } => {}
            Gate::cp { .. }
            | Gate::crx { .. }
            | Gate::cry { .. }
            | Gate::crz { .. }
            | Gate::ch { .. }
            | Gate::cswap { .. } => seen.clear(),
            _ => sketch.apply(gate),
        }
    }
    false
}

/// The state of the main scan.
struct Folder<'a> {
    angles: &'a mut AngleContext,
    /// Fingerprints of the frame rows.
    sketch: SketchFrame,
    /// The frame rows themselves.
    exact: ExactFrame,
    history: History,
    /// Rotations merged into a later one, by gate index.
    deleted: BitSet,
    /// The merged rotations that replace gates, in gate order.
    replacements: Vec<Replacement>,
    /// The current axis, a buffer reused across gates.
    axis: Vec<u64>,
}

/// A merged rotation emitted in place of the rotation at gate `gate`.
struct Replacement {
    gate: usize,
    qubit: u32,
    angle: Angle,
    kind: RotationKind,
}

impl<'a> Folder<'a> {
    fn new(
        labels: &[(u128, u128)],
        n: usize,
        l: usize,
        attempt_steps: usize,
        sliced: bool,
        num_gates: usize,
        angles: &'a mut AngleContext,
    ) -> Self {
        Self {
            angles,
            sketch: SketchFrame::new(labels),
            exact: ExactFrame::new(n, l),
            history: History::new(n, l, attempt_steps, sliced),
            deleted: BitSet::new(num_gates),
            replacements: Vec::new(),
            axis: Vec::with_capacity(2 * l),
        }
    }

    /// Scan gate `idx`. `None` once axis storage is full.
    fn step(&mut self, idx: usize, gate: &Gate) -> Option<()> {
        match *gate {
            Gate::t(q)
            | Gate::tdg(q)
            | Gate::rz(_, q)
            | Gate::rx(_, q)
            | Gate::ry(_, q)
            | Gate::p(_, q) => {
                self.rotation(idx, q, RotationKind::of(gate).unwrap(), Angle::of(gate))
            }
            Gate::ccx {
                control1,
                control2,
                target,
            } => self.toffoli([control1, control2], target, true),
            Gate::ccz {
                control1,
                control2,
                target,
            } => self.toffoli([control1, control2], target, false),
            // A rotation about P commutes with a Z-basis measurement of q,
            // whose projectors are (1 ± Z_q)/2, exactly when P commutes with
            // Z_q. It commutes with a reset of q, whose Kraus maps are
            // |0⟩⟨b|, when P acts trivially on q: P commutes with Z_q and X_q.
            // So each is a blocker on the frame rows of those Paulis, and
            // only folds that cross it with an anticommuting axis are refused.
            // The frame stays a valid reference for later axes: folds only
            // move a rotation forward, and both axes are compared after the
            // same Clifford prefix.
            Gate::measure { qubit, .. } => self
                .history
                .record_blocker(&self.exact.z[qubit as usize].words),
            Gate::reset(q) => {
                let q = q as usize;
                self.history.record_blocker(&self.exact.z[q].words)?;
                self.history.record_blocker(&self.exact.x[q].words)
            }
            Gate::cp { .. }
            | Gate::crx { .. }
            | Gate::cry { .. }
            | Gate::crz { .. }
            | Gate::ch { .. }
            | Gate::cswap { .. } => {
                // Start a new segment. The retained frame is merely a common
                // change of Pauli basis for axes within that segment; no
                // candidate can cross the unsupported operation.
                self.history.newest.clear();
                Some(())
            }
            _ => {
                self.apply_clifford(gate);
                Some(())
            }
        }
    }

    /// A single-qubit rotation: merge it into the newest earlier
    /// rotation it can reach, or record it for later ones to merge into.
    fn rotation(&mut self, idx: usize, q: u32, kind: RotationKind, angle: Angle) -> Option<()> {
        if angle.is_clifford() {
            // An Rz by a multiple of pi/2 is part of the frame.
            self.apply_clifford_angle(angle, q, kind);
            return Some(());
        }
        let hash = self.sketch.axis(kind, q);
        let sign = self.exact.axis(kind, q, &mut self.axis);
        let mut angle = angle;
        let mut input_gates = 1;
        if let Some(id) = self.history.partner(hash, &self.axis) {
            // With P_i = s_i W and P_j = s_j W, commuting P_i through the
            // interval gives an angle s_i θ_i + s_j θ_j on W. At j, the
            // physical Z rotation needs that angle multiplied by s_j.
            let prior = self.history.rotation(id);
            if let Some(merged) = Angle::merge(
                self.angles,
                prior.angle.clone(),
                prior.sign * sign,
                angle.clone(),
            ) && merged.0.emitted_gate_count() <= prior.input_gates + 1
            {
                input_gates = prior.input_gates + 1;
                self.history.kill(id);
                self.deleted.insert(prior.gate);
                self.replacements.push(Replacement {
                    gate: idx,
                    qubit: q,
                    angle: merged.clone(),
                    kind,
                });
                if merged.is_clifford() {
                    // S, S† or Z now sits here and changes every later
                    // axis; the identity leaves nothing.
                    self.apply_clifford_angle(merged.clone(), q, kind);
                    return Some(());
                }
                // A non-Clifford merged rotation stays live and may itself
                // merge with a later rotation on this axis.
                angle = merged;
            }
        }
        let rotation = Rotation {
            gate: idx,
            sign,
            angle,
            input_gates,
        };
        self.history.record_rotation(rotation, hash, &self.axis)
    }

    /// A CCX (`target_x`) or CCZ is not Clifford, so the frame is unchanged.
    /// As in `to_pbc`, it is seven Pauli rotations, about the products of the
    /// nonempty subsets of its controls' Z rows and its target's X (CCX) or Z
    /// (CCZ) row. They stay in the circuit and block the folds they
    /// anticommute with.
    fn toffoli(&mut self, controls: [u32; 2], target: u32, target_x: bool) -> Option<()> {
        let frame = &self.exact;
        let [a, b] = controls.map(|c| &frame.z[c as usize].words);
        let target_rows = if target_x { &frame.x } else { &frame.z };
        let t = &target_rows[target as usize].words;
        // Bits 0, 1 and 2 of `subset` select a, b and t.
        for subset in 1..8 {
            self.axis.clear();
            self.axis.resize(t.len(), 0);
            for (i, row) in [a, b, t].into_iter().enumerate() {
                if subset >> i & 1 != 0 {
                    self.axis.iter_mut().zip(row).for_each(|(w, r)| *w ^= r);
                }
            }
            self.history.record_blocker(&self.axis)?;
        }
        Some(())
    }

    fn apply_clifford(&mut self, gate: &Gate) {
        self.sketch.apply(gate);
        self.exact.apply(gate);
    }

    /// Apply the S, S† or Z a Clifford angle amounts to (nothing for zero).
    fn apply_clifford_angle(&mut self, angle: Angle, q: u32, kind: RotationKind) {
        if matches!(kind, RotationKind::X | RotationKind::Y) {
            if kind == RotationKind::Y {
                self.apply_clifford(&Gate::sdg(q));
            }
            self.apply_clifford(&Gate::h(q));
        }
        if let Some(gate) = angle.clifford_gate(q) {
            self.apply_clifford(&gate);
        }
        if matches!(kind, RotationKind::X | RotationKind::Y) {
            self.apply_clifford(&Gate::h(q));
            if kind == RotationKind::Y {
                self.apply_clifford(&Gate::s(q));
            }
        }
    }

    /// The circuit with the merges applied: merged-away rotations dropped and
    /// the others replaced by their merged angles. An Rz by an exact multiple
    /// of pi/4 is written as the T, S and Z gates it amounts to (none for zero),
    /// as `PhaseFoldRand` does, whether or not it folded.
    fn rewrite(self, circuit: &Circuit) -> Circuit {
        let exact_rz =
            |g: &Gate| matches!(g, Gate::rz(theta, _) if theta.projective_quarters().is_some());
        if self.replacements.is_empty() && !circuit.gates.iter().any(exact_rz) {
            return circuit.clone();
        }
        let mut output = circuit.empty_like();
        output
            .gates
            .reserve(circuit.gates.len() - self.replacements.len());
        let mut replacements = self.replacements.iter().peekable();
        for (idx, gate) in circuit.gates.iter().enumerate() {
            // A replacement may itself have merged into a later rotation.
            let replacement = replacements.next_if(|r| r.gate == idx);
            if self.deleted.contains(idx) {
                continue;
            }
            match replacement {
                Some(r) => r.angle.emit(&mut output, r.qubit, r.kind),
                None => match gate {
                    Gate::rz(_, q) => Angle::of(gate).emit(&mut output, *q, RotationKind::Z),
                    _ => output.apply(gate.clone()),
                },
            }
        }
        output
    }
}

/// The events recorded so far, rotations and blockers, with ids in order of
/// recording, and the indexes a fold attempt searches.
struct History {
    /// Words per bit plane of an axis.
    l: usize,
    /// Work allowed per fold attempt.
    attempt_steps: usize,
    events: Vec<Event>,
    /// Exact unsigned axes, `2 l` words per event, so event `id`'s axis
    /// starts at `2 l id`.
    axes: Vec<u64>,
    /// Support signature of each event.
    sigs: Vec<u64>,
    /// The live events: blockers always, rotations until they merge away.
    /// Kept apart from `events` so scans read one bit per event.
    live: BitSet,
    /// Newest rotation per axis fingerprint. Older ones are chained through
    /// [`Event::older`].
    newest: FxHashMap<u128, usize>,
    lists: SupportLists,
}

struct Event {
    /// `None` for a blocker, which is never a merge candidate.
    rotation: Option<Rotation>,
    /// The next older rotation with the same fingerprint.
    older: Option<usize>,
}

#[derive(Clone)]
struct Rotation {
    /// Index of its gate in the input circuit.
    gate: usize,
    /// Its axis is `sign` times the stored unsigned axis.
    sign: i8,
    angle: Angle,
    input_gates: usize,
}

impl History {
    fn new(n: usize, l: usize, attempt_steps: usize, sliced: bool) -> Self {
        let lists = if sliced {
            assert!(n <= MAX_SLICED_QUBITS);
            SupportLists::Sliced((0..n).map(|_| SlicedList::default()).collect())
        } else {
            SupportLists::Scalar(Box::new(std::array::from_fn(|_| ScalarList::default())))
        };
        Self {
            l,
            attempt_steps,
            events: Vec::new(),
            axes: Vec::new(),
            sigs: Vec::new(),
            live: BitSet::new(0),
            newest: FxHashMap::default(),
            lists,
        }
    }

    fn axis(&self, id: usize) -> &[u64] {
        let words = 2 * self.l;
        &self.axes[words * id..words * (id + 1)]
    }

    fn rotation(&self, id: usize) -> Rotation {
        self.events[id]
            .rotation
            .clone()
            .expect("candidates are rotations")
    }

    /// Record a rotation as a merge candidate. `None` once axis storage is
    /// full.
    fn record_rotation(&mut self, rotation: Rotation, hash: u128, axis: &[u64]) -> Option<()> {
        let id = self.push(axis, Some(rotation))?;
        self.events[id].older = self.newest.insert(hash, id);
        Some(())
    }

    /// Record a fixed obstacle: a later fold across it must commute with
    /// `axis`. `None` once axis storage is full.
    fn record_blocker(&mut self, axis: &[u64]) -> Option<()> {
        self.push(axis, None).map(drop)
    }

    fn push(&mut self, axis: &[u64], rotation: Option<Rotation>) -> Option<usize> {
        debug_assert_eq!(axis.len(), 2 * self.l);
        if self.axes.len() + axis.len() > MAX_AXIS_WORDS {
            return None;
        }
        let id = self.events.len();
        let signature = support_signature(axis, self.l);
        self.lists.push(id as u32, axis, signature);
        self.axes.extend_from_slice(axis);
        self.sigs.push(signature);
        self.live.insert(id);
        self.events.push(Event {
            rotation,
            older: None,
        });
        Some(id)
    }

    /// Mark a rotation that merged away dead.
    fn kill(&mut self, id: usize) {
        self.live.remove(id);
        self.lists
            .kill(id as u32, self.sigs[id], &self.live, &self.axes);
    }

    /// The rotation `axis` can merge into, if one fold attempt finds it
    /// within the budget: the newest live rotation with exactly this axis,
    /// provided every live event since commutes with `axis`. (Any older one
    /// would be blocked too, since the newest also commutes with `axis`.)
    fn partner(&mut self, hash: u128, axis: &[u64]) -> Option<usize> {
        let mut budget = Budget(self.attempt_steps);
        let id = self.candidate(hash, axis, &mut budget)?;
        self.commutes_after(id, axis, &mut budget).then_some(id)
    }

    /// The newest live rotation with exactly `axis`, on the chain of
    /// fingerprint `hash`. One step per axis compared.
    fn candidate(&mut self, hash: u128, axis: &[u64], budget: &mut Budget) -> Option<usize> {
        let mut cursor = self.newest_live(self.newest.get(&hash).copied());
        while let Some(id) = cursor {
            if !budget.spend(1) {
                return None;
            }
            if self.axis(id) == axis {
                return Some(id);
            }
            cursor = self.newest_live(self.events[id].older);
        }
        None
    }

    /// The first live rotation on the fingerprint chain from `start`. The
    /// dead links passed on the way are pointed at it, so a long run of
    /// merges does not make every later lookup walk all of them again.
    fn newest_live(&mut self, start: Option<usize>) -> Option<usize> {
        let mut found = start;
        while let Some(id) = found.filter(|&id| !self.live.contains(id)) {
            found = self.events[id].older;
        }
        let mut cursor = start;
        while cursor != found {
            let id = cursor.expect("`found` is on the chain");
            cursor = std::mem::replace(&mut self.events[id].older, found);
        }
        found
    }

    /// Whether `axis` commutes with every live event recorded after event
    /// `after`. Running out of budget counts as not commuting.
    ///
    /// Only events that share a support-signature bit with `axis` can fail to
    /// commute, so only the lists of those bits are scanned. Each list is in
    /// id order, so the events after `after` are a suffix, found by binary
    /// search, and scanned oldest first.
    fn commutes_after(&self, after: usize, axis: &[u64], budget: &mut Budget) -> bool {
        match &self.lists {
            SupportLists::Scalar(lists) => self.commutes_scalar(lists, after, axis, budget),
            SupportLists::Sliced(lists) => commutes_sliced(lists, after, axis, budget),
        }
    }

    /// [`History::commutes_after`] on scalar lists, one step per entry
    /// visited. An event that shares several bits with `axis` is in several
    /// of the lists, but is tested only in the one of the lowest shared bit.
    fn commutes_scalar(
        &self,
        lists: &[ScalarList; 64],
        after: usize,
        axis: &[u64],
        budget: &mut Budget,
    ) -> bool {
        let signature = support_signature(axis, self.l);
        for bit in bits(signature) {
            let ids = &lists[bit].ids;
            let start = ids.partition_point(|&id| id as usize <= after);
            for &id in &ids[start..] {
                if !budget.spend(1) {
                    return false;
                }
                let id = id as usize;
                if self.live.contains(id)
                    && (self.sigs[id] & signature).trailing_zeros() as usize == bit
                    && packed_anticommutes(self.axis(id), axis, self.l)
                {
                    return false;
                }
            }
        }
        true
    }
}

/// [`History::commutes_after`] on bit-sliced lists, one step per live entry
/// of each block scanned. An event in several of the lists is tested in each.
///
/// An axis here is one X word and one Z word, and entry `e` anticommutes with
/// `axis = (ax, az)` when `(ax ∧ z_e) ⊕ (az ∧ x_e)` has odd weight. Grouping
/// that parity by qubit, it is, for all 64 entries of a block at once, the
/// XOR of the block's Z masks of the qubits where `axis` has X and its X masks
/// of the qubits where `axis` has Z.
fn commutes_sliced(lists: &[SlicedList], after: usize, axis: &[u64], budget: &mut Budget) -> bool {
    let (ax, az) = (axis[0], axis[1]);
    let n = lists.len();
    // The mask words to XOR in each block (see [`SlicedList`] for the layout).
    let mut words = [0u8; 2 * MAX_SLICED_QUBITS];
    let mut count = 0;
    for p in bits(ax) {
        words[count] = (2 * p + 1) as u8;
        count += 1;
    }
    for p in bits(az) {
        words[count] = (2 * p) as u8;
        count += 1;
    }
    let words = &words[..count];
    for q in bits(ax | az) {
        let list = &lists[q];
        let start = list.ids.partition_point(|&id| id as usize <= after);
        // The entries before `start` in its block are not after `after`.
        let mut first = !0u64 << (start % 64);
        for block in start / 64..list.live.len() {
            if !budget.spend(list.live[block].count_ones() as usize) {
                return false;
            }
            let masks = list.block(block, n);
            let mut anticommuting = 0;
            for &w in words {
                anticommuting ^= masks[w as usize];
            }
            if anticommuting & list.live[block] & first != 0 {
                return false;
            }
            first = !0;
        }
    }
    true
}

/// For each support-signature bit, the events whose axis has it, in id order.
enum SupportLists {
    /// Plain lists of ids, for circuits wider than [`MAX_SLICED_QUBITS`].
    Scalar(Box<[ScalarList; 64]>),
    /// Bit-sliced lists, one per qubit. A circuit this narrow has one word
    /// per plane, and the signature bit of qubit `q` is `q`.
    Sliced(Vec<SlicedList>),
}

impl SupportLists {
    fn push(&mut self, id: u32, axis: &[u64], signature: u64) {
        match self {
            Self::Scalar(lists) => {
                for bit in bits(signature) {
                    lists[bit].ids.push(id);
                }
            }
            Self::Sliced(lists) => {
                let n = lists.len();
                for q in bits(signature) {
                    lists[q].push(id, axis[0], axis[1], n);
                }
            }
        }
    }

    /// Mark event `id`, already removed from `live`, dead in its lists.
    fn kill(&mut self, id: u32, signature: u64, live: &BitSet, axes: &[u64]) {
        match self {
            Self::Scalar(lists) => {
                for bit in bits(signature) {
                    lists[bit].note_dead(live);
                }
            }
            Self::Sliced(lists) => {
                let n = lists.len();
                for q in bits(signature) {
                    lists[q].kill(id, live, axes, n);
                }
            }
        }
    }
}

/// Event ids, increasing. Dead ids stay until the list is compacted.
#[derive(Default)]
struct ScalarList {
    ids: Vec<u32>,
    /// Dead ids still in the list.
    dead: usize,
}

impl ScalarList {
    /// Count one more dead id, and drop the dead ids once a quarter of the
    /// list is dead. At least a quarter of the list died since the previous
    /// compaction, so each costs O(1) per death.
    fn note_dead(&mut self, live: &BitSet) {
        self.dead += 1;
        if 4 * self.dead > self.ids.len() {
            self.ids.retain(|&id| live.contains(id as usize));
            self.dead = 0;
        }
    }
}

/// One qubit's support list, bit-sliced in blocks of 64 entries. Entry `i` of
/// a block owns bit `i` of each of the block's `2 n` masks: mask `2 p` marks
/// the entries with X or Y on qubit `p`, and mask `2 p + 1` those with Z or Y.
#[derive(Default)]
struct SlicedList {
    /// Event ids, increasing.
    ids: Vec<u32>,
    /// `2 n` words per block.
    masks: Vec<u64>,
    /// The live entries, one word per block.
    live: Vec<u64>,
    /// Dead entries still in the list.
    dead: usize,
}

impl SlicedList {
    fn block(&self, block: usize, n: usize) -> &[u64] {
        &self.masks[2 * n * block..2 * n * (block + 1)]
    }

    /// Append an event with axis `(x, z)`.
    fn push(&mut self, id: u32, x: u64, z: u64, n: usize) {
        let pos = self.ids.len();
        if pos.is_multiple_of(64) {
            self.masks.resize(self.masks.len() + 2 * n, 0);
            self.live.push(0);
        }
        let (block, bit) = (pos / 64, 1u64 << (pos % 64));
        let masks = &mut self.masks[2 * n * block..2 * n * (block + 1)];
        for p in bits(x) {
            masks[2 * p] |= bit;
        }
        for p in bits(z) {
            masks[2 * p + 1] |= bit;
        }
        self.live[block] |= bit;
        self.ids.push(id);
    }

    /// Mark event `id`, already removed from `live`, dead, and rebuild the
    /// list from its live entries once half of it is dead.
    fn kill(&mut self, id: u32, live: &BitSet, axes: &[u64], n: usize) {
        // Rotations usually merge away soon after they are recorded, so
        // gallop back from the end.
        let ids = &self.ids;
        let (mut lo, mut span) = (ids.len() - 1, 1);
        while lo > 0 && ids[lo] > id {
            lo = lo.saturating_sub(span);
            span *= 2;
        }
        let pos = lo + ids[lo..].partition_point(|&e| e < id);
        debug_assert_eq!(ids[pos], id, "a live event is in its lists");
        self.live[pos / 64] &= !(1 << (pos % 64));
        self.dead += 1;
        if 2 * self.dead > self.ids.len() {
            self.rebuild(live, axes, n);
        }
    }

    fn rebuild(&mut self, live: &BitSet, axes: &[u64], n: usize) {
        let ids = std::mem::take(&mut self.ids);
        self.masks.clear();
        self.live.clear();
        self.dead = 0;
        for id in ids {
            let i = id as usize;
            if live.contains(i) {
                self.push(id, axes[2 * i], axes[2 * i + 1], n);
            }
        }
    }
}

/// The work left in one fold attempt.
struct Budget(usize);

impl Budget {
    /// Spend `steps`, or return `false` if fewer are left.
    fn spend(&mut self, steps: usize) -> bool {
        match self.0.checked_sub(steps) {
            Some(left) => {
                self.0 = left;
                true
            }
            None => false,
        }
    }
}

/// A growable set of small integers, one bit each.
struct BitSet(Vec<u64>);

impl BitSet {
    /// An empty set with room for `0..len`.
    fn new(len: usize) -> Self {
        Self(vec![0; len.div_ceil(64)])
    }

    fn insert(&mut self, i: usize) {
        let word = i / 64;
        if word >= self.0.len() {
            self.0.resize(word + 1, 0);
        }
        self.0[word] |= 1 << (i % 64);
    }

    fn remove(&mut self, i: usize) {
        self.0[i / 64] &= !(1 << (i % 64));
    }

    fn contains(&self, i: usize) -> bool {
        self.0[i / 64] >> (i % 64) & 1 != 0
    }
}

/// The positions of the set bits of `w`, lowest first.
fn bits(mut w: u64) -> impl Iterator<Item = usize> {
    std::iter::from_fn(move || {
        (w != 0).then(|| {
            let bit = w.trailing_zeros() as usize;
            w &= w - 1;
            bit
        })
    })
}

/// The fingerprints of the frame rows: each row's XOR of the labels of its
/// factors (`Y_q` counts as `X_q` and `Z_q`). Products of rows XOR their
/// fingerprints, and signs do not change them, so this follows
/// [`ExactFrame::apply`] at O(1) per gate.
struct SketchFrame {
    x: Vec<u128>,
    z: Vec<u128>,
}

impl SketchFrame {
    fn new(labels: &[(u128, u128)]) -> Self {
        Self {
            x: labels.iter().map(|&(x, _)| x).collect(),
            z: labels.iter().map(|&(_, z)| z).collect(),
        }
    }

    fn axis(&self, kind: RotationKind, q: u32) -> u128 {
        let q = q as usize;
        match kind {
            RotationKind::X => self.x[q],
            RotationKind::Y => self.x[q] ^ self.z[q],
            RotationKind::Z | RotationKind::Phase => self.z[q],
        }
    }

    fn apply(&mut self, gate: &Gate) {
        match *gate {
            Gate::h(q) => {
                std::mem::swap(&mut self.x[q as usize], &mut self.z[q as usize]);
            }
            Gate::s(q) | Gate::sdg(q) => self.x[q as usize] ^= self.z[q as usize],
            Gate::cnot { control, target } => {
                let (c, t) = (control as usize, target as usize);
                self.x[c] ^= self.x[t];
                self.z[t] ^= self.z[c];
            }
            Gate::cz { control, target } => {
                let (c, t) = (control as usize, target as usize);
                self.x[c] ^= self.z[t];
                self.x[t] ^= self.z[c];
            }
            Gate::swap(a, b) => {
                self.x.swap(a as usize, b as usize);
                self.z.swap(a as usize, b as usize);
            }
            Gate::sx(q) => {
                self.apply(&Gate::h(q));
                self.apply(&Gate::s(q));
                self.apply(&Gate::h(q));
            }
            Gate::cy { control, target } => {
                self.apply(&Gate::sdg(target));
                self.apply(&Gate::cnot { control, target });
                self.apply(&Gate::s(target));
            }
            Gate::x(_) | Gate::y(_) | Gate::z(_) => {} // only the exact row sign changes
            _ => unreachable!("supported Clifford gate"),
        }
    }
}

/// The frame rows `U† X_q U` and `U† Z_q U` for the Clifford prefix `U`.
struct ExactFrame {
    x: Vec<Row>,
    z: Vec<Row>,
}

impl ExactFrame {
    /// The identity frame on `n` qubits, with `l` words per bit plane.
    fn new(n: usize, l: usize) -> Self {
        Self {
            x: (0..n).map(|q| Row::generator(l, q, true)).collect(),
            z: (0..n).map(|q| Row::generator(l, q, false)).collect(),
        }
    }

    /// Populate a reusable axis buffer and return its Hermitian sign.
    fn axis(&self, kind: RotationKind, q: u32, axis: &mut Vec<u64>) -> i8 {
        let q = q as usize;
        let row = match kind {
            RotationKind::X | RotationKind::Y => &self.x[q],
            RotationKind::Z | RotationKind::Phase => &self.z[q],
        };
        axis.clone_from(&row.words);
        if kind != RotationKind::Y {
            return row.sign();
        }
        // Y = i X Z. Multiplication must retain its phase before converting
        // to the canonical Hermitian word: XOR alone loses the axis sign.
        let z = &self.z[q];
        let l = axis.len() / 2;
        let crossings = row.words[l..]
            .iter()
            .zip(&z.words[..l])
            .fold(0, |acc, (a, b)| acc ^ (a & b));
        let phase = (1 + row.phase + z.phase + 2 * (crossings.count_ones() & 1) as u8) & 3;
        for (a, b) in axis.iter_mut().zip(&z.words) {
            *a ^= *b;
        }
        Row::word_sign(axis, phase)
    }

    fn apply(&mut self, gate: &Gate) {
        match *gate {
            Gate::h(q) => {
                let q = q as usize;
                std::mem::swap(&mut self.x[q], &mut self.z[q]);
            }
            Gate::x(q) => self.z[q as usize].negate(),
            Gate::z(q) => self.x[q as usize].negate(),
            Gate::y(q) => {
                self.x[q as usize].negate();
                self.z[q as usize].negate();
            }
            Gate::swap(a, b) => {
                self.x.swap(a as usize, b as usize);
                self.z.swap(a as usize, b as usize);
            }
            Gate::sx(q) => {
                self.apply(&Gate::h(q));
                self.apply(&Gate::s(q));
                self.apply(&Gate::h(q));
            }
            Gate::cy { control, target } => {
                self.apply(&Gate::sdg(target));
                self.apply(&Gate::cnot { control, target });
                self.apply(&Gate::s(target));
            }
            Gate::s(q) | Gate::sdg(q) => {
                // S† X S = -Y = i³ X Z and S X S† = Y = i X Z.
                let q = q as usize;
                self.x[q].multiply(&self.z[q]);
                let phase = if matches!(gate, Gate::s(_)) { 3 } else { 1 };
                self.x[q].phase = (self.x[q].phase + phase) & 3;
            }
            Gate::cnot { control, target } => {
                let (c, t) = (control as usize, target as usize);
                let [xc, xt] = self.x.get_disjoint_mut([c, t]).expect("distinct operands");
                xc.multiply(xt);
                let [zt, zc] = self.z.get_disjoint_mut([t, c]).expect("distinct operands");
                zt.multiply(zc); // these two rows commute
            }
            Gate::cz { control, target } => {
                let (c, t) = (control as usize, target as usize);
                self.x[c].multiply(&self.z[t]);
                self.x[t].multiply(&self.z[c]); // these two rows commute
            }
            _ => unreachable!("supported Clifford gate"),
        }
    }
}

/// The Pauli string `i^phase X^x Z^z`; `words` holds the `x` plane and then
/// the `z` plane, `l` words each.
struct Row {
    words: Vec<u64>,
    phase: u8,
}

impl Row {
    /// `X_q` if `x`, else `Z_q`.
    fn generator(l: usize, q: usize, x: bool) -> Self {
        let mut words = vec![0; 2 * l];
        let plane = if x { 0 } else { l };
        words[plane + q / 64] = 1 << (q % 64);
        Self { words, phase: 0 }
    }

    fn negate(&mut self) {
        self.phase = (self.phase + 2) & 3;
    }

    /// `self ← self · rhs`.
    fn multiply(&mut self, rhs: &Self) {
        let l = self.words.len() / 2;
        // Moving rhs's X factors left past self's Z factors flips the sign
        // once per qubit where both are set.
        let crossings = self.words[l..]
            .iter()
            .zip(&rhs.words[..l])
            .fold(0, |acc, (z, x)| acc ^ (z & x));
        self.phase = (self.phase + rhs.phase + 2 * (crossings.count_ones() & 1) as u8) & 3;
        for (a, b) in self.words.iter_mut().zip(&rhs.words) {
            *a ^= *b;
        }
    }

    /// The sign `s` with `self = s W` for the Hermitian Pauli string `W`
    /// with these planes (whose `Y = i X Z` factors carry the phase
    /// `i^|x ∧ z|`).
    fn sign(&self) -> i8 {
        Self::word_sign(&self.words, self.phase)
    }

    fn word_sign(words: &[u64], phase: u8) -> i8 {
        let (x, z) = words.split_at(words.len() / 2);
        let ys: u32 = x.iter().zip(z).map(|(x, z)| (x & z).count_ones()).sum();
        match (phase + 4 - (ys & 3) as u8) & 3 {
            0 => 1,
            2 => -1,
            _ => unreachable!("Clifford conjugation preserves Hermiticity"),
        }
    }
}

/// Physical rotation at the later gate's position. P shares the Z axis but
/// retains its native spelling; its scalar phase is irrelevant to this pass.
#[derive(Clone, Copy, Debug, PartialEq, Eq)]
enum RotationKind {
    X,
    Y,
    Z,
    Phase,
}

impl RotationKind {
    fn of(gate: &Gate) -> Option<Self> {
        match gate {
            Gate::rx(..) => Some(Self::X),
            Gate::ry(..) => Some(Self::Y),
            Gate::rz(..) | Gate::t(_) | Gate::tdg(_) => Some(Self::Z),
            Gate::p(..) => Some(Self::Phase),
            _ => None,
        }
    }

    fn gate(self, theta: crate::angle::Angle, q: u32) -> Gate {
        match self {
            Self::X => Gate::rx(theta, q),
            Self::Y => Gate::ry(theta, q),
            Self::Z => Gate::rz(theta, q),
            Self::Phase => Gate::p(theta, q),
        }
    }
}

#[derive(Clone)]
struct Angle(crate::angle::Angle);
impl Angle {
    fn of(gate: &Gate) -> Self {
        Self(crate::angle::Angle::of_gate(gate).expect("rotation gate"))
    }
    fn merge(ctx: &mut AngleContext, prior: Self, sign: i8, current: Self) -> Option<Self> {
        prior
            .0
            .merge_phases_with(ctx, sign, &current.0)
            .ok()
            .map(Self)
    }
    fn is_clifford(&self) -> bool {
        self.0.projective_quarters().is_some_and(|k| k & 1 == 0)
    }
    fn clifford_gate(&self, q: u32) -> Option<Gate> {
        match self.0.projective_quarters() {
            Some(2) => Some(Gate::s(q)),
            Some(4) => Some(Gate::z(q)),
            Some(6) => Some(Gate::sdg(q)),
            _ => None,
        }
    }
    fn emit(&self, output: &mut Circuit, q: u32, kind: RotationKind) {
        if kind == RotationKind::Z {
            self.0.emit(output, q);
        } else if !self.0.projective_identity() {
            output.apply(kind.gate(self.0.clone(), q));
        }
    }
}

#[cfg(test)]
mod rotation_tests;

pub mod judge;
