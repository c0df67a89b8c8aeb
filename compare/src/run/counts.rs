//! What a job has met, for the summary at the end of a run. Nothing here is compared.

use super::Pair;
use oracle::judge::{Call, Clifford, Kind, Look, Reply};

impl Pair<'_> {
    /// The lists of the event that a kill names, before it.
    pub(super) fn lengths(&self, call: &Call) -> Vec<(usize, usize)> {
        let Call::Kill(id) = *call else { return Vec::new() };
        let sig = self.judge.event(id as usize).map_or(0, |e| e.signature);
        (0..64).filter(|b| sig >> b & 1 != 0).map(|b| (b, self.judge.list(b).ids.len())).collect()
    }

    pub(super) fn count_lists(&mut self, call: &Call, reply: Reply, lengths: &[(usize, usize)]) {
        let sliced = self.at.sliced;
        match (call, reply) {
            (Call::Kill(_), Reply::Done) => {
                for &(b, before) in lengths {
                    let after = self.judge.list(b).ids.len();
                    match (after < before, sliced) {
                        (false, _) => self.tally.one("list keeps a dead entry"),
                        (true, false) => self.tally.one("scalar list dropped its dead"),
                        (true, true) => self.tally.one("sliced list rebuilt"),
                    }
                    if after < before && sliced && before > 64 {
                        self.tally.one("sliced list rebuilt over a block's end");
                    }
                    if after == 0 {
                        self.tally.one("list emptied");
                    }
                }
            }
            (_, Reply::Event(first)) if sliced => {
                let sig = (first..self.judge.events()).fold(0, |s, id| s | self.judge.event(id).expect("recorded").signature);
                for b in (0..64).filter(|b| sig >> b & 1 != 0) {
                    let len = self.judge.list(b).ids.len();
                    if len.is_multiple_of(64) {
                        self.tally.one("block of 64 filled");
                    }
                    if len > 64 {
                        self.tally.one("entry in a second block");
                    }
                    self.tally.most("entries of a sliced list", len as u64);
                }
            }
            _ => (),
        }
    }

    pub(super) fn count(&mut self, call: &Call, reply: Reply) {
        self.tally.one(name(call));
        self.tally.one("calls");
        match reply {
            Reply::Refused(k) => self.count_refusal(call, k),
            Reply::Look(look) => self.count_look(call, look),
            Reply::Event(_) if self.at.l > 3 && matches!(call, Call::Record { kind: Kind::Y, .. }) => {
                self.tally.one("record of y past 192 qubits");
            }
            Reply::Done | Reply::Event(_) => (),
        }
        if let (Call::Kill(id), Reply::Done, Some(found)) = (call, reply, self.found)
            && *id == found as u64
        {
            self.tally.one("fold");
        }
    }

    fn count_refusal(&mut self, call: &Call, number: u8) {
        let left = self.at.cap - self.judge.events();
        self.tally.one(match number {
            4 => "refused 4",
            5 => "refused 5",
            6 => "refused 6",
            7 => "refused 7",
            8 => "refused 8",
            k => panic!("the original's side refuses with {k}"),
        });
        match *call {
            Call::Kill(id) => self.tally.one(match self.judge.event(id as usize) {
                None => "kill refused: no such event",
                Some(event) if event.rotation.is_none() => "kill refused: a blocker",
                Some(_) => "kill refused: dead",
            }),
            Call::Reset(_) if number == 6 && left > 0 => self.tally.one("reset refused with a place left"),
            Call::Ccx(..) | Call::Ccz(..) if number == 6 && left > 0 => self.tally.one("ccx or ccz refused with places left"),
            _ => (),
        }
    }

    /// Where the second phase of a sliced look begins in its first list: 01's slip is the block at the list's end.
    fn count_start(&mut self, kind: Kind, q: u32) {
        let (Some(id), _) = self.judge.first_phase(kind, q) else { return };
        if self.at.l > 1 {
            self.tally.one("look with a candidate past 64 qubits");
        }
        if self.at.l > 3 && kind == Kind::Y {
            self.tally.one("look for y with a candidate past 192 qubits");
        }
        let support = self.judge.event(id).map_or(0, |e| e.signature);
        if !self.at.sliced || support == 0 {
            return;
        }
        let ids = self.judge.list(support.trailing_zeros() as usize).ids;
        let start = ids.partition_point(|&other| other as usize <= id);
        if start >= 64 {
            self.tally.one("sliced look that starts in a later block");
        }
        if start == ids.len() && start.is_multiple_of(64) {
            self.tally.one("sliced look that starts at the end of a full block, nothing behind");
        }
    }

    fn count_look(&mut self, call: &Call, look: Look) {
        let Call::Look { kind, q } = *call else { return };
        let allowance = self.judge.allowance();
        self.count_start(kind, q as u32);
        match look {
            Look::Found { id, sign, steps } => {
                self.tally.one("look found");
                if sign == -1 {
                    self.tally.one("look found, sign -1");
                }
                if steps == allowance {
                    self.tally.one("look found with its last step");
                }
                if steps > 64 {
                    self.tally.one("look found past a second block or 64 steps");
                }
                let label = self.judge.axis_label(kind, q as u32);
                if self.judge.chain(label).first() != Some(&id) {
                    self.tally.one("look found, not the newest of its label");
                }
            }
            Look::None { steps } => {
                self.tally.one("look none");
                if steps > 0 {
                    self.tally.one("look none, label there");
                }
                if self.hidden(kind, q as u32) {
                    self.tally.one("look after a clear that hides a partner");
                }
            }
            Look::Blocked { .. } => self.tally.one("look blocked"),
            Look::Out { .. } => {
                self.tally.one("look out");
                let (candidate, spent) = self.judge.first_phase(kind, q as u32);
                if candidate.is_some() && spent <= allowance {
                    self.tally.one("look out in phase 2");
                }
            }
        }
        self.tally.most("steps of a look", look.steps() as u64);
    }

    /// Whether a live rotation of this axis was recorded before the last clear.
    fn hidden(&self, kind: Kind, q: u32) -> bool {
        let (axis, _) = self.judge.axis(kind, q);
        let partner = |id| {
            let event = self.judge.event(id).expect("recorded");
            event.live && event.rotation.is_some() && event.axis == axis
        };
        self.notes.cleared > 0 && (0..self.notes.cleared).any(partner)
    }
}

fn name(call: &Call) -> &'static str {
    match call {
        Call::Gate(gate) => match gate {
            Clifford::H(_) => "call h",
            Clifford::X(_) => "call x",
            Clifford::Y(_) => "call y",
            Clifford::Z(_) => "call z",
            Clifford::S(_) => "call s",
            Clifford::Sdg(_) => "call sdg",
            Clifford::Sx(_) => "call sx",
            Clifford::Cnot(..) => "call cnot",
            Clifford::Cz(..) => "call cz",
            Clifford::Cy(..) => "call cy",
            Clifford::Swap(..) => "call swap",
        },
        Call::Turn { .. } => "call turn",
        Call::Record { .. } => "call record",
        Call::Measure(_) => "call measure",
        Call::Reset(_) => "call reset",
        Call::Ccx(..) => "call ccx",
        Call::Ccz(..) => "call ccz",
        Call::Kill(_) => "call kill",
        Call::Clear => "call clear",
        Call::Look { .. } => "call look",
    }
}
