//! What a job covers. Most of it is seen while the job runs; what its text alone shows (which line is bad, and how) is claimed by
//! the job's maker. A job counts once for each feature.

use std::collections::{BTreeMap, BTreeSet};

use oracle::judge::{Call, Clifford, Form, Judge, Look, Reply};

use crate::draft::{gate_name, letter};

/// What is remembered of a job while it runs.
#[derive(Default)]
pub struct Watch {
    pub seen: BTreeSet<String>,
    /// The call that recorded each event.
    origins: Vec<&'static str>,
    /// The lists before the present call, and the events dropped from each so far.
    lists: Vec<Vec<u32>>,
    dropped: Vec<Vec<u32>>,
    killed: Vec<Vec<u64>>,
    /// The events there were at the last clear.
    cleared: usize,
}

impl Watch {
    pub fn call(&mut self, judge: &mut Judge, call: &Call, reply: &Reply) {
        self.see(format!("form {}", form(judge)));
        self.see(format!("qubits {}", judge.qubits()));
        self.see(format!("qubits {} {}", judge.qubits(), form(judge)));
        self.events(judge, call);
        match *reply {
            Reply::Refused(k) => self.refused(judge, call, k),
            Reply::Look(look) => self.look(judge, call, look),
            Reply::Done | Reply::Event(_) => self.done(judge, call),
        }
        self.lists(judge, call);
    }

    fn see(&mut self, feature: impl Into<String>) {
        self.seen.insert(feature.into());
    }

    fn events(&mut self, judge: &Judge, call: &Call) {
        self.origins.resize(judge.events(), name(call));
        if judge.events() == judge.capacity() && judge.capacity() == 48 {
            self.see(format!("48 events {}", form(judge)));
        }
    }

    fn done(&mut self, judge: &Judge, call: &Call) {
        match *call {
            Call::Gate(gate) => self.see(format!("gate {}", gate_name(gate))),
            Call::Turn { k, kind, .. } => self.see(format!("turn {k} {}", letter(kind))),
            Call::Record { kind, .. } => self.see(format!("record {}", letter(kind))),
            Call::Kill(id) => {
                let event = judge.event(id as usize).expect("it was killed");
                self.killed.push(event.axis.to_vec());
            }
            Call::Clear => self.cleared = judge.events(),
            _ => {}
        }
        self.see(format!("{} {}", name(call), form(judge)));
    }

    /// Each number by each call, and which of two reasons came first.
    fn refused(&mut self, judge: &Judge, call: &Call, k: u8) {
        self.see(format!("answer {k} {}", name(call)));
        let (n, events, capacity) = (judge.qubits() as u64, judge.events(), judge.capacity());
        let full = |k: usize| events + k > capacity;
        match (*call, k) {
            (Call::Turn { q, .. }, 8) if q >= n => self.see("8 before 4"),
            (Call::Gate(gate), 4) if twice(&gate.qubits()) => self.see("4 before 5"),
            (Call::Ccx(a, b, c) | Call::Ccz(a, b, c), 4) => {
                if twice(&[a, b, c]) {
                    self.see("4 before 5");
                }
                if full(7) {
                    self.see("4 before 6");
                }
            }
            (Call::Ccx(..) | Call::Ccz(..), 5) if full(7) => self.see("5 before 6"),
            (Call::Record { .. } | Call::Measure(_), 4) if full(1) => self.see("4 before 6"),
            (Call::Reset(_), 4) if full(2) => self.see("4 before 6"),
            (Call::Reset(_), 6) if !full(1) => self.see("reset with one place left"),
            (Call::Ccx(..) | Call::Ccz(..), 6) if !full(6) => self.see("ccx or ccz with six places left"),
            (Call::Kill(id), 7) => match judge.event(id as usize) {
                None => self.see("kill of no event"),
                Some(e) if e.rotation.is_none() => self.see("kill of a blocker"),
                Some(_) => self.see("kill of a dead rotation"),
            },
            _ => {}
        }
    }

    fn look(&mut self, judge: &mut Judge, call: &Call, look: Look) {
        let Call::Look { kind, q } = *call else { unreachable!("only a look looks") };
        let (form, allowance) = (form(judge), judge.allowance());
        let (axis, _) = judge.axis(kind, q as u32);
        let first = judge.first_phase(kind, q as u32);
        self.see(format!("look {} {form}", word(look)));
        self.see(format!("look {}", letter(kind)));
        if self.killed.contains(&axis) {
            self.see(format!("killed axis looked for again {form}"));
        }
        if let Look::Out { steps } = look {
            let phase = if first.1 > allowance { 1 } else { 2 };
            self.see(format!("out in phase {phase} {form}"));
            if steps < allowance {
                self.see("out with steps left that do not pay for a block");
            }
        } else if look.steps() == allowance && allowance > 0 {
            self.see(format!("the last step spent, {} {form}", word(look)));
        }
        self.answer(judge, look, first, &axis);
    }

    /// What is behind the answer; `first` is what the first phase found and spent.
    fn answer(&mut self, judge: &Judge, look: Look, first: (Option<usize>, usize), axis: &[u64]) {
        let form = form(judge);
        match look {
            Look::None { steps } => {
                if steps > 0 {
                    self.see(format!("none, though the label is there {form}"));
                }
                if (0..self.cleared).any(|id| same(judge, id, axis)) {
                    self.see(format!("none because of a clear {form}"));
                }
            }
            Look::Found { id, sign, .. } => {
                self.see(format!("sign {sign} {form}"));
                if first.1 > 1 {
                    self.see(format!("found behind another axis of its label {form}"));
                }
                if self.cleared > 0 {
                    self.see(format!("found after a clear {form}"));
                }
                self.found(judge, id, axis);
            }
            Look::Blocked { .. } => {
                let by = first.0.and_then(|id| in_the_way(judge, id, axis)).expect("blocked");
                self.see(format!("blocked by {} {form}", self.origins[by]));
            }
            Look::Out { .. } => {}
        }
    }

    /// What the steps of a found look show of the lists.
    fn found(&mut self, judge: &Judge, id: usize, axis: &[u64]) {
        let later = |ids: &[u32], live: bool| {
            let is = |e: usize| judge.event(e).is_some_and(|e| e.live == live);
            ids.iter().any(|&e| e as usize > id && is(e as usize))
        };
        let support = axis[0] | axis[1];
        for bit in (0..judge.lists()).filter(|b| support >> b & 1 != 0) {
            let list = judge.list(bit);
            if judge.form() == Form::Scalar {
                if later(list.ids, false) {
                    self.see("scalar: a dead entry costs a step");
                }
                if later(&self.dropped[bit], false) {
                    self.see("scalar: dropped entries cost none");
                }
            } else {
                if list.dead > 0 {
                    self.see("sliced: a look over a list with dead entries");
                }
                if !self.dropped[bit].is_empty() {
                    self.see("sliced: a look over a list made again");
                }
            }
            if later(list.ids, true) {
                self.see(format!("found over later live events {}", form(judge)));
            }
        }
    }

    /// Compares the lists with those before the call.
    fn lists(&mut self, judge: &Judge, call: &Call) {
        let now: Vec<Vec<u32>> = (0..judge.lists()).map(|b| judge.list(b).ids.to_vec()).collect();
        self.dropped.resize(now.len(), Vec::new());
        self.lists.resize(now.len(), Vec::new());
        for bit in 0..now.len() {
            let before = std::mem::replace(&mut self.lists[bit], now[bit].clone());
            let gone: Vec<u32> = before.into_iter().filter(|id| !now[bit].contains(id)).collect();
            if !gone.is_empty() {
                assert!(matches!(call, Call::Kill(_)), "only a kill drops entries");
                self.see(format!("a list drops its dead {}", form(judge)));
                if gone.len() > 1 {
                    self.see(format!("a list drops several dead {}", form(judge)));
                }
            }
            self.dropped[bit].extend(gone);
            if judge.list(bit).dead > 0 {
                self.see(format!("a list keeps its dead {}", form(judge)));
            }
        }
    }
}

fn form(judge: &Judge) -> &'static str {
    match judge.form() {
        Form::Scalar => "scalar",
        Form::Sliced => "sliced",
    }
}

fn name(call: &Call) -> &'static str {
    match call {
        Call::Gate(Clifford::Cnot(..) | Clifford::Cz(..) | Clifford::Cy(..) | Clifford::Swap(..)) => "gate2",
        Call::Gate(_) => "gate1",
        Call::Turn { .. } => "turn",
        Call::Record { .. } => "record",
        Call::Measure(_) => "measure",
        Call::Reset(_) => "reset",
        Call::Ccx(..) => "ccx",
        Call::Ccz(..) => "ccz",
        Call::Kill(_) => "kill",
        Call::Clear => "clear",
        Call::Look { .. } => "look",
    }
}

fn word(look: Look) -> &'static str {
    match look {
        Look::Found { .. } => "found",
        Look::None { .. } => "none",
        Look::Blocked { .. } => "blocked",
        Look::Out { .. } => "out",
    }
}

fn twice(qubits: &[u64]) -> bool {
    qubits.iter().enumerate().any(|(i, q)| qubits[..i].contains(q))
}

/// Whether event `id` is a live rotation with this axis.
fn same(judge: &Judge, id: usize, axis: &[u64]) -> bool {
    judge.event(id).is_some_and(|e| e.live && e.rotation.is_some() && e.axis == axis)
}

/// The first later live event that anticommutes with the axis.
fn in_the_way(judge: &Judge, after: usize, axis: &[u64]) -> Option<usize> {
    (after + 1..judge.events()).find(|&id| {
        let e = judge.event(id).expect("below the number of events");
        let odd = ((e.axis[0] & axis[1]).count_ones() + (e.axis[1] & axis[0]).count_ones()) % 2;
        e.live && odd == 1
    })
}

/// The features that must be there, each with the least number of jobs.
#[derive(Default)]
struct Wanted(Vec<(String, usize)>);

impl Wanted {
    fn all() -> Self {
        let mut wanted = Self::default();
        wanted.searches("scalar");
        wanted.searches("sliced");
        wanted.calls();
        wanted.refusals();
        wanted.texts();
        for place in ["header", "label", "operation"] {
            wanted.bad_lines(place);
        }
        wanted
    }

    fn want(&mut self, least: usize, names: &[&str]) {
        self.0.extend(names.iter().map(|n| (n.to_string(), least)));
    }

    /// Each of the names followed by a space and `last`.
    fn each(&mut self, least: usize, last: &str, names: &[&str]) {
        self.0.extend(names.iter().map(|n| (format!("{n} {last}"), least)));
    }

    fn searches(&mut self, form: &str) {
        for n in (1..=8).chain([31, 32]) {
            self.want(1, &[&format!("qubits {n} {form}")]);
        }
        self.each(20, form, &["form", "look found", "look none", "look blocked", "look out", "sign 1", "sign -1"]);
        self.each(20, form, &["found over later live events"]);
        for word in ["found", "none", "blocked"] {
            self.each(3, form, &[&format!("the last step spent, {word}")]);
        }
        self.each(10, form, &["gate1", "gate2", "turn", "record", "measure", "reset", "kill", "clear"]);
        self.each(5, form, &["ccx", "ccz", "out in phase 1", "out in phase 2"]);
        self.each(3, form, &["48 events"]);
        for by in ["record", "measure", "reset", "ccx", "ccz"] {
            self.each(3, form, &[&format!("blocked by {by}")]);
        }
        self.each(5, form, &["found behind another axis of its label", "none, though the label is there"]);
        self.each(5, form, &["none because of a clear", "found after a clear", "killed axis looked for again"]);
        self.each(5, form, &["a list drops its dead", "a list drops several dead", "a list keeps its dead"]);
    }

    fn calls(&mut self) {
        for n in 1..=32 {
            self.want(1, &[&format!("qubits {n}")]);
        }
        for kind in ["x", "y", "z", "p"] {
            self.each(10, kind, &["record", "look"]);
            self.each(3, kind, &["turn 0", "turn 2", "turn 4", "turn 6"]);
        }
        for gate in ["h", "x", "y", "z", "s", "sdg", "sx", "cnot", "cz", "cy", "swap"] {
            self.each(20, gate, &["gate"]);
        }
        self.want(5, &["scalar: a dead entry costs a step", "scalar: dropped entries cost none"]);
        self.want(5, &["sliced: a look over a list with dead entries", "sliced: a look over a list made again"]);
        self.want(5, &["out with steps left that do not pay for a block"]);
        self.want(10, &["labels Random", "labels Few", "labels Equal", "labels Zero", "by hand"]);
    }

    fn refusals(&mut self) {
        for call in ["gate1", "gate2", "turn", "record", "measure", "reset", "ccx", "ccz", "look"] {
            self.each(2, call, &["answer 4"]);
        }
        self.want(2, &["answer 5 gate2", "answer 5 ccx", "answer 5 ccz", "answer 8 turn"]);
        self.want(2, &["answer 6 record", "answer 6 measure", "answer 6 reset", "answer 6 ccx", "answer 6 ccz"]);
        self.want(2, &["reset with one place left", "ccx or ccz with six places left"]);
        self.want(3, &["kill of no event", "kill of a blocker", "kill of a dead rotation"]);
        self.want(2, &["8 before 4", "4 before 5", "4 before 6", "5 before 6"]);
        self.want(2, &["open=1 for qubits=0", "open=1 for steps too large", "open=1 for steps past 32 bits", "open=2"]);
        self.want(1, &["open=1 before open=2", "bad label before open", "nothing is read after open"]);
    }

    fn texts(&mut self) {
        self.want(5, &["text: legal edge"]);
        self.want(10, &["bad header", "bad label", "bad operation", "bad with answers before it"]);
        self.want(3, &["input ends in the header", "input ends in the labels", "no newline at the end"]);
        self.want(1, &["empty input", "no operations", "more than 255 lines"]);
        let header = ["qubits=33", "events=49", "qubits of 10 digits", "events of 10 digits", "unknown form", "past 32 bits"];
        self.bad("header", &header);
        self.bad("label", &["fields in another order", "capital hex", "31 hex digits", "33 hex digits", "not hex"]);
        self.bad("label", &["number too large", "number past 32 bits", "an operation"]);
        self.bad("operation", &["fields in another order", "tag past 32 bits", "tag of 11 digits", "bad before refused"]);
        self.bad("operation", &["one qubit too few", "one qubit too many", "unknown gate", "unknown kind", "unknown call"]);
        self.bad("operation", &["clear=some", "header line again", "labels again", "another separator"]);
    }

    /// What can be wrong at any place.
    fn bad_lines(&mut self, place: &str) {
        self.want(1, &[&format!("no newline at the end: {place}")]);
        self.bad(place, &["unknown key", "missing field", "extra field", "out of order", "blank line"]);
        self.bad(place, &["leading space", "trailing space", "inner space", "CR", "tab", "capitals"]);
        self.bad(place, &["leading zero", "empty number", "sign before a number", "11 digits"]);
        self.bad(place, &["byte above 127", "NUL", "80 bytes", "81 bytes", "long line", "long line without newline"]);
    }

    fn bad(&mut self, place: &str, what: &[&str]) {
        self.0.extend(what.iter().map(|w| (format!("bad {place}: {w}"), 1)));
    }
}

/// The table, and the features that are covered too seldom.
pub fn table(jobs: &[BTreeSet<String>]) -> (String, Vec<String>) {
    let mut counts: BTreeMap<&str, usize> = BTreeMap::new();
    for feature in jobs.iter().flatten() {
        *counts.entry(feature).or_default() += 1;
    }
    let (mut text, mut missing) = (String::from("jobs\tat least\tfeature\n"), Vec::new());
    for (feature, least) in Wanted::all().0 {
        let count = counts.remove(feature.as_str()).unwrap_or(0);
        text += &format!("{count}\t{least}\t{feature}\n");
        if count < least {
            missing.push(format!("{feature}: {count} jobs, {least} wanted"));
        }
    }
    for (feature, count) in counts {
        text += &format!("{count}\t-\t{feature}\n");
    }
    (text, missing)
}
