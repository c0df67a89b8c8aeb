//! What a run has met, counted, and what a run of 1,000 jobs has to have met.

use std::collections::BTreeMap;

#[derive(Default, Clone)]
pub struct Tally {
    counts: BTreeMap<&'static str, u64>,
    largest: BTreeMap<&'static str, u64>,
}

/// The features of which none may be missing from a run of 1,000 jobs or more.
pub const WANTED: &[&str] = &[
    "jobs tiny", "jobs small", "jobs wide", "jobs wider", "jobs deep sliced", "jobs deep scalar", "jobs long",
    "form scalar", "form sliced", "labels random", "labels zero", "labels few", "labels single bits", "labels same low halves",
    "labels same high words", "old words random", "old words ones", "old words small", "old words of a store", "slice longer than the need",
    "slice longer than at the opening", "steps none", "steps one", "steps few", "steps many", "steps all",
    "opening done", "opening refused 1", "opening refused 2", "opening refused 3: labels", "opening refused 3: store",
    "call h", "call x", "call y", "call z", "call s", "call sdg", "call sx", "call cnot", "call cz", "call cy", "call swap",
    "call turn", "call record", "call measure", "call reset", "call ccx", "call ccz", "call kill", "call clear", "call look", "call read",
    "call on a slice too short", "call that names nothing", "question with too few words for what it says",
    "look found", "look found, sign -1", "look found, not the newest of its label", "look none", "look none, label there", "look blocked",
    "look out", "look out in phase 2", "look found with its last step", "look found past a second block or 64 steps",
    "look after a clear that hides a partner", "fold",
    "sliced look that starts in a later block", "sliced look that starts at the end of a full block, nothing behind",
    "look with a candidate past 64 qubits", "look for y with a candidate past 192 qubits", "record of y past 192 qubits",
    "kill refused: no such event", "kill refused: a blocker", "kill refused: dead", "read refused: a blocker",
    "reset refused with a place left", "ccx or ccz refused with places left",
    "refused 4", "refused 5", "refused 6", "refused 7", "refused 8", "read refused 7", "read of a dead rotation",
    "scalar list dropped its dead", "sliced list rebuilt", "sliced list rebuilt over a block's end", "list keeps a dead entry",
    "block of 64 filled", "entry in a second block", "list emptied", "sign by a record on a copy",
    "whole store compared", "wrapper jobs", "shared buckets",
];

impl Tally {
    pub fn add(&mut self, what: &'static str, count: u64) {
        *self.counts.entry(what).or_default() += count;
    }

    pub fn one(&mut self, what: &'static str) {
        self.add(what, 1);
    }

    pub fn most(&mut self, what: &'static str, value: u64) {
        let most = self.largest.entry(what).or_default();
        *most = value.max(*most);
    }

    pub fn count(&self, what: &str) -> u64 {
        self.counts.get(what).copied().unwrap_or(0)
    }

    pub fn join(&mut self, other: &Tally) {
        for (&what, &count) in &other.counts {
            self.add(what, count);
        }
        for (&what, &value) in &other.largest {
            self.most(what, value);
        }
    }

    /// The wanted features that were never met.
    pub fn missing(&self, wanted: &[&'static str]) -> Vec<&'static str> {
        wanted.iter().copied().filter(|what| self.count(what) == 0).collect()
    }

    pub fn print(&self) {
        for (what, count) in &self.counts {
            println!("{count:>14}  {what}");
        }
        for (what, value) in &self.largest {
            println!("{value:>14}  at most: {what}");
        }
    }
}
