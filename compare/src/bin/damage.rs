//! Calls on arbitrary contents: every call returns, nothing outside of the words lent changes or is read, a refusal changes
//! nothing.
//!
//!     damage --calls N [--seed S]
//!     damage --batch SEED:INDEX        one batch, call by call
//!
//! A batch is one slice of words, of a kind of ../contents.rs, and some 20 calls on it, with more damage in between. The slice
//! ends where a closed page begins, or begins where one ends; so do the labels, `first` and `says`. After each call:
//! - the answer is one of those that ../../../include/tillbonnet.h lists for the call; it is 10 where a number names nothing, 3
//!   where a slice is too short, and 9 where the first five words are none that an opening writes (docs/STORE.md);
//! - on 1 to 8 and 10 no word of the store has changed, nor `first` nor `says`; a look, a read and `labels` never change a word;
//! - what a look or a read says is in its range; `first` is below the room for events;
//! - the words beside the slices are as they were: 64 on each side after each call, all of them after each batch.
//!
//! A fault or a batch of more than 10 seconds ends the run and names the batch and the call.

use compare::contents::{Contents, KINDS};
use compare::guard::{BATCH, CALL, Region, SEED, patience, watch};
use compare::random::Random;
use compare::tally::Tally;
use compare::words::Layout;
use std::process::exit;
use std::sync::atomic::Ordering::Relaxed;
use tillbonnet::raw::*;

const CALLS: [&str; 13] = [
    "tillbonnet_open", "tillbonnet_gate", "tillbonnet_turn", "tillbonnet_record", "tillbonnet_measure", "tillbonnet_reset",
    "tillbonnet_ccx", "tillbonnet_ccz", "tillbonnet_kill", "tillbonnet_clear", "tillbonnet_read", "tillbonnet_look", "tillbonnet_need",
];

/// The answers that the header lists.
const ANSWERS: [&[u32]; 12] = [
    &[0, 1, 2, 3],
    &[0, 3, 4, 5, 9, 10],
    &[0, 3, 4, 8, 9, 10],
    &[0, 3, 4, 6, 9, 10],
    &[0, 3, 4, 6, 9],
    &[0, 3, 4, 6, 9],
    &[0, 3, 4, 5, 6, 9],
    &[0, 3, 4, 5, 6, 9],
    &[0, 3, 7, 9],
    &[0, 3, 9],
    &[0, 3, 7, 9],
    &[0, 3, 4, 9, 10],
];

const OPEN: usize = 0;
const GATE: usize = 1;
const TURN: usize = 2;
const RECORD: usize = 3;
const READ: usize = 10;
const LOOK: usize = 11;
const NEED: usize = 12;

/// A call with its numbers.
#[derive(Clone, Copy, Debug)]
struct Made {
    call: usize,
    /// Gate, kind or form.
    number: u64,
    a: u64,
    b: u64,
    c: u64,
    label_words: usize,
    says_words: usize,
    /// Whether what is lent ends at a closed page or begins behind one.
    at_end: bool,
}

/// All memory that calls are lent.
struct Desk {
    store: Region,
    labels: Region,
    first: Region,
    says: Region,
    before: Vec<u64>,
}

fn main() {
    let mut args = std::env::args().skip(1);
    let (mut calls, mut seed) = (1_000_000, 1);
    watch("damage --batch");
    while let Some(arg) = args.next() {
        let mut value = || args.next().unwrap_or_else(|| usage());
        match arg.as_str() {
            "--calls" => calls = number(&value()),
            "--seed" => seed = number(&value()),
            "--batch" => {
                let value = value();
                let (seed, index) = value.split_once(':').unwrap_or_else(|| usage());
                SEED.store(number(seed), Relaxed);
                batch(&mut Desk::new(), number(seed), number(index), &mut Counts::default(), true);
                return println!("no complaint");
            }
            _ => usage(),
        }
    }
    run(calls, seed);
}

fn usage() -> ! {
    eprintln!("usage: damage --calls N [--seed S] | --batch SEED:INDEX");
    exit(2)
}

fn number(text: &str) -> u64 {
    text.replace(['_', ','], "").parse().unwrap_or_else(|_| usage())
}

/// How often each call gave each answer, and the rest.
#[derive(Default)]
struct Counts {
    answers: [[u64; 11]; 12],
    tally: Tally,
}

fn run(calls: u64, seed: u64) {
    println!("damage: {calls} calls, seed {seed}");
    SEED.store(seed, Relaxed);
    let mut counts = Counts::default();
    let mut desk = Desk::new();
    let mut index = 0;
    while counts.tally.count("calls") < calls {
        batch(&mut desk, seed, index, &mut counts, false);
        index += 1;
    }
    counts.tally.add("batches", index);
    counts.tally.print();
    let mut missing: Vec<String> = counts.tally.missing(&KINDS).into_iter().map(String::from).collect();
    println!("{:>20}{}", "answer", (0..11).map(|k| format!("{k:>9}")).collect::<String>());
    for (call, row) in counts.answers.iter().enumerate() {
        println!("{:>20}{}", CALLS[call], row.iter().map(|k| format!("{k:>9}")).collect::<String>());
        let never = ANSWERS[call].iter().filter(|&&k| row[k as usize] == 0);
        missing.extend(never.map(|k| format!("{} answers {k}", CALLS[call])));
    }
    if calls >= 500_000 && !missing.is_empty() {
        println!("NEVER MET: {}", missing.join("; "));
        exit(1);
    }
    println!("damage: nothing outside changed and every call returned, {} calls, seed {seed}", counts.tally.count("calls"));
}

/// One slice and the calls on it.
fn batch(desk: &mut Desk, seed: u64, index: u64, counts: &mut Counts, listed: bool) {
    BATCH.store(index, Relaxed);
    patience(10);
    let mut random = Random::of(seed ^ 0x6461_6d61_6765, index);
    let mut contents = Contents::draw(&mut random);
    let at_end = index.is_multiple_of(2);
    counts.tally.one(if at_end { "batch with a slice that ends at a closed page" } else { "batch with a slice that begins at one" });
    if listed {
        println!("{}, {} words, {:?}", KINDS[contents.kind], contents.words.len(), contents.at);
    }
    desk.store.lend(contents.words.len(), at_end);
    desk.put(&contents.words);
    let calls = random.from(8, 32);
    for k in 0..calls {
        CALL.store(k, Relaxed);
        if random.chance(1, 4) {
            // The words as they are now, or those that were drawn, with one more changed.
            if random.chance(1, 2) {
                contents.words.copy_from_slice(desk.store.slice());
            }
            contents.damage(&mut random);
            desk.put(&contents.words);
        }
        let made = made(&contents, &mut random);
        let answer = desk.check(&made, &mut random).unwrap_or_else(|what| {
            println!("COMPLAINT in batch {seed}:{index}, call {k}: {what}");
            println!("  {made:?} on {}, {} words", KINDS[contents.kind], contents.words.len());
            exit(1)
        });
        if listed {
            println!("{k:>4} {} {made:?} -> {answer:?}", CALLS[made.call]);
        }
        counts.tally.one("calls");
        counts.tally.one(KINDS[contents.kind]);
        match answer {
            Some(answer) => counts.answers[made.call][answer as usize] += 1,
            None => counts.tally.one("tillbonnet_need"),
        }
    }
    if !desk.blank(true) {
        println!("COMPLAINT in batch {seed}:{index}: words beside the slices have changed");
        exit(1);
    }
    patience(0);
}

/// Numbers mostly in range, so that calls get far.
fn made(contents: &Contents, random: &mut Random) -> Made {
    let (n, cap) = contents.at.map_or((2, 20), |at| (at.n as u64, at.cap as u64));
    let odd = |random: &mut Random| {
        let word = random.word();
        random.pick(&[n, n + 1, cap, cap + 1, 0, 1 << 32, 1 << 63, u64::MAX, u64::MAX - 1, 1 << 24, word, word >> 40])
    };
    let call = random.weighted(&[4, 14, 8, 16, 6, 5, 6, 6, 14, 3, 10, 20, 1]);
    let named = match call {
        GATE => 11,
        OPEN | NEED => 2,
        _ => 4,
    };
    let number = if random.chance(1, 20) { odd(random).max(named) } else { random.below(named) };
    let top = if matches!(call, 8 | READ) { cap } else { n };
    let mut any = || match random.below(12) {
        0 => odd(random),
        1 | 2 => top - 1,
        _ => random.below(top),
    };
    let (a, b, c) = (any(), any(), any());
    let says_words = if random.chance(1, 12) { random.index(4) } else { random.from(4, 6) as usize };
    let label_words = if random.chance(1, 4) { random.index(40) } else { 4 * n as usize };
    Made { call, number, a, b, c, label_words, says_words, at_end: random.chance(1, 2) }
}

impl Desk {
    fn new() -> Self {
        let (store, labels) = (Region::new(1 << 15), Region::new(1 << 10));
        Self { store, labels, first: Region::new(1), says: Region::new(8), before: Vec::new() }
    }

    /// New words in the slice that is lent.
    fn put(&mut self, words: &[u64]) {
        self.store.slice().copy_from_slice(words);
        self.before.clear();
        self.before.extend_from_slice(words);
    }

    fn blank(&mut self, all: bool) -> bool {
        self.store.blank(all) && self.labels.blank(all) && self.first.blank(all) && self.says.blank(all)
    }

    /// Makes the call and holds what it did against what is promised; its answer, if it gives one.
    fn check(&mut self, made: &Made, random: &mut Random) -> Result<Option<u32>, String> {
        if made.call == NEED {
            tillbonnet_need(made.a as usize, made.b as usize, made.number);
            return Ok(None);
        }
        self.labels.lend(made.label_words.min(1 << 10), made.at_end);
        self.labels.slice().iter_mut().for_each(|w| *w = random.word());
        let labels = self.labels.slice().to_vec();
        self.first.lend(1, made.at_end);
        self.says.lend(made.says_words, made.at_end);
        let odd = random.word();
        self.first.slice().fill(odd);
        self.says.slice().fill(odd);
        let answer = self.make(made, random);
        if !ANSWERS[made.call].contains(&answer) {
            return Err(format!("the answer is {answer}"));
        }
        if let Some(expected) = self.expected(made)
            && answer != expected
        {
            return Err(format!("the answer is {answer} and should be {expected}"));
        }
        let reads = matches!(made.call, READ | LOOK);
        let kept = reads || !matches!(answer, 0 | 9);
        let same = self.store.slice() == self.before;
        if kept && !same {
            return Err(format!("words of the store have changed, the answer is {answer}"));
        }
        self.said(made, answer, odd)?;
        if self.labels.slice() != labels {
            return Err("the labels have changed".into());
        }
        if !self.blank(false) {
            return Err("words beside the slices have changed".into());
        }
        if !same {
            self.before.copy_from_slice(self.store.slice());
        }
        Ok(Some(answer))
    }

    fn make(&mut self, made: &Made, random: &mut Random) -> u32 {
        let (s, words) = (self.store.pointer(), self.store.len());
        let first = self.first.pointer().cast::<usize>();
        let (says, says_words) = (self.says.pointer().cast::<i64>(), self.says.len());
        let (number, a, b, c) = (made.number, made.a as usize, made.b as usize, made.c as usize);
        let (labels, label_words) = (self.labels.pointer(), self.labels.len());
        // SAFETY: each pointer points to the words of its region that are lent, with their number.
        unsafe {
            match made.call {
                OPEN => {
                    let steps = random.pick(&[5, 1 << 20, (1 << 20) + 1, u64::MAX]);
                    let cap = if random.chance(3, 4) { 1 + b % 20 } else { b };
                    // Mostly as many qubits as there are labels for.
                    let n = if random.chance(3, 4) { label_words / 4 } else { a };
                    tillbonnet_open(s, words, n, cap, steps, number, labels, label_words)
                }
                GATE => tillbonnet_gate(s, words, number, a, b),
                TURN => tillbonnet_turn(s, words, number, if c % 4 == 3 { made.c } else { (made.c % 4) * 2 }, a),
                RECORD => tillbonnet_record(s, words, number, a, made.b as u32, first),
                4 => tillbonnet_measure(s, words, a, first),
                5 => tillbonnet_reset(s, words, a, first),
                6 => tillbonnet_ccx(s, words, a, b, c, first),
                7 => tillbonnet_ccz(s, words, a, b, c, first),
                8 => tillbonnet_kill(s, words, a),
                9 => tillbonnet_clear(s, words),
                READ => tillbonnet_read(s, words, a, says, says_words),
                _ => tillbonnet_look(s, words, number, a, says, says_words),
            }
        }
    }

    /// The answer where it is known for any contents: too few words for what is said, a number that names nothing, a slice
    /// shorter than its header or than word 0, a header that is none.
    fn expected(&self, made: &Made) -> Option<u32> {
        let short = self.before.len() < 14 || (self.before.len() as u64) < self.before[0];
        let unnamed = match made.call {
            GATE => made.number > 10,
            TURN | RECORD | LOOK => made.number > 3,
            _ => false,
        };
        match made.call {
            OPEN => (made.number > 1).then_some(1),
            READ if made.says_words < 3 => Some(3),
            LOOK if made.says_words < 4 => Some(3),
            _ if unnamed => Some(10),
            _ if short => Some(3),
            _ => self.headed(made.call).then_some(9),
        }
    }

    /// Whether the header, which is whole, is none that an opening writes (docs/STORE.md): sizes out of range, or a need above
    /// word 0. A gate and a turn ask for the frames only.
    fn headed(&self, call: usize) -> bool {
        let [size, n, form, cap, steps] = self.before[..5].try_into().expect("five words");
        let frames = matches!(call, GATE | TURN);
        if n == 0 || n > 23_168 {
            return true;
        }
        if !frames && (form > 1 || form == 1 && n > 32 || cap == 0 || cap > 1 << 24 || steps > 1 << 20) {
            return true;
        }
        let at = Layout::places(n as usize, if frames { 1 } else { cap as usize }, !frames && form == 1);
        size < if frames { at.numbers } else { at.end } as u64
    }

    /// What stands in `first` and `says`; `odd` stood there before.
    fn said(&mut self, made: &Made, answer: u32, odd: u64) -> Result<(), String> {
        let (first, says) = (self.first.slice()[0], self.says.slice().to_vec());
        let records = (RECORD..=7).contains(&made.call) && answer == 0;
        let cap = self.before.get(3).copied().unwrap_or(0);
        if if records { first >= cap } else { first != odd } {
            return Err(format!("first is {first:x}, was {odd:x}, the answer is {answer}"));
        }
        let written = match made.call {
            READ if answer == 0 => 3,
            LOOK if answer == 0 => 4,
            _ => 0,
        };
        let sign = |w: u64| w == 1 || w == u64::MAX;
        let fits = match written {
            3 => says[0] < 1 << 32 && sign(says[1]) && says[2] < 2,
            4 if says[0] == 1 => says[1] < cap && sign(says[2]) && says[3] <= self.before[4],
            4 => says[0] < 4 && says[1] == 0 && says[2] == 0 && says[3] <= self.before[4],
            _ => true,
        };
        if !fits || says[written..].iter().any(|&w| w != odd) {
            return Err(format!("says is {says:x?}, was {odd:x}, the answer is {answer}"));
        }
        Ok(())
    }
}
