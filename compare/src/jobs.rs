//! Random jobs: an opening, and then operations drawn one at a time, since what comes next may depend on what a look has found.

use crate::random::Random;
use crate::run::{Old, Op, Opening};
use crate::tally::Tally;
use oracle::judge::{Call, Clifford, Form, Judge, Kind, Look, Reply};

/// The sizes of a job. Most are small, so that there can be many and the whole store can be compared after each call.
#[derive(Clone, Copy, Debug, PartialEq, Eq)]
enum Shape {
    /// 1 to 4 qubits, up to 24 events.
    Tiny,
    /// 1 to 32 qubits, up to 100 events.
    Small,
    /// 33 to 257 qubits.
    Wide,
    /// 258 to 1,500 qubits.
    Wider,
    /// Hundreds of events, so that blocks fill.
    DeepSliced,
    DeepScalar,
    /// Thousands of events.
    Long,
}

const SHAPES: [(Shape, u32, &str); 7] = [
    (Shape::Tiny, 4600, "jobs tiny"),
    (Shape::Small, 3900, "jobs small"),
    (Shape::Wide, 800, "jobs wide"),
    (Shape::Wider, 30, "jobs wider"),
    (Shape::DeepSliced, 120, "jobs deep sliced"),
    (Shape::DeepScalar, 80, "jobs deep scalar"),
    (Shape::Long, 12, "jobs long"),
];

/// How often each kind of operation comes.
#[derive(Clone, Copy)]
enum Act {
    Gate,
    Turn,
    Record,
    Look,
    /// What the pass does: a look; the partner that it finds is killed, and something is recorded.
    Fold,
    Kill,
    Measure,
    Reset,
    Toffoli,
    Clear,
    Read,
    /// A call that is refused: a qubit out of range or named twice, no turn.
    Wrong,
    Odd,
}

const ACTS: [Act; 13] = [
    Act::Gate, Act::Turn, Act::Record, Act::Look, Act::Fold, Act::Kill, Act::Measure, Act::Reset, Act::Toffoli, Act::Clear, Act::Read,
    Act::Wrong, Act::Odd,
];

/// Weights of the acts above: a bit of all; many folds; no folds; records and kills for long lists; gates alone; refusals.
const STYLES: [[u32; 13]; 7] = [
    [30, 8, 16, 14, 10, 8, 3, 2, 2, 1, 2, 4, 2],
    [20, 4, 2, 6, 60, 2, 1, 1, 0, 1, 1, 1, 1],
    [50, 10, 12, 10, 6, 2, 2, 2, 2, 0, 1, 1, 1],
    [4, 1, 50, 6, 10, 22, 2, 1, 1, 0, 1, 1, 1],
    [3, 0, 24, 10, 20, 40, 0, 0, 0, 0, 1, 1, 1],
    [90, 10, 1, 1, 0, 0, 0, 0, 0, 0, 0, 1, 0],
    [8, 4, 10, 8, 4, 10, 3, 3, 5, 4, 6, 30, 8],
];

/// Mostly kills, for jobs that record and kill by turns, so that long lists lose half of their entries.
const KILLS: [u32; 13] = [2, 0, 4, 8, 8, 75, 0, 0, 0, 0, 1, 1, 0];

/// How many operations each of these turns lasts.
const BURST: usize = 150;

pub struct Jobs {
    random: Random,
    style: [u32; 13],
    bursts: bool,
    /// The qubits that calls name; few, so that axes come again.
    active: Vec<u64>,
    /// Gates that mostly keep Z axes, so that partners are found.
    diagonal: bool,
    left: usize,
    waiting: Vec<Op>,
    /// Kind and qubit of the look of a fold, and of the last record.
    folding: Option<(Kind, u64)>,
    recorded: Option<(Kind, u64)>,
    cap: u64,
    words: usize,
}

/// The opening of a job, and what draws its operations.
pub fn job(seed: u64, index: u64, tally: &mut Tally) -> (Opening, Jobs) {
    let mut random = Random::of(seed, index);
    // The rare shapes come at fixed places besides, so that no run of 1,000 jobs is without them.
    let shape = match index % 500 {
        100 => SHAPES[3],
        150 | 200 | 250 | 300 => SHAPES[4],
        400 => SHAPES[6],
        _ => SHAPES[random.weighted(&SHAPES.map(|s| s.1))],
    };
    tally.one(shape.2);
    let opening = opening(shape.0, &mut random, tally);
    let style = STYLES[style(shape.0, &mut random)];
    let calls = match shape.0 {
        Shape::Tiny => random.from(4, 60),
        Shape::Small => random.from(10, 120),
        Shape::Wide => random.from(10, 90),
        Shape::Wider => random.from(20, 150),
        Shape::DeepSliced | Shape::DeepScalar => random.from(300, 1200),
        Shape::Long => random.from(3000, 9000),
    };
    let active = active(opening.n as u64, &mut random);
    let diagonal = random.chance(1, 2);
    let (cap, words) = (opening.cap as u64, opening.need() + opening.slack);
    let bursts = calls as usize > BURST && random.chance(1, 2);
    let (left, waiting) = (calls as usize, Vec::new());
    let jobs = Jobs { random, style, bursts, active, diagonal, left, waiting, folding: None, recorded: None, cap, words };
    (opening, jobs)
}

/// Jobs with many events need styles that record many.
fn style(shape: Shape, random: &mut Random) -> usize {
    match shape {
        Shape::DeepSliced | Shape::DeepScalar | Shape::Long => random.pick(&[0, 1, 1, 3, 3, 4]),
        _ => random.pick(&[0, 0, 1, 1, 2, 3, 4, 5, 6]),
    }
}

fn active(n: u64, random: &mut Random) -> Vec<u64> {
    let count = match random.below(4) {
        0 => 1 + random.below(n.min(3)),
        1 => 1 + random.below(n.min(8)),
        2 => 1 + random.below(n.min(40)),
        _ => return (0..n).collect(),
    };
    // Qubits at the ends of words, where planes and signatures change.
    let edges = [0, 1, 31, 32, 62, 63, 64, 65, 127, 128, 191, 192, n.saturating_sub(2), n - 1];
    let edges: Vec<u64> = edges.into_iter().filter(|&q| q < n).collect();
    let edgy = random.chance(1, 2);
    (0..count).map(|_| if edgy { random.pick(&edges) } else { random.below(n) }).collect()
}

fn opening(shape: Shape, random: &mut Random, tally: &mut Tally) -> Opening {
    let either = random.pick(&[Form::Scalar, Form::Sliced]);
    let (n, cap, form) = match shape {
        Shape::Tiny => (random.from(1, 4), random.from(1, 24), either),
        Shape::Small => (random.from(1, 32), random.from(1, 100), either),
        Shape::Wide => (random.from(33, 257), random.from(1, 60), Form::Scalar),
        Shape::Wider => (random.from(258, 1500), random.from(1, 120), Form::Scalar),
        Shape::DeepSliced => (random.from(1, 32).min(random.from(1, 32)), random.from(65, 700), Form::Sliced),
        Shape::DeepScalar => (random.from(1, 130), random.from(65, 700), Form::Scalar),
        Shape::Long => match either {
            Form::Sliced => (random.from(1, 32), random.from(1000, 6000), either),
            Form::Scalar => (random.from(1, 200), random.from(1000, 6000), either),
        },
    };
    tally.one(if form == Form::Sliced { "form sliced" } else { "form scalar" });
    let steps = steps(random, tally);
    let labels = labels(n as usize, random, tally);
    let old = old(random, tally);
    let slack = if random.chance(1, 5) { random.from(1, 70) as usize } else { 0 };
    let extra = if random.chance(1, 5) { random.from(1, 9) as usize } else { 0 };
    if slack > 0 {
        tally.one("slice longer than the need");
    }
    if extra > 0 {
        tally.one("slice longer than at the opening");
    }
    Opening { n: n as usize, cap: cap as usize, steps, form, labels, old, slack, extra, seed: random.word() }
}

/// Tight allowances are the ones at which looks run out, or spend just what they have.
fn steps(random: &mut Random, tally: &mut Tally) -> u64 {
    let (steps, what) = match random.weighted(&[3, 3, 15, 20, 25, 34]) {
        0 => (0, "steps none"),
        1 => (1, "steps one"),
        2 => (random.from(2, 8), "steps few"),
        3 => (random.from(2, 80), "steps few"),
        4 => (random.from(81, (1 << 20) - 1), "steps many"),
        _ => (1 << 20, "steps all"),
    };
    tally.one(what);
    steps
}

fn labels(n: usize, random: &mut Random, tally: &mut Tally) -> Vec<u64> {
    let which = random.weighted(&[40, 15, 15, 10, 10, 10]);
    tally.one(
        ["labels random", "labels zero", "labels few", "labels single bits", "labels same low halves", "labels same high words"][which],
    );
    let pool: [u64; 3] = [random.word(), random.word(), 0];
    let shared = random.word();
    (0..4 * n)
        .map(|k| {
            let word = random.word();
            match which {
                0 => word,
                1 => 0,
                2 => random.pick(&pool),
                // One bit of the 256 of a qubit's two labels.
                3 => if (word >> 8) % 2 == (k % 2) as u64 { 1 << (word % 64) } else { 0 },
                // The low half of the low word decides the bucket.
                4 => if k % 2 == 1 { word << 32 | shared >> 32 } else { word },
                // Only the low words differ, and little.
                _ => if k % 2 == 0 { shared } else { word % 4 },
            }
        })
        .collect()
}

fn old(random: &mut Random, tally: &mut Tally) -> Old {
    let (old, what) = match random.weighted(&[5, 1, 2, 2]) {
        0 => (Old::Random, "old words random"),
        1 => (Old::Ones, "old words ones"),
        2 => (Old::Small, "old words small"),
        _ => (Old::Store, "old words of a store"),
    };
    tally.one(what);
    old
}

pub fn gate(number: u64, a: u64, b: u64) -> Clifford {
    match number {
        0 => Clifford::H(a),
        1 => Clifford::X(a),
        2 => Clifford::Y(a),
        3 => Clifford::Z(a),
        4 => Clifford::S(a),
        5 => Clifford::Sdg(a),
        6 => Clifford::Sx(a),
        7 => Clifford::Cnot(a, b),
        8 => Clifford::Cz(a, b),
        9 => Clifford::Cy(a, b),
        _ => Clifford::Swap(a, b),
    }
}

impl Jobs {
    /// The next operation, given what the last one gave back.
    pub fn next(&mut self, judge: &Judge, last: Option<Reply>) -> Option<Op> {
        if let Some((kind, q)) = self.folding.take() {
            self.after_look(kind, q, last);
        }
        if let Some((kind, q)) = self.recorded.take() {
            self.after_record(kind, q, judge, last);
        }
        if let Some(op) = self.waiting.pop() {
            return Some(op);
        }
        self.left = self.left.checked_sub(1)?;
        let style = if self.bursts && (self.left / BURST).is_multiple_of(2) { &KILLS } else { &self.style };
        let act = ACTS[self.random.weighted(style)];
        Some(self.draw(act, judge))
    }

    /// 352 to 382 of the original: the partner dies, and the merged rotation is recorded, or a Clifford one turns the frame.
    fn after_look(&mut self, kind: Kind, q: u64, last: Option<Reply>) {
        match last {
            Some(Reply::Look(Look::Found { id, .. })) => {
                let merged = match self.random.below(4) {
                    0 => Some(Op::Call(self.turn(kind, q))),
                    1 => None,
                    _ => Some(self.record(kind, q)),
                };
                self.waiting.extend(merged);
                self.waiting.push(Op::Call(Call::Kill(id as u64)));
            }
            Some(Reply::Look(_)) => {
                let record = self.record(kind, q);
                self.waiting.push(record);
            }
            _ => (),
        }
    }

    /// A look for what was just recorded, where it has come to the end of a block of 64 or to the begin of one, and for an axis y
    /// of many qubits.
    fn after_record(&mut self, kind: Kind, q: u64, judge: &Judge, last: Option<Reply>) {
        let Some(Reply::Event(id)) = last else { return };
        let support = judge.event(id).map_or(0, |e| e.signature);
        let edge = |b: &usize| matches!(judge.list(*b).ids.len() % 64, 63 | 0 | 1);
        let at_edge = (0..judge.lists()).filter(|b| support >> b & 1 != 0).any(|b| judge.list(b).ids.len() > 60 && edge(&b));
        let wide_y = judge.qubits() > 192 && kind == Kind::Y;
        if (at_edge || wide_y) && self.random.chance(3, 4) {
            self.waiting.push(Op::Call(Call::Look { kind, q }));
        }
    }

    fn turn(&mut self, kind: Kind, q: u64) -> Call {
        Call::Turn { k: self.random.pick(&[0, 2, 4, 6]), kind, q }
    }

    fn record(&mut self, kind: Kind, q: u64) -> Op {
        let word = self.random.word() as u32;
        let tag = self.random.pick(&[0, 1, u32::MAX, word, word, word]);
        self.recorded = Some((kind, q));
        Op::Call(Call::Record { kind, q, tag })
    }

    fn qubit(&mut self) -> u64 {
        self.random.pick(&self.active)
    }

    /// Two qubits; the second may be any, so that axes spread.
    fn two(&mut self, n: u64) -> (u64, u64) {
        let a = self.qubit();
        let b = if self.random.chance(1, 4) { self.random.below(n) } else { self.qubit() };
        if a == b && n > 1 { (a, (b + 1 + self.random.below(n - 1)) % n) } else { (a, b) }
    }

    fn draw(&mut self, act: Act, judge: &Judge) -> Op {
        let n = judge.qubits() as u64;
        let flat = self.diagonal && self.random.chance(3, 4);
        let kind = if flat { self.random.pick(&[Kind::Z, Kind::P]) } else { self.random.pick(&Kind::ALL) };
        let q = self.qubit();
        match act {
            Act::Gate => Op::Call(Call::Gate(self.gate(n))),
            Act::Turn => Op::Call(self.turn(kind, q)),
            Act::Record => self.record(kind, q),
            Act::Look => Op::Call(Call::Look { kind, q }),
            Act::Fold => {
                self.folding = Some((kind, q));
                Op::Call(Call::Look { kind, q })
            }
            Act::Kill => Op::Call(Call::Kill(self.event(judge))),
            Act::Measure => Op::Call(Call::Measure(q)),
            Act::Reset => Op::Call(Call::Reset(q)),
            Act::Toffoli => {
                let ((a, b), t) = (self.two(n), self.random.below(n));
                Op::Call(if self.random.chance(1, 2) { Call::Ccx(a, b, t) } else { Call::Ccz(a, b, t) })
            }
            Act::Clear => Op::Call(Call::Clear),
            Act::Read => Op::Read(self.event(judge)),
            Act::Wrong => Op::Call(self.wrong(n)),
            Act::Odd => self.odd(n, judge),
        }
    }

    fn gate(&mut self, n: u64) -> Clifford {
        let (a, b) = self.two(n);
        let calm: [u64; 8] = [1, 3, 4, 5, 7, 7, 8, 10];
        let number = if self.diagonal && self.random.chance(4, 5) { self.random.pick(&calm) } else { self.random.below(11) };
        gate(number, a, b)
    }

    /// An event: any, a recent one, or none.
    fn event(&mut self, judge: &Judge) -> u64 {
        let events = judge.events() as u64;
        match self.random.below(16) {
            0..3 if events > 0 => self.random.below(events),
            3..8 if events > 0 => {
                // The first live one from somewhere on.
                let from = self.random.below(events);
                let live = |id: &u64| judge.event(*id as usize).is_some_and(|e| e.live && e.rotation.is_some());
                (from..events).chain(0..from).find(live).unwrap_or(from)
            }
            8..14 if events > 0 => events - 1 - self.random.below(events.min(6)),
            14 => self.random.pick(&[events, events + 1, self.cap, self.cap + 1, u64::MAX, 1 << 32, 1 << 63]),
            _ => self.random.below(events + 2),
        }
    }

    /// A qubit that is not there: just past, or one that is there but for bits above 32.
    fn nowhere(&mut self, n: u64) -> u64 {
        let inside = self.random.below(n);
        self.random.pick(&[n, n + 1, n + 63, inside | 1 << 32, inside | 1 << 63, u64::MAX, u64::MAX - inside])
    }

    fn wrong(&mut self, n: u64) -> Call {
        let (q, bad) = (self.qubit(), self.nowhere(n));
        let other = self.random.below(n);
        let kind = self.random.pick(&Kind::ALL);
        let (number, two) = (self.random.below(11), self.random.from(7, 10));
        match self.random.below(14) {
            0 => Call::Gate(gate(number, bad, q)),
            1 => Call::Gate(gate(two, q, bad)),
            2 => Call::Gate(gate(two, q, q)),
            3 => Call::Gate(gate(two, bad, bad)),
            4 => Call::Turn { k: self.random.pick(&[1, 3, 5, 7, 8, 10, 2 | 1 << 32, u64::MAX]), kind, q },
            5 => Call::Turn { k: self.random.pick(&[0, 2, 9]), kind, q: bad },
            6 => Call::Record { kind, q: bad, tag: 1 },
            7 => Call::Look { kind, q: bad },
            8 => Call::Measure(bad),
            9 => Call::Reset(bad),
            10 => Call::Ccx(q, q, other),
            11 => Call::Ccz(q, other, q),
            12 => Call::Ccx(other, q, q),
            _ => self.toffoli_nowhere(q, other, bad),
        }
    }

    fn toffoli_nowhere(&mut self, q: u64, other: u64, bad: u64) -> Call {
        match self.random.below(4) {
            0 => Call::Ccx(bad, q, other),
            1 => Call::Ccx(q, bad, other),
            2 => Call::Ccz(q, other, bad),
            _ => Call::Ccz(bad, bad, q),
        }
    }

    /// A call on a slice that is too short, or with too few words for what it says, or one whose number names nothing.
    fn odd(&mut self, n: u64, judge: &Judge) -> Op {
        if self.random.chance(1, 4) {
            let (kind, q) = (self.random.pick(&Kind::ALL), self.random.below(n + 1));
            return Op::Mute { kind, q, id: self.event(judge), says: self.random.index(4) };
        }
        if self.random.chance(1, 2) {
            let any = self.random.index(self.words);
            let words = self.random.pick(&[0, 1, 13, 14, any, self.words - 1, self.words - 1]);
            let act = self.random.pick(&[
                Act::Gate, Act::Turn, Act::Record, Act::Look, Act::Kill, Act::Measure, Act::Reset, Act::Toffoli, Act::Clear, Act::Wrong,
            ]);
            let Op::Call(call) = self.draw(act, judge) else { unreachable!("these acts are calls") };
            return Op::Short(call, words);
        }
        let which = self.random.below(4);
        let first = if which == 0 { 11 } else { 4 };
        let word = self.random.word();
        let number = self.random.pick(&[first, first + 1, 1 << 32, 1 << 63, u64::MAX, word.max(first)]);
        Op::Unnamed { which, number, q: self.random.below(n + 1) }
    }
}
