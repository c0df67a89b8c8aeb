//! The same random jobs with the same labels on the original Rust and on our library, compared after every call (../run.rs says
//! what and when). Exit 1 on a difference, or where a run of 1,000 jobs has missed a feature (../tally.rs).
//!
//!     compare --jobs N [--seed S] [--quick]
//!     compare --job SEED:INDEX                 one job, call by call
//!     compare --pair INDEX                     one job of the pairs of gates, call by call
//!     compare --widest                         one job of 23,168 qubits, the most there can be (takes some 1 GB)
//!
//! `--quick` leaves out three of four jobs of the pairs of gates. A fault, a panic or a random job of more than 60 seconds
//! ends the run and names the job; one job or pair by itself runs without that watch.

use compare::guard::{BATCH, SEED, patience, watch};
use compare::random::Random;
use compare::run::{Difference, How, Old, Op, Opening, Pair, open_raw, rows};
use compare::shrink::{replay, shrink};
use compare::tally::{Tally, WANTED};
use compare::{jobs, openings, pairs};
use oracle::judge::{Call, Clifford, Form, Kind, Reply};
use std::process::exit;
use std::sync::atomic::Ordering::Relaxed;

/// Every so many jobs one is done again through the safe wrapper.
const WRAPPED: u64 = 50;

fn main() {
    let mut args = std::env::args().skip(1);
    let (mut count, mut seed, mut quick) = (10_000, 1, false);
    while let Some(arg) = args.next() {
        let mut value = || args.next().unwrap_or_else(|| usage());
        match arg.as_str() {
            "--jobs" => count = number(&value()),
            "--seed" => seed = number(&value()),
            "--quick" => quick = true,
            "--job" => {
                let value = value();
                let (seed, index) = value.split_once(':').unwrap_or_else(|| usage());
                return listed(number(seed), number(index));
            }
            "--pair" => return listed_pair(number(&value())),
            "--widest" => return widest(),
            _ => usage(),
        }
    }
    watch("compare --job");
    SEED.store(seed, Relaxed);
    let usual = std::panic::take_hook();
    std::panic::set_hook(Box::new(move |info| {
        println!("PANIC in job {}:{}, or in the pairs of gates if that is the first", SEED.load(Relaxed), BATCH.load(Relaxed));
        usual(info);
    }));
    run(count, seed, quick);
}

fn usage() -> ! {
    eprintln!("usage: compare --jobs N [--seed S] [--quick] | --job SEED:INDEX | --pair INDEX | --widest");
    exit(2)
}

fn number(text: &str) -> u64 {
    text.replace(['_', ','], "").parse().unwrap_or_else(|_| usage())
}

fn run(count: u64, seed: u64, quick: bool) {
    println!("compare: {count} jobs, seed {seed}");
    let mut tally = Tally::default();
    let whole = pairs::count();
    for index in 0..whole {
        if quick && index % 4 != Random::of(seed, index / 4).below(4) {
            continue;
        }
        let (opening, ops) = pairs::job(index);
        tally.one("jobs of pairs of gates");
        if let Err((at, d)) = replay(&opening, &ops, How::Always, false, &mut tally) {
            report(&format!("--pair {index}"), &opening, &ops[..at], false, &d);
        }
    }
    for index in 0..count {
        BATCH.store(index, Relaxed);
        patience(60);
        tally.one("jobs");
        if let Err(d) = openings::check(seed, index, &mut tally) {
            println!("DIFFERENCE at an opening (seed {seed}, number {index}): {}: ours {}, rust {}", d.what, d.ours, d.rust);
            exit(1);
        }
        let (opening, ops, result) = one(seed, index, &mut tally, |_, _, _| ());
        if let Err(d) = result {
            report(&format!("--job {seed}:{index}"), &opening, &ops, false, &d);
        }
        if index % WRAPPED == 0 {
            tally.one("wrapper jobs");
            if let Err((at, d)) = replay(&opening, &ops, How::AtIntervals, true, &mut Tally::default()) {
                report(&format!("--job {seed}:{index}"), &opening, &ops[..at], true, &d);
            }
        }
    }
    patience(0);
    tally.print();
    let missing = tally.missing(WANTED);
    if count >= 1000 && !missing.is_empty() {
        println!("NEVER MET: {}", missing.join("; "));
        exit(1);
    }
    println!("compare: no difference in {count} jobs, seed {seed}");
}

/// A job as it is drawn; `see` is shown each operation with the reply.
fn one(
    seed: u64,
    index: u64,
    tally: &mut Tally,
    mut see: impl FnMut(&Pair, &Op, Option<Reply>),
) -> (Opening, Vec<Op>, Result<(), Difference>) {
    let (opening, mut source) = jobs::job(seed, index, tally);
    let mut ops = Vec::new();
    let mut raw = match open_raw(&opening) {
        Ok(raw) => raw,
        Err(d) => return (opening, ops, Err(d)),
    };
    let mut pair = match Pair::new(&opening, &mut raw, tally, How::AtIntervals) {
        Ok(pair) => pair,
        Err(d) => return (opening, ops, Err(d)),
    };
    let mut last = None;
    while let Some(op) = source.next(&pair.judge, last) {
        ops.push(op);
        match pair.step(&op) {
            Ok(reply) => last = reply,
            Err(d) => return (opening, ops, Err(d)),
        }
        see(&pair, &op, last);
    }
    let result = pair.finish();
    (opening, ops, result)
}

/// What differs, how to see it again, and a smaller job with a difference.
fn report(again: &str, opening: &Opening, ops: &[Op], wrapped: bool, d: &Difference) -> ! {
    println!("DIFFERENCE{} at call {}: compare {again}", if wrapped { " in the wrapper" } else { "" }, ops.len());
    println!("  {}: ours {}, rust {}", d.what, d.ours, d.rust);
    // Shrinking has its own limit; a hang in it should still end.
    patience(120);
    let (small, few, found) = shrink(opening, ops, wrapped, 20);
    match found {
        None => println!("  it does not come again when the calls are made from a list"),
        Some((at, d)) => {
            println!("  a smaller job, {} operations:", few.len());
            println!("  {}", text(&small));
            let from = few.len().saturating_sub(60);
            for (k, op) in few.iter().enumerate().skip(from) {
                println!("  {:>4} {op:?}", k + 1);
            }
            println!("  at {at}: {}: ours {}, rust {}", d.what, d.ours, d.rust);
        }
    }
    exit(1)
}

fn text(o: &Opening) -> String {
    let labels = if o.n <= 4 { format!("{:x?}", o.labels) } else { format!("{} words", o.labels.len()) };
    format!(
        "open n={} form={:?} events={} steps={} old={:?} slack={} extra={} labels={labels}",
        o.n, o.form, o.cap, o.steps, o.old, o.slack, o.extra
    )
}

fn listed(seed: u64, index: u64) {
    println!("{}", text(&jobs::job(seed, index, &mut Tally::default()).0));
    let mut k = 0;
    let (opening, ops, result) = one(seed, index, &mut Tally::default(), |pair, op, reply| {
        k += 1;
        println!("{k:>5} {op:?} -> {reply:?}");
        if let (Op::Call(Call::Gate(gate)), Some(Reply::Done), true) = (op, reply, pair.judge.qubits() <= 64) {
            gate.qubits().iter().for_each(|&q| println!("      {}", rows(&pair.judge, q as usize)));
        }
    });
    match result {
        Ok(()) => println!("no difference"),
        Err(d) => report(&format!("--job {seed}:{index}"), &opening, &ops, false, &d),
    }
}

fn listed_pair(index: u64) {
    let (opening, ops) = pairs::job(index);
    println!("{}", text(&opening));
    ops.iter().enumerate().for_each(|(k, op)| println!("{:>5} {op:?}", k + 1));
    match replay(&opening, &ops, How::Always, false, &mut Tally::default()) {
        Ok(()) => println!("no difference"),
        Err((at, d)) => report(&format!("--pair {index}"), &opening, &ops[..at], false, &d),
    }
}

/// The most qubits, with room for 16 events.
fn widest() {
    let n = 23_168;
    let mut random = Random::of(n, 0);
    let labels = (0..4 * n).map(|_| random.word()).collect();
    let (cap, steps, old, seed) = (16, 1 << 20, Old::Random, random.word());
    let opening = Opening { n: n as usize, cap, steps, form: Form::Scalar, labels, old, slack: 0, extra: 0, seed };
    let edges = [0, 63, 64, 361, 362, 11_583, 23_104, 23_166, 23_167];
    let mut ops = Vec::new();
    for k in 0..40 {
        let (a, b) = (random.pick(&edges), random.below(n));
        let gates = [Clifford::Cnot(a, b), Clifford::Cz(b, a), Clifford::Cy(a, b), Clifford::H(a), Clifford::S(a), Clifford::Swap(a, b)];
        let kind = random.pick(&Kind::ALL);
        ops.push(Op::Call(Call::Gate(random.pick(&gates))));
        ops.push(Op::Call(Call::Look { kind, q: a }));
        match k % 8 {
            0 | 4 => ops.push(Op::Call(Call::Record { kind, q: a, tag: k })),
            2 => ops.push(Op::Call(Call::Measure(a))),
            6 => ops.push(Op::Call(Call::Kill(random.below(4)))),
            _ => ops.push(Op::Call(Call::Turn { k: 2 * random.below(4), kind, q: b })),
        }
    }
    let mut tally = Tally::default();
    match replay(&opening, &ops, How::AtIntervals, false, &mut tally) {
        Ok(()) => println!("compare: no difference in a job of {n} qubits, {} calls", tally.count("calls")),
        Err((at, d)) => {
            println!("DIFFERENCE at call {at} of the widest job: {}: ours {}, rust {}", d.what, d.ours, d.rust);
            exit(1);
        }
    }
}
