//! bench [--quick] [TEXT ..]: a line for each case whose name has all the texts: name, then ours and the original's least
//! and middle times in nanoseconds, and the rounds, with tabs between. bench --list: the names.
//! bench --one NAME ours|theirs TIMES: one side only, for callgrind with --toggle-collect='*region*'.
//! bench --circuits: what the circuits are.

use bench::cases::{SHAPES, STYLES, all, shape};
use bench::timing::measure;
use bench::whole::{EVENTS, circuit};
use std::time::Duration;

fn main() {
    let args: Vec<String> = std::env::args().skip(1).collect();
    match args.first().map(String::as_str) {
        Some("--list") => all().iter().for_each(|c| println!("{}", c.name)),
        Some("--one") => one(&args[1], &args[2], args[3].parse().expect("a number")),
        Some("--circuits") => circuits(),
        _ => table(&args),
    }
}

fn table(args: &[String]) {
    let quick = args.iter().any(|a| a == "--quick");
    let only: Vec<_> = args.iter().filter(|a| !a.starts_with("--")).collect();
    let (spend, least) = if quick { (Duration::from_millis(120), 3) } else { (Duration::from_millis(1000), 7) };
    for case in all() {
        if only.iter().all(|o| case.name.contains(o.as_str())) {
            let r = measure(&mut (case.make)(), spend, least);
            println!("{}\t{:.2}\t{:.2}\t{:.2}\t{:.2}\t{}", case.name, r.ours[0], r.theirs[0], r.ours[1], r.theirs[1], r.rounds);
        }
    }
}

fn one(name: &str, side: &str, times: usize) {
    let case = all().into_iter().find(|c| c.name == name).expect("no such case");
    let mut case = (case.make)();
    let (t, _) = if side == "ours" { (case.ours)(times) } else { (case.theirs)(times) };
    println!("{:.2}", t.as_nanos() as f64 / (case.calls * times) as f64);
}

fn circuits() {
    for (n, sliced) in SHAPES {
        for (style, name) in STYLES {
            let c = circuit(style, n, sliced, EVENTS, false);
            println!("{}, {name}: {} items, {} rotations, {} folds", shape(n, sliced), c.ours.len(), c.rotations, c.folds);
        }
    }
}
