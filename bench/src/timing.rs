//! Both sides of a case in turn, many times; the least and the middle time of each.

use std::time::{Duration, Instant};

/// A side does its work `times` times and gives the time that counts and a sum of its answers.
pub type Side<'a> = Box<dyn FnMut(usize) -> (Duration, u64) + 'a>;

pub struct Case<'a> {
    pub ours: Side<'a>,
    pub theirs: Side<'a>,
    /// Calls in one of the times: the times are given for each call.
    pub calls: usize,
    /// A side may be asked to repeat its work within one measurement.
    pub repeats: bool,
}

pub struct Result {
    pub ours: [f64; 2],
    pub theirs: [f64; 2],
    pub rounds: usize,
}

/// The part that is timed; callgrind collects inside of it only.
#[inline(never)]
pub fn region<R>(f: impl FnOnce() -> R) -> (Duration, R) {
    let t = Instant::now();
    let r = f();
    (t.elapsed(), r)
}

/// Least and middle, in nanoseconds for each call.
fn summary(times: &mut [Duration], calls: usize) -> [f64; 2] {
    times.sort();
    [times[0], times[times.len() / 2]].map(|t| t.as_nanos() as f64 / calls as f64)
}

/// Measures until `spend` has passed and at least `least` rounds are done.
pub fn measure(case: &mut Case, spend: Duration, least: usize) -> Result {
    let mut times = 1;
    if case.repeats {
        // A measurement takes 200 microseconds or more.
        while times < 1 << 16 && (case.ours)(times).0.min((case.theirs)(times).0) < Duration::from_micros(200) {
            times *= 2;
        }
    }
    let (mut ours, mut theirs) = (Vec::new(), Vec::new());
    let start = Instant::now();
    while ours.len() < least || (start.elapsed() < spend && ours.len() < 2001) {
        let first = ours.len() % 2 == 0;
        let (a, b) = if first {
            let a = (case.ours)(times);
            (a, (case.theirs)(times))
        } else {
            let b = (case.theirs)(times);
            ((case.ours)(times), b)
        };
        assert_eq!(a.1, b.1, "both sides answer the same");
        ours.push(a.0);
        theirs.push(b.0);
    }
    let calls = case.calls * times;
    Result { rounds: ours.len(), ours: summary(&mut ours, calls), theirs: summary(&mut theirs, calls) }
}
