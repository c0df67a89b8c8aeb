//! The safe wrapper `tillbonnet::Store` on some hundred random jobs, compared with the original as the library is.

use compare::jobs;
use compare::openings;
use compare::run::{How, Pair, open_wrapped};
use compare::tally::Tally;

#[test]
fn jobs_through_the_wrapper() {
    for index in 0..400 {
        let mut tally = Tally::default();
        let (opening, mut source) = jobs::job(7, index, &mut tally);
        let mut store = open_wrapped(&opening).expect("the wrapper opens");
        let mut pair = Pair::new(&opening, &mut store, &mut tally, How::AtIntervals).expect("the opening is the same");
        let mut last = None;
        let mut call = 0;
        while let Some(op) = source.next(&pair.judge, last) {
            call += 1;
            last = pair.step(&op).unwrap_or_else(|d| panic!("job 7:{index}, call {call}: {d:?}"));
        }
        pair.finish().unwrap_or_else(|d| panic!("job 7:{index}, its end: {d:?}"));
    }
}

#[test]
fn refused_openings() {
    for index in 0..5000 {
        openings::check(7, index, &mut Tally::default()).unwrap_or_else(|d| panic!("opening 7:{index}: {d:?}"));
    }
}
