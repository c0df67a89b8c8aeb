//! Makes a job that shows a difference smaller: operations are dropped, in halves, quarters and so on down to single ones, as
//! long as some difference stays. The whole store is compared after every operation then.

use crate::run::{Difference, How, Op, Opening, Pair, open_raw, open_wrapped};
use crate::sides::Side;
use crate::tally::Tally;

/// A job that is known from its first operation to its last, on a store of its own.
pub fn replay(opening: &Opening, ops: &[Op], how: How, wrapped: bool, tally: &mut Tally) -> Result<(), (usize, Difference)> {
    let side: Result<Box<dyn Side>, Difference> = if wrapped {
        open_wrapped(opening).map(|s| Box::new(s) as Box<dyn Side>)
    } else {
        open_raw(opening).map(|s| Box::new(s) as Box<dyn Side>)
    };
    let mut side = side.map_err(|d| (0, d))?;
    let mut pair = Pair::new(opening, side.as_mut(), tally, how).map_err(|d| (0, d))?;
    for (k, op) in ops.iter().enumerate() {
        pair.step(op).map_err(|d| (k + 1, d))?;
    }
    pair.finish().map_err(|d| (ops.len(), d))
}

fn fails(opening: &Opening, ops: &[Op], wrapped: bool) -> Option<(usize, Difference)> {
    replay(opening, ops, How::Always, wrapped, &mut Tally::default()).err()
}

/// A small job that still shows a difference, with where and what it is; it takes some `seconds` at most.
pub fn shrink(opening: &Opening, ops: &[Op], wrapped: bool, seconds: u64) -> (Opening, Vec<Op>, Option<(usize, Difference)>) {
    let start = std::time::Instant::now();
    let time = || start.elapsed().as_secs() < seconds;
    let mut opening = opening.clone();
    let mut ops = ops.to_vec();
    let mut last = fails(&opening, &ops, wrapped);
    let mut chunk = ops.len().div_ceil(2).max(1);
    if let Some((k, _)) = last {
        ops.truncate(k);
    }
    while last.is_some() && chunk > 0 && time() {
        let mut at = 0;
        let mut dropped = false;
        while at < ops.len() && time() {
            let mut fewer = ops.clone();
            fewer.drain(at..(at + chunk).min(ops.len()));
            match fails(&opening, &fewer, wrapped) {
                Some((k, d)) => {
                    fewer.truncate(k);
                    (ops, last, dropped) = (fewer, Some((k, d)), true);
                }
                None => at += chunk,
            }
        }
        if !dropped || chunk > 1 {
            chunk /= 2;
        }
    }
    for simpler in simpler(&opening) {
        if let Some(found) = fails(&simpler, &ops, wrapped) {
            (opening, last) = (simpler, Some(found));
        }
    }
    (opening, ops, last)
}

/// The same with plainer labels, no more words than needed, and less room.
fn simpler(opening: &Opening) -> Vec<Opening> {
    let zero = vec![0; opening.labels.len()];
    let few = opening.cap.min(8);
    vec![
        Opening { slack: 0, extra: 0, ..opening.clone() },
        Opening { slack: 0, extra: 0, cap: few, ..opening.clone() },
        Opening { slack: 0, extra: 0, cap: few, labels: zero, ..opening.clone() },
    ]
}
