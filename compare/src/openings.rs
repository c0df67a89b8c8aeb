//! Openings, most of them refused: 1, 2 and 3 in their order, and no word changed then. The original's side says what is refused
//! for its sizes; that the store is too short is 01's rule, with the need of docs/STORE.md.

use crate::random::Random;
use crate::run::Difference;
use crate::sides::{Raw, form_number, refusal_number, wrapper_form};
use crate::tally::Tally;
use crate::words::Layout;
use oracle::judge::{Form, Judge};
use tillbonnet::raw::tillbonnet_need;

#[derive(Clone, Copy, Debug)]
struct Asked {
    n: u64,
    cap: u64,
    steps: u64,
    form: Form,
    label_words: usize,
}

/// The limits of 01, and numbers on both sides of them.
fn asked(random: &mut Random) -> Asked {
    let form = random.pick(&[Form::Scalar, Form::Sliced]);
    let small = random.from(1, 40);
    let word = random.word();
    let n = random.pick(&[0, 1, 2, 31, 32, 33, 63, 64, 65, small, small, small, 192, 23_168, 23_169, 1 << 32, 1 << 63, u64::MAX, word]);
    let limit = (1 << 25) / (2 * n.div_ceil(64)).max(1);
    let cap = random.pick(&[0, 1, 2, 20, 63, 64, 65, limit, limit + 1, 1 << 24, (1 << 24) + 1, 1 << 32, 1 << 63, u64::MAX, word]);
    let steps = random.pick(&[0, 1, 1 << 20, 1 << 20, (1 << 20) + 1, 1 << 32, u64::MAX, word]);
    let right = if n <= 2000 { 4 * n as usize } else { 8 };
    let wrong = random.pick(&[0, 1, right.saturating_sub(1), right + 1, right + 4, right.saturating_sub(4)]);
    let label_words = if random.chance(2, 3) { right } else { wrong };
    Asked { n, cap, steps, form, label_words }
}

/// 1, 2 or 3 for labels by the original's side, or 0. It is not asked to build frames of more than 2,000 qubits: there 01's rule
/// for labels is used, of which these are never enough.
fn refusal(a: &Asked) -> u32 {
    let words = 4 * a.n as u128;
    let labels = if a.n <= 2000 && a.label_words as u128 == words { a.n as usize } else { a.n.min(2000) as usize + 1 };
    Judge::open(a.n, a.form, &vec![(0, 0); labels], a.cap, a.steps).err().map_or(0, |k| k as u32)
}

fn differs(what: &str, a: &Asked, ours: impl std::fmt::Debug, rust: impl std::fmt::Debug) -> Result<(), Difference> {
    let what = format!("{what}, asked for {a:?}");
    Err(Difference { op: None, what, ours: format!("{ours:?}"), rust: format!("{rust:?}") })
}

/// One opening, over random words; also `tillbonnet_need` and the wrapper.
pub fn check(seed: u64, index: u64, tally: &mut Tally) -> Result<(), Difference> {
    let mut random = Random::of(seed ^ 0x6f70_656e, index);
    let a = asked(&mut random);
    let refused = refusal(&a);
    let accepts = matches!(refusal(&Asked { steps: 0, label_words: 4 * a.n.min(2000) as usize, ..a }), 0 | 3);
    let need = tillbonnet_need(a.n as usize, a.cap as usize, form_number(a.form));
    if accepts != (need != 0) {
        return differs("need", &a, need, accepts);
    }
    if accepts {
        Layout::of(a.n as usize, a.cap as usize, a.form == Form::Sliced);
    }
    if tillbonnet_need(a.n as usize, a.cap as usize, 2 + random.word() / 2) != 0 {
        return differs("need of no form", &a, 1, 0);
    }
    // A slice of at most 20,000 words, around the need where that is less.
    let near = [0, 1, need.saturating_sub(1), need.saturating_sub(1), need, need + 1];
    let words = random.pick(&near).min(20_000);
    let expected = if refused == 0 && words < need { 3 } else { refused };
    let contents: Vec<u64> = (0..words).map(|_| random.word()).collect();
    let labels: Vec<u64> = (0..a.label_words).map(|_| random.word()).collect();
    let kept = labels.clone();
    let mut raw = Raw::new(&contents);
    let answer = raw.open(words, a.n, a.cap, a.steps, form_number(a.form), &labels);
    if answer != expected || labels != kept || !raw.guarded() {
        return differs("opening", &a, answer, expected);
    }
    count(expected, refused, tally);
    if answer != 0 && raw.store() != contents {
        return differs("words after a refused opening", &a, "changed", "as they were");
    }
    let no_form = raw.open(words, a.n, a.cap, a.steps, random.pick(&[2, 3, 1 << 32, u64::MAX]), &labels);
    if answer != 0 && (no_form != 1 || raw.store() != contents) {
        return differs("opening with no form", &a, no_form, 1);
    }
    wrapper(&a, refused, need, &labels)
}

fn count(expected: u32, refused: u32, tally: &mut Tally) {
    tally.one(match (expected, refused) {
        (0, _) => "opening at a limit done",
        (1, _) => "opening refused 1",
        (2, _) => "opening refused 2",
        (_, 3) => "opening refused 3: labels",
        _ => "opening refused 3: store",
    });
}

/// The wrapper lends what is needed, so that only the sizes and the labels can be refused.
fn wrapper(a: &Asked, refused: u32, need: usize, labels: &[u64]) -> Result<(), Difference> {
    if need > 1 << 20 {
        return Ok(());
    }
    let opened = tillbonnet::Store::open(a.n as usize, a.cap as usize, a.steps, wrapper_form(a.form), labels);
    let answer = opened.map_or_else(refusal_number, |_| 0);
    if answer == refused { Ok(()) } else { differs("opening of the wrapper", a, answer, refused) }
}
