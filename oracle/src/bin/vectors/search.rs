//! Jobs of gates, records, kills and looks, drawn at random. What a look does is asked of the judge beforehand, so that all four
//! words come up often; the outputs come from a run of the finished text.

use oracle::judge::{Call, Clifford, Form, Kind, Look, Reply};

use crate::draft::{Draft, Labels, MOST_STEPS, ONE, Rng, TWO, undone, unturned};

/// A job's text with what it is sure to cover.
pub struct Made {
    pub text: String,
    pub claim: String,
}

fn made(draft: &Draft, steps: u64, labels: Labels) -> Made {
    Made { text: draft.text(steps), claim: format!("labels {labels:?}") }
}

fn start(n: u64, form: Form, labels: Labels, events: u64, rng: &mut Rng) -> Draft {
    let drawn = labels.draw(n, rng);
    Draft::new(n, form, drawn, events)
}

/// How often each sort of call comes, out of the sum.
#[derive(Clone, Copy)]
struct Mix {
    gate: u64,
    turn: u64,
    record: u64,
    look: u64,
    kill: u64,
    block: u64,
    clear: u64,
}

const PLAIN: Mix = Mix { gate: 30, turn: 8, record: 24, look: 26, kill: 8, block: 6, clear: 2 };
const KILLS: Mix = Mix { gate: 8, turn: 2, record: 34, look: 26, kill: 28, block: 1, clear: 1 };
const LOOKS: Mix = Mix { gate: 14, turn: 4, record: 32, look: 36, kill: 8, block: 5, clear: 1 };
const FILLS: Mix = Mix { gate: 10, turn: 2, record: 56, look: 14, kill: 8, block: 10, clear: 0 };

fn any_call(draft: &mut Draft, mix: Mix, rng: &mut Rng) -> Call {
    let n = draft.n;
    let mut at = rng.below(mix.gate + mix.turn + mix.record + mix.look + mix.kill + mix.block + mix.clear);
    let mut within = |share: u64| {
        let hit = at < share;
        at = if hit { u64::MAX } else { at - share };
        hit
    };
    if within(mix.gate) {
        Call::Gate(rng.gate(n))
    } else if within(mix.turn) {
        Call::Turn { k: rng.pick(&[0, 2, 4, 6]), kind: rng.kind(), q: rng.below(n) }
    } else if within(mix.record) {
        record(n, rng)
    } else if within(mix.look) {
        chosen_look(draft, rng)
    } else if within(mix.kill) {
        kill(draft, rng)
    } else if within(mix.block) {
        blocker(n, rng)
    } else {
        Call::Clear
    }
}

fn record(n: u64, rng: &mut Rng) -> Call {
    Call::Record { kind: rng.kind(), q: rng.below(n), tag: rng.next() as u32 >> rng.below(32) }
}

fn blocker(n: u64, rng: &mut Rng) -> Call {
    let a = rng.below(n);
    if n < 3 || rng.below(3) > 0 {
        return rng.pick(&[Call::Measure(a), Call::Reset(a)]);
    }
    let b = (a + 1 + rng.below(n - 1)) % n;
    let c = (0..n).filter(|&c| c != a && c != b).nth(rng.below(n - 2) as usize).expect("a third qubit");
    rng.pick(&[Call::Ccx(a, b, c), Call::Ccz(a, b, c)])
}

/// Mostly a live rotation, now and then one that cannot be killed.
fn kill(draft: &Draft, rng: &mut Rng) -> Call {
    let events = draft.judge.events() as u64;
    let live = |id: &u64| draft.judge.read(*id).is_ok_and(|r| r.live);
    let ids: Vec<u64> = (0..events).filter(live).collect();
    if ids.is_empty() || rng.below(8) == 0 {
        return Call::Kill(rng.below(events + 1));
    }
    Call::Kill(rng.pick(&ids))
}

/// A look: first which word it should get, of those that can be had now; then one that gets it, as often as not the longest.
fn chosen_look(draft: &mut Draft, rng: &mut Rng) -> Call {
    let mut words: [Vec<(usize, Call)>; 3] = Default::default();
    for q in 0..draft.n {
        for kind in Kind::ALL {
            let look = draft.judge.look(kind, q).expect("in range");
            let word = match look {
                Look::Found { .. } => 0,
                Look::Blocked { .. } | Look::Out { .. } => 1,
                Look::None { .. } => 2,
            };
            words[word].push((look.steps(), Call::Look { kind, q }));
        }
    }
    let had: Vec<usize> = (0..3).filter(|&w| !words[w].is_empty()).collect();
    let word = &words[rng.pick(&had)];
    let most = word.iter().map(|(steps, _)| *steps).max().expect("not empty");
    let least = most * rng.below(2) as usize;
    let long: Vec<Call> = word.iter().filter(|w| w.0 >= least).map(|w| w.1).collect();
    rng.pick(&long)
}

fn wander(draft: &mut Draft, count: usize, mix: Mix, rng: &mut Rng) {
    for _ in 0..count {
        let call = any_call(draft, mix, rng);
        draft.call(call);
    }
}

/// Rotations are recorded, gates carry the frame away and, in reverse, back; Pauli gates at the end may turn signs. Then they are
/// looked for.
fn echo(n: u64, form: Form, rng: &mut Rng) -> Made {
    let labels = Labels::Random;
    let mut draft = start(n, form, labels, 12, rng);
    let there: Vec<Clifford> = (0..5).map(|_| rng.gate(n)).collect();
    let axes: Vec<(Kind, u64)> = (0..3).map(|_| (rng.kind(), rng.below(n))).collect();
    for &(kind, q) in &axes {
        draft.call(Call::Record { kind, q, tag: rng.next() as u32 });
    }
    for &gate in &there {
        draft.call(Call::Gate(gate));
    }
    let q = rng.below(n);
    draft.call(Call::Record { kind: rng.kind(), q, tag: 7 });
    let looked = chosen_look(&mut draft, rng);
    draft.call(looked);
    for &gate in there.iter().rev() {
        for back in undone(gate) {
            draft.call(Call::Gate(back));
        }
    }
    let q = rng.pick(&axes).1;
    draft.call(Call::Gate(rng.pick(&[Clifford::X(q), Clifford::Y(q), Clifford::Z(q)])));
    for (kind, q) in axes {
        draft.call(Call::Look { kind, q });
    }
    let looked = chosen_look(&mut draft, rng);
    draft.call(looked);
    made(&draft, MOST_STEPS, labels)
}

/// Every turn of every kind on one qubit after some gates, with a look between that shows where the frame went.
fn turns(form: Form, rng: &mut Rng) -> Made {
    let labels = Labels::Random;
    let mut draft = start(2, form, labels, 6, rng);
    for (kind, q) in [(Kind::X, 0), (Kind::Y, 0), (Kind::Z, 1)] {
        draft.call(Call::Record { kind, q, tag: 1 });
    }
    let mut all: Vec<(u64, Kind)> = Vec::new();
    for kind in Kind::ALL {
        all.extend([0, 2, 4, 6].map(|k| (k, kind)));
    }
    while !all.is_empty() {
        let (k, kind) = all.swap_remove(rng.below(all.len() as u64) as usize);
        draft.call(Call::Turn { k, kind, q: rng.below(2) });
        let looked = chosen_look(&mut draft, rng);
        draft.call(looked);
    }
    made(&draft, MOST_STEPS, labels)
}

/// Every gate and every turn that does something, on some qubits of three.
fn moves(rng: &mut Rng) -> Vec<(Call, Vec<Clifford>)> {
    let mut all = Vec::new();
    for one in ONE {
        let gate = one(rng.below(3));
        all.push((Call::Gate(gate), undone(gate)));
    }
    for two in TWO {
        let a = rng.below(3);
        let gate = two(a, (a + 1 + rng.below(2)) % 3);
        all.push((Call::Gate(gate), undone(gate)));
    }
    for kind in Kind::ALL {
        for k in [2, 4, 6] {
            let q = rng.below(3);
            all.push((Call::Turn { k, kind, q }, unturned(k, kind, q)));
        }
    }
    all
}

/// The image of each gate and turn, with its sign, held against other gates: it is made, rows of two qubits are recorded, other
/// gates undo it, it is made again, a Pauli gate may turn signs, and the rows are looked for. Five of them a job.
fn images(form: Form, rng: &mut Rng) -> Vec<Made> {
    let labels = Labels::Random;
    let mut left = moves(rng);
    let mut jobs = Vec::new();
    while !left.is_empty() {
        let mut draft = start(3, form, labels, 16, rng);
        draft.call(Call::Gate(rng.gate(3)));
        for _ in 0..left.len().min(5) {
            let (there, back) = left.swap_remove(rng.below(left.len() as u64) as usize);
            image(&mut draft, there, &back, rng);
        }
        jobs.push(made(&draft, MOST_STEPS, labels));
    }
    jobs
}

fn image(draft: &mut Draft, there: Call, back: &[Clifford], rng: &mut Rng) {
    let qubits = match there {
        Call::Gate(gate) => gate.qubits(),
        Call::Turn { q, .. } => vec![q],
        _ => unreachable!("a gate or a turn"),
    };
    let rows: Vec<(Kind, u64)> = qubits.iter().map(|&q| (rng.pick(&[Kind::X, Kind::Y, Kind::Z]), q)).collect();
    draft.call(there);
    for &(kind, q) in &rows {
        draft.call(Call::Record { kind, q, tag: 3 });
    }
    for &gate in back {
        draft.call(Call::Gate(gate));
    }
    draft.call(there);
    let q = rows[0].1;
    draft.call(Call::Gate(rng.pick(&[Clifford::X(q), Clifford::Y(q), Clifford::Z(q)])));
    for (kind, q) in rows {
        let reply = draft.call(Call::Look { kind, q });
        assert!(matches!(reply, Reply::Look(Look::Found { .. })), "{there:?} is not undone");
    }
}

/// One rotation behind which ten that share a qubit with it commute and two do not; these two are killed. Of 13 entries a scalar
/// list keeps both: they cost their steps and are not in the way.
fn freed(form: Form, rng: &mut Rng) -> Made {
    let labels = Labels::Random;
    let mut draft = start(3, form, labels, 20, rng);
    for _ in 0..2 {
        draft.call(Call::Gate(rng.gate(3)));
    }
    let q = rng.below(3);
    let others = [(q + 1) % 3, (q + 2) % 3];
    let look = Call::Look { kind: rng.pick(&[Kind::Z, Kind::P]), q };
    draft.call(Call::Record { kind: Kind::Z, q, tag: 0 });
    for other in others {
        draft.call(Call::Gate(Clifford::Cnot(q, other)));
    }
    let in_the_way = [1 + rng.below(6), 7 + rng.below(6)];
    for id in 1..=12 {
        let other = rng.pick(&others);
        let (kind, q) = if in_the_way.contains(&id) { (Kind::X, q) } else { (Kind::Z, other) };
        draft.call(Call::Record { kind, q, tag: id as u32 });
    }
    draft.call(look);
    for id in in_the_way {
        draft.call(Call::Kill(id));
        draft.call(look);
    }
    wander(&mut draft, 4, KILLS, rng);
    draft.call(look);
    made(&draft, MOST_STEPS, labels)
}

/// Any calls, with all the steps there are or with just so many that one look fits or fails by one.
fn dense(n: u64, form: Form, labels: Labels, count: usize, mix: Mix, tight: bool, rng: &mut Rng) -> Made {
    let mut draft = start(n, form, labels, 40, rng);
    draft.call(record(n, rng));
    wander(&mut draft, count, mix, rng);
    let steps = if tight { allowance(&draft, rng) } else { MOST_STEPS };
    made(&draft, steps, labels)
}

/// The steps of some look of the draft, or one less.
fn allowance(draft: &Draft, rng: &mut Rng) -> u64 {
    let mut again = Draft::new(draft.n, draft.form, draft.labels.clone(), draft.events);
    let mut spent: [Vec<u64>; 3] = Default::default();
    for &call in &draft.calls {
        match again.call(call) {
            Reply::Look(Look::Found { steps, .. }) => spent[0].push(steps as u64),
            Reply::Look(Look::Blocked { steps }) => spent[1].push(steps as u64),
            Reply::Look(Look::None { steps }) if steps > 0 => spent[2].push(steps as u64),
            _ => {}
        }
    }
    let had: Vec<usize> = (0..3).filter(|&w| !spent[w].is_empty()).collect();
    if had.is_empty() {
        return 0;
    }
    let word = rng.pick(&had);
    rng.pick(&spent[word]) - rng.below(3) / 2
}

/// Many commuting rotations behind one, killed one by one in some order with a look after each.
fn kills(form: Form, rng: &mut Rng) -> Made {
    let labels = rng.pick(&[Labels::Random, Labels::Random, Labels::Few]);
    let mut draft = start(3, form, labels, 14, rng);
    draft.call(Call::Record { kind: Kind::Z, q: 0, tag: 0 });
    draft.call(Call::Gate(Clifford::Cnot(0, 1)));
    draft.call(Call::Gate(Clifford::Cnot(0, 2)));
    let many = 7 + rng.below(5);
    for tag in 1..=many {
        draft.call(Call::Record { kind: Kind::Z, q: 1 + rng.below(2), tag: tag as u32 });
    }
    let mut ids: Vec<u64> = (1..=many).collect();
    while ids.len() > 2 {
        let id = ids.swap_remove(rng.below(ids.len() as u64) as usize);
        draft.call(Call::Kill(id));
        let q = if rng.below(4) == 0 { 1 + rng.below(2) } else { 0 };
        draft.call(Call::Look { kind: rng.pick(&[Kind::Z, Kind::P]), q });
    }
    made(&draft, MOST_STEPS, labels)
}

/// A rotation on each qubit, then a blocker, and a look of every axis; drawn again until the blocker is in the way of one.
fn blocks(call: Call, form: Form, rng: &mut Rng) -> Made {
    let labels = Labels::Random;
    loop {
        let mut draft = start(3, form, labels, 16, rng);
        for _ in 0..3 {
            draft.call(Call::Gate(rng.gate(3)));
        }
        for q in 0..3 {
            draft.call(Call::Record { kind: rng.kind(), q, tag: q as u32 });
        }
        let looks = |draft: &mut Draft| {
            let mut blocked = 0;
            for q in 0..3 {
                for kind in [Kind::X, Kind::Y, Kind::Z] {
                    let reply = draft.call(Call::Look { kind, q });
                    blocked += matches!(reply, Reply::Look(Look::Blocked { .. })) as u32;
                }
            }
            blocked
        };
        draft.call(call);
        if looks(&mut draft) == 0 {
            continue;
        }
        draft.call(Call::Clear);
        draft.call(record(3, rng));
        let looked = chosen_look(&mut draft, rng);
        draft.call(looked);
        return made(&draft, MOST_STEPS, labels);
    }
}

/// Until 48 events are there; then what still needs room is refused, and looks go on.
fn full(n: u64, form: Form, rng: &mut Rng) -> Made {
    let labels = rng.pick(&Labels::ALL);
    let mut draft = start(n, form, labels, 48, rng);
    while draft.judge.events() < 48 {
        let call = any_call(&mut draft, FILLS, rng);
        draft.call(call);
    }
    draft.call(record(n, rng));
    draft.call(blocker(n, rng));
    wander(&mut draft, 8, KILLS, rng);
    made(&draft, MOST_STEPS, labels)
}

/// A clear in the middle: what was recorded before and after it is looked for.
fn clears(form: Form, rng: &mut Rng) -> Made {
    let labels = rng.pick(&[Labels::Random, Labels::Zero]);
    let mut draft = start(2, form, labels, 12, rng);
    let axes: Vec<(Kind, u64)> = (0..3).map(|_| (rng.kind(), rng.below(2))).collect();
    for &(kind, q) in &axes {
        draft.call(Call::Record { kind, q, tag: 1 });
    }
    draft.call(Call::Clear);
    for &(kind, q) in &axes {
        draft.call(Call::Look { kind, q });
    }
    draft.call(Call::Kill(rng.below(3)));
    let (kind, q) = rng.pick(&axes);
    draft.call(Call::Record { kind, q, tag: 2 });
    for &(kind, q) in &axes {
        draft.call(Call::Look { kind, q });
    }
    wander(&mut draft, 6, PLAIN, rng);
    made(&draft, MOST_STEPS, labels)
}

/// More than 255 lines.
fn long(rng: &mut Rng) -> Made {
    let mut draft = start(1, Form::Scalar, Labels::Random, 48, rng);
    wander(&mut draft, 270, PLAIN, rng);
    Made { text: draft.text(MOST_STEPS), claim: "more than 255 lines".to_string() }
}

const FORMS: [Form; 2] = [Form::Scalar, Form::Sliced];

/// Both forms up to eight qubits and at the most there are; in between they take turns.
fn sweep(form: Form, rng: &mut Rng) -> Vec<Made> {
    let turn = if form == Form::Scalar { 0 } else { 1 };
    let taken = |n: &u64| *n <= 8 || *n >= 31 || n % 2 == turn;
    (1..=32).filter(taken).map(|n| echo(n, form, rng)).collect()
}

pub fn all(rng: &mut Rng) -> Vec<Made> {
    let mut jobs = Vec::new();
    for form in FORMS {
        jobs.extend(sweep(form, rng));
        jobs.push(turns(form, rng));
        for _ in 0..2 {
            jobs.extend(images(form, rng));
        }
        for _ in 0..4 {
            jobs.push(freed(form, rng));
        }
        for i in 0..6 {
            jobs.push(dense(1 + i % 4, form, Labels::Random, 24, PLAIN, false, rng));
        }
        for i in 0..12 {
            let labels = [Labels::Zero, Labels::Few, Labels::Equal][i as usize % 3];
            jobs.push(dense(1 + i % 5, form, labels, 24, LOOKS, false, rng));
        }
        for i in 0..22 {
            jobs.push(dense(1 + i % 3, form, Labels::ALL[i as usize % 4], 24, LOOKS, true, rng));
        }
        for i in 0..4 {
            jobs.push(dense(1 + i % 3, form, Labels::Random, 32, KILLS, i % 2 == 0, rng));
        }
        for _ in 0..4 {
            jobs.push(kills(form, rng));
        }
        let seven = [Call::Ccx(2, 0, 1), Call::Ccz(0, 2, 1), Call::Ccx(0, 1, 2), Call::Ccz(1, 2, 0)];
        for call in seven.into_iter().chain(seven).chain([Call::Measure(1), Call::Measure(2), Call::Measure(0), Call::Reset(2)]) {
            jobs.push(blocks(call, form, rng));
        }
        for n in [1, 3, 5] {
            jobs.push(full(n, form, rng));
        }
        for _ in 0..5 {
            jobs.push(clears(form, rng));
        }
    }
    jobs.push(long(rng));
    jobs
}
