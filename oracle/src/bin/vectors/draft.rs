//! A job in the making: its calls as values, the text of a job, and the small random source that all jobs come from.

use oracle::judge::{Call, Clifford, Form, Judge, Kind, Reply};
use oracle::splitmix::Splitmix;

pub const MOST_STEPS: u64 = 1 << 20;

/// What the jobs are drawn from.
pub struct Rng(Splitmix);

impl Rng {
    pub fn new(seed: u64) -> Self {
        Self(Splitmix(seed))
    }

    pub fn next(&mut self) -> u64 {
        self.0.word()
    }

    pub fn below(&mut self, n: u64) -> u64 {
        self.next() % n
    }

    pub fn pick<T: Clone>(&mut self, from: &[T]) -> T {
        from[self.below(from.len() as u64) as usize].clone()
    }

    pub fn kind(&mut self) -> Kind {
        self.pick(&Kind::ALL)
    }

    /// A gate on qubits in range.
    pub fn gate(&mut self, n: u64) -> Clifford {
        let a = self.below(n);
        if n > 1 && self.below(2) == 0 {
            let b = (a + 1 + self.below(n - 1)) % n;
            return self.pick(&TWO)(a, b);
        }
        self.pick(&ONE)(a)
    }
}

pub const ONE: [fn(u64) -> Clifford; 7] =
    [Clifford::H, Clifford::X, Clifford::Y, Clifford::Z, Clifford::S, Clifford::Sdg, Clifford::Sx];

pub const TWO: [fn(u64, u64) -> Clifford; 4] = [Clifford::Cnot, Clifford::Cz, Clifford::Cy, Clifford::Swap];

/// How the labels of a job are drawn.
#[derive(Clone, Copy, Debug, PartialEq, Eq)]
pub enum Labels {
    Random,
    /// Each one of three values, one of them 0.
    Few,
    /// All the same value: products of two rows have label 0.
    Equal,
    Zero,
}

impl Labels {
    pub const ALL: [Labels; 4] = [Labels::Random, Labels::Few, Labels::Equal, Labels::Zero];

    pub fn draw(self, n: u64, rng: &mut Rng) -> Vec<(u128, u128)> {
        let mut any = || u128::from(rng.next()) << 64 | u128::from(rng.next());
        let few = [0, any(), any()];
        let mut one = || match self {
            Labels::Random => u128::from(rng.next()) << 64 | u128::from(rng.next()),
            Labels::Few => rng.pick(&few),
            Labels::Equal => few[1],
            Labels::Zero => 0,
        };
        (0..n).map(|_| (one(), one())).collect()
    }
}

/// The header and labels of a job with its calls, and a judge that has made them with all the steps there are.
pub struct Draft {
    pub n: u64,
    pub form: Form,
    pub labels: Vec<(u128, u128)>,
    pub events: u64,
    pub calls: Vec<Call>,
    pub judge: Judge,
}

impl Draft {
    pub fn new(n: u64, form: Form, labels: Vec<(u128, u128)>, events: u64) -> Self {
        let judge = Judge::open(n, form, &labels, events, MOST_STEPS).expect("a legal opening");
        Self { n, form, labels, events, calls: Vec::new(), judge }
    }

    pub fn call(&mut self, call: Call) -> Reply {
        self.calls.push(call);
        self.judge.call(&call)
    }

    pub fn text(&self, steps: u64) -> String {
        job(self.form, &self.labels, self.events, steps, &self.calls)
    }
}

pub fn job(form: Form, labels: &[(u128, u128)], events: u64, steps: u64, calls: &[Call]) -> String {
    let form = match form {
        Form::Scalar => "scalar",
        Form::Sliced => "sliced",
    };
    let mut text = format!("qubits={}\nform={form}\nevents={events}\nsteps={steps}\n", labels.len());
    for (q, (x, z)) in labels.iter().enumerate() {
        text += &format!("label={q} x={x:032x} z={z:032x}\n");
    }
    for call in calls {
        text += &line(call);
        text.push('\n');
    }
    text
}

pub fn letter(kind: Kind) -> &'static str {
    match kind {
        Kind::X => "x",
        Kind::Y => "y",
        Kind::Z => "z",
        Kind::P => "p",
    }
}

pub fn gate_name(gate: Clifford) -> &'static str {
    match gate {
        Clifford::H(_) => "h",
        Clifford::X(_) => "x",
        Clifford::Y(_) => "y",
        Clifford::Z(_) => "z",
        Clifford::S(_) => "s",
        Clifford::Sdg(_) => "sdg",
        Clifford::Sx(_) => "sx",
        Clifford::Cnot(..) => "cnot",
        Clifford::Cz(..) => "cz",
        Clifford::Cy(..) => "cy",
        Clifford::Swap(..) => "swap",
    }
}

/// The line of a call.
pub fn line(call: &Call) -> String {
    match *call {
        Call::Gate(gate) => match gate.qubits()[..] {
            [a, b] => format!("gate={} a={a} b={b}", gate_name(gate)),
            _ => format!("gate={} a={}", gate_name(gate), gate.qubits()[0]),
        },
        Call::Turn { k, kind, q } => format!("turn={k} kind={} a={q}", letter(kind)),
        Call::Record { kind, q, tag } => format!("record={} a={q} tag={tag}", letter(kind)),
        Call::Measure(q) => format!("measure={q}"),
        Call::Reset(q) => format!("reset={q}"),
        Call::Ccx(a, b, c) => format!("ccx={a} b={b} c={c}"),
        Call::Ccz(a, b, c) => format!("ccz={a} b={b} c={c}"),
        Call::Kill(id) => format!("kill={id}"),
        Call::Clear => "clear=all".to_string(),
        Call::Look { kind, q } => format!("look={} a={q}", letter(kind)),
    }
}

/// Gates that undo a gate, and that are other gates where they can be: so an error in one gate is not undone by the same error.
pub fn undone(gate: Clifford) -> Vec<Clifford> {
    use Clifford::{Cnot, Cy, Cz, H, S, Sdg, Swap, Sx, X, Y, Z};
    match gate {
        H(a) => vec![Z(a), Sdg(a), Sx(a), Sdg(a)],
        X(a) => vec![Sx(a), Sx(a)],
        Y(a) => vec![X(a), Z(a)],
        Z(a) => vec![S(a), S(a)],
        S(a) => vec![Sdg(a)],
        Sdg(a) => vec![Z(a), Sdg(a)],
        Sx(a) => vec![H(a), Sdg(a), H(a)],
        Cnot(a, b) => vec![H(b), Cz(a, b), H(b)],
        Cz(a, b) => vec![H(a), Cnot(b, a), H(a)],
        Cy(a, b) => vec![Sdg(b), Cnot(a, b), S(b)],
        Swap(a, b) => vec![Cnot(a, b), Cnot(b, a), Cnot(a, b)],
    }
}

/// Gates that undo a turn, by 01's list of the gates of a turn.
pub fn unturned(k: u64, kind: Kind, q: u64) -> Vec<Clifford> {
    let core = match k {
        2 => vec![Clifford::Sdg(q)],
        4 => vec![Clifford::S(q), Clifford::S(q)],
        6 => vec![Clifford::S(q)],
        _ => vec![],
    };
    let h = || vec![Clifford::H(q)];
    match kind {
        Kind::Z | Kind::P => core,
        Kind::X => [h(), core, h()].concat(),
        Kind::Y => [vec![Clifford::Sdg(q)], h(), core, h(), vec![Clifford::S(q)]].concat(),
    }
}
