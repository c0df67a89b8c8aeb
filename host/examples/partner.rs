//! 01's worked example from Rust, by the wrapper: the same calls and the same lines as partner.c. Built and run by ../run.sh.

use tillbonnet::{Form, Gate, Kind, Refusal, Sight, Store};

/// A real host draws these at random: X high, X low, Z high, Z low of each qubit.
const LABELS: [u64; 8] = [0, 1, 0, 2, 0, 4, 0, 8];

fn show(store: &Store, kind: Kind, q: usize) -> Result<(), Refusal> {
    match store.look(kind, q)? {
        Sight::Found { id, sign, steps } => println!("found {id} sign {sign} after {steps}"),
        Sight::None { steps } => println!("none after {steps}"),
        Sight::Blocked { steps } => println!("blocked after {steps}"),
        Sight::Out { steps } => println!("out of steps after {steps}"),
    }
    Ok(())
}

fn main() -> Result<(), Refusal> {
    let mut store = Store::open(2, 8, 1 << 20, Form::Scalar, &LABELS)?;
    store.record(Kind::Z, 0, 1)?;
    store.gate(Gate::Cnot(0, 1))?;
    show(&store, Kind::Z, 1)?;
    store.gate(Gate::X(1))?;
    store.gate(Gate::Cnot(0, 1))?;
    store.gate(Gate::X(0))?;
    show(&store, Kind::Z, 0)?;
    let other = store.record(Kind::X, 0, 2)?;
    show(&store, Kind::Z, 0)?;
    store.kill(other)?;
    show(&store, Kind::Z, 0)?;
    store.clear();
    show(&store, Kind::Z, 0)?;
    // What is refused changes nothing: the store has no qubit 7.
    if store.gate(Gate::H(7)) == Err(Refusal::NoQubit) {
        println!("gate on qubit 7: refused with 4");
    }
    Ok(())
}
