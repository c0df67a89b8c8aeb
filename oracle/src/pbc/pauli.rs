//! Stands in for tzap's src/pbc/pauli.rs (Apache-2.0, see NOTICE), which was not given: only what words.rs needs to compile.

#[derive(Clone, Copy)]
pub(crate) enum Pauli {
    X,
    Y,
    Z,
}

#[derive(Clone, Copy)]
pub(crate) enum Phase {
    One,
    I,
    MinusOne,
    MinusI,
}

#[derive(Clone, Copy)]
pub(crate) struct PauliRef {
    pub node: usize,
    pub phase: Phase,
}

impl PauliRef {
    pub fn scaled(self, _: Phase) -> Self {
        unimplemented!("no arena here")
    }
}

pub(crate) enum PauliNode {
    Identity,
    Single { qubit: u32, pauli: Pauli },
    Product(PauliRef, PauliRef),
}

pub(crate) struct PauliArena {
    pub nodes: Vec<PauliNode>,
}
