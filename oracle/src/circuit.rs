//! Stands in for tzap's src/circuit.rs (Apache-2.0, see NOTICE): the gates with the original's names and fields, and the few
//! functions of a circuit that phase_fold_pauli.rs names.

use crate::angle::Angle;

#[allow(non_camel_case_types)]
#[derive(Clone, Debug)]
pub enum Gate {
    x(u32),
    h(u32),
    s(u32),
    sdg(u32),
    z(u32),
    t(u32),
    tdg(u32),
    rz(Angle, u32),
    cnot { control: u32, target: u32 },
    cz { control: u32, target: u32 },
    ccx { control1: u32, control2: u32, target: u32 },
    ccz { control1: u32, control2: u32, target: u32 },
    measure { qubit: u32, cbit: u32 },
    reset(u32),
    p(Angle, u32),
    y(u32),
    sx(u32),
    rx(Angle, u32),
    ry(Angle, u32),
    swap(u32, u32),
    cy { control: u32, target: u32 },
    cp { lambda: Angle, control: u32, target: u32 },
    crx { theta: Angle, control: u32, target: u32 },
    cry { theta: Angle, control: u32, target: u32 },
    crz { theta: Angle, control: u32, target: u32 },
    ch { control: u32, target: u32 },
    cswap { control: u32, first: u32, second: u32 },
}

#[derive(Clone)]
pub struct Circuit {
    pub num_qubits: usize,
    pub gates: Vec<Gate>,
}

impl Circuit {
    pub fn empty_like(&self) -> Self {
        Self { num_qubits: self.num_qubits, gates: Vec::new() }
    }
    pub fn apply(&mut self, gate: Gate) {
        self.gates.push(gate);
    }
}

pub fn qubit_operands(_: &Gate) -> (usize, [u32; 3]) {
    unimplemented!("whole circuits are not folded here")
}
