//! Stands in for tzap's src/pass.rs (Apache-2.0, see NOTICE): only what phase_fold_pauli.rs names.

use crate::circuit::Circuit;

#[derive(Default)]
pub struct PassState {
    pub angles: crate::angle::AngleContext,
}

pub trait Pass {
    fn name(&self) -> &str;
    fn run(&self, circuit: &Circuit) -> Circuit;
    fn run_with_state(&self, circuit: &Circuit, state: &mut PassState) -> Circuit;
}
