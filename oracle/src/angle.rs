//! Stands in for tzap's src/angle.rs (Apache-2.0, see NOTICE). An angle is a count of quarters of pi (T is 1, S 2, Z 4), or one
//! that is no such multiple. The oracle never merges or emits angles, so those functions only have their names.

use crate::circuit::{Circuit, Gate};

#[derive(Default)]
pub struct AngleContext;

pub struct AngleError;

#[derive(Clone, Debug)]
pub struct Angle(Option<u8>);

impl Angle {
    pub fn quarters(k: u8) -> Self {
        Self(Some(k % 8))
    }
    /// An angle that is no multiple of pi/4.
    pub fn other() -> Self {
        Self(None)
    }
    pub fn projective_quarters(&self) -> Option<u8> {
        self.0
    }
    pub fn projective_identity(&self) -> bool {
        self.0 == Some(0)
    }
    pub fn of_gate(gate: &Gate) -> Option<Self> {
        match gate {
            Gate::t(_) => Some(Self::quarters(1)),
            Gate::tdg(_) => Some(Self::quarters(7)),
            Gate::rz(a, _) | Gate::p(a, _) | Gate::rx(a, _) | Gate::ry(a, _) => Some(a.clone()),
            _ => None,
        }
    }
    pub fn merge_phases_with(&self, _: &mut AngleContext, _: i8, _: &Self) -> Result<Self, AngleError> {
        unimplemented!("angles are not merged here")
    }
    pub fn emitted_gate_count(&self) -> usize {
        unimplemented!("angles are not emitted here")
    }
    pub fn emit(&self, _: &mut Circuit, _: u32) {
        unimplemented!("angles are not emitted here")
    }
}

pub fn lowered_if_needed(circuit: &Circuit) -> std::borrow::Cow<'_, Circuit> {
    std::borrow::Cow::Borrowed(circuit)
}
