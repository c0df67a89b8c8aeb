//! Stands in for tzap's src/pbc/mod.rs (Apache-2.0, see NOTICE): the re-exports, and the types that optimize/words.rs names.

mod optimize;
mod pauli;

pub(crate) use optimize::{packed_anticommutes, support_signature};
pub(crate) use pauli::{Pauli, Phase};

pub(crate) enum PbcError {
    ExpansionLimit,
    NonHermitianAxis,
}
