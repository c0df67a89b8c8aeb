//! The oracle: the original's partner search behind a small interface (`judge`), and the line program over it (`lines`).
//! README.md says which files are the original's, which stand in for what was not given, and what is ours.

#[allow(dead_code)]
mod angle;
#[allow(dead_code)]
mod circuit;
pub mod lines;
#[allow(dead_code)]
mod pass;
#[allow(dead_code, unused_imports)]
mod pbc;
#[allow(dead_code)]
mod phase_fold_pauli;
pub mod splitmix;

pub use phase_fold_pauli::judge;
