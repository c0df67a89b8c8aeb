//! The benchmark: the original (`oracle`) and the archive of our proved library (`tillbonnet`) in one process on the same inputs.
//! README.md says what is timed and how.

pub mod cases;
pub mod circuits;
pub mod events;
pub mod gates;
pub mod looks;
pub mod ours;
pub mod rng;
pub mod timing;
pub mod whole;
