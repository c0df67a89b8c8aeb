//! Our proved library held against the original Rust, call by call (`compare`), and against arbitrary contents (`damage`).
//! README.md says what is compared and when.

pub mod contents;
pub mod expected;
pub mod guard;
pub mod jobs;
pub mod openings;
pub mod pairs;
pub mod random;
pub mod run;
pub mod shrink;
pub mod sides;
pub mod tally;
pub mod words;
