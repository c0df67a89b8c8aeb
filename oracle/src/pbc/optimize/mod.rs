//! Stands in for tzap's src/pbc/optimize/mod.rs (Apache-2.0, see NOTICE). words.rs beside this file is the original, unchanged.

mod words;

pub(crate) use words::{anticommutes as packed_anticommutes, support_signature};
