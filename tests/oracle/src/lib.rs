//! What the two programs share: the unchanged Rust (`pickle`, the judge) and what stands around it.

pub mod answer;
pub mod hex;
pub mod pickle;
pub mod refusal;
pub mod serve;
pub mod table;
