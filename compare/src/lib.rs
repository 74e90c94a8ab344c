//! The part of the comparison that knows nothing of the Rattle library: what the paper says, as ordinary Rust,
//! and the inputs that are made from it.

#![forbid(unsafe_code)]

pub mod drills;
pub mod histories;
pub mod law;
pub mod making;
pub mod paper;
pub mod rack;
pub mod random;
pub mod samples;
