//! The clock box in plain Rust, by its rules alone: a second opinion on the proved one, and something to measure it against.
pub mod hand;
pub mod machine;
pub mod night;
pub mod replay;
pub mod sha256;
pub mod spans;
pub mod station;
pub mod text;
