//! Asks the seller's Rust for its answer to a frame, as a value that other programs can compare.

pub mod cases;
pub mod refusal;
pub mod stretch;
pub mod verdict;

pub use verdict::{judge, quietly, written, Accepted, Direction, Tagged, Verdict};
