//! What `compare/run` and `compare/fuzz` share: cases, and the library's answers beside the seller's.

mod blocks;
pub mod compare;
mod dirents;
mod elements;
mod frames;
mod harmed;
mod in_rust;
pub mod kinds;
mod limits;
mod others;
mod over;
mod pieces;
mod places;
mod raw;
pub mod rows;
mod stretches;
mod tables;
mod theirs;
mod two;
