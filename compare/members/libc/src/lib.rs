//! The names of `libc` that the seller's text asks for.
//!
//! The protocol asks for `c_char` alone, the server for the rest, whose numbers and layouts are
//! those of 64-bit Linux on x86 with the GNU C library.

// They are C's names.
#![allow(non_camel_case_types)]

pub use core::ffi::{c_char, c_int, c_long};

#[cfg(all(target_arch = "x86_64", target_os = "linux", target_env = "gnu"))]
mod calls;
#[cfg(all(target_arch = "x86_64", target_os = "linux", target_env = "gnu"))]
mod numbers;
#[cfg(all(target_arch = "x86_64", target_os = "linux", target_env = "gnu"))]
mod records;
#[cfg(all(target_arch = "x86_64", target_os = "linux", target_env = "gnu"))]
mod steady;

#[cfg(all(target_arch = "x86_64", target_os = "linux", target_env = "gnu"))]
pub use {calls::*, numbers::*, records::*, steady::*};
