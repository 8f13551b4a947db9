//! Stands in for p9's module `protocol`: its names, its owned records, and `WireFormat` for frames and
//! directory entries, over sheafsledge. What is meant to differ is this: a request is taken from the
//! stream whole, by its declared size, so that nothing of it is read as the next one.
//!
//! Records are owned, as p9's are, so what is read is copied once; a server that wants that time, too,
//! takes sheafsledge's own records, which borrow.

// A server need not use all of it.
#![allow(dead_code, unused_imports)]

mod records;
mod strings;
mod wire;

pub use records::*;
pub use strings::{Data, P9String};
pub use wire::WireFormat;
