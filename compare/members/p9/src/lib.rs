//! The seller's frames, built from the seller's own text, for comparing against.

#[macro_use]
mod variants;

pub mod draw;
pub mod flat;
pub mod show;

/// The seller's text names this module by its path in the crate.
pub mod protocol {
    pub mod wire_format {
        include!(concat!(env!("OUT_DIR"), "/wire_format.rs"));
    }

    pub mod messages {
        include!(concat!(env!("OUT_DIR"), "/messages.rs"));
    }

    pub use messages::*;
    pub use wire_format::{Data, P9String, WireFormat};
}

/// A field that the seller's text never reads is no matter of ours.
#[cfg(feature = "server")]
#[allow(dead_code)]
pub mod server {
    include!(concat!(env!("OUT_DIR"), "/server/mod.rs"));
}

#[cfg(feature = "server")]
include!(concat!(env!("OUT_DIR"), "/syscall.rs"));

#[cfg(feature = "server")]
pub(crate) use syscall;
