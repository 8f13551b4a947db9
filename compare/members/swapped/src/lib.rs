//! The seller's server, its own text, over our crate: the module that a user copies stands in for the
//! seller's protocol. Nothing of the server is touched.

#[path = "../../../../rust/examples/swap/protocol/mod.rs"]
pub mod protocol;

/// A field that the seller's text never reads is no matter of ours.
#[allow(dead_code)]
pub mod server {
    include!(concat!(env!("OUT_DIR"), "/server/mod.rs"));
}

include!(concat!(env!("OUT_DIR"), "/syscall.rs"));

pub(crate) use syscall;
