//! The seller's server over our crate, as `swapped` is, but for its `readdir`: ours packs the entries.

#[path = "../../../../rust/examples/swap/protocol/mod.rs"]
pub mod protocol;

/// What only the seller's `readdir` needed is left over.
#[allow(dead_code, unused_imports)]
pub mod server {
    mod readdir;

    include!(concat!(env!("OUT_DIR"), "/server/mod.rs"));
}

include!(concat!(env!("OUT_DIR"), "/syscall.rs"));

pub(crate) use syscall;
