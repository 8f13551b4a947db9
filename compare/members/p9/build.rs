//! Brings the seller's files in, byte for byte, so that none of that text is kept here.

#[path = "bring.rs"]
mod bring;

use std::env;

fn main() {
    println!("cargo::rerun-if-changed=build.rs");
    bring::protocol();
    if env::var_os("CARGO_FEATURE_SERVER").is_some() {
        bring::server();
    }
}
