//! Brings the text of the seller's server in, without its `readdir`, and nothing of its protocol.

#[path = "../p9/bring.rs"]
mod bring;

fn main() {
    println!("cargo::rerun-if-changed=build.rs");
    bring::packing_server();
}
