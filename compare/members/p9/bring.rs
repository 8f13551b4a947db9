//! Brings the seller's files in, for the build scripts of this crate, of `swapped` and of `packing`.
#![allow(dead_code)] // Each brings its own.

use std::path::{Path, PathBuf};
use std::{env, fs, io};

type Bring = fn(&Path, &Path) -> io::Result<()>;

pub fn protocol() {
    for file in ["wire_format.rs", "messages.rs"] {
        brought(&source().join(file), file, whole);
    }
}

pub fn server() {
    server_by(whole);
}

/// The same server without its `readdir`, which a method of ours takes the place of.
pub fn packing_server() {
    server_by(without_readdir);
}

fn server_by(bring: Bring) {
    let above = source().join("..");
    for (file, bring) in [("server/mod.rs", bring), ("server/read_dir.rs", whole)] {
        brought(&above.join(file), file, bring);
    }
    brought(&above.join("lib.rs"), "syscall.rs", syscall);
}

fn brought(from: &Path, file: &str, bring: Bring) {
    println!("cargo::rerun-if-env-changed=P9_SRC");
    println!("cargo::rerun-if-changed={}", from.display());
    if let Err(error) = bring(from, &cargo_folder("OUT_DIR").join(file)) {
        // Cargo fails the build for this line; a failing status would add a dozen more.
        println!(
            "cargo::error=cannot take {}: {error}; see P9_SRC",
            from.display()
        );
    }
}

/// The folder of the seller's protocol; its server stands beside that.
fn source() -> PathBuf {
    match env::var_os("P9_SRC") {
        Some(folder) if !folder.is_empty() => folder.into(),
        _ => cargo_folder("CARGO_MANIFEST_DIR").join("../../../../shared/docs/src/src/protocol"),
    }
}

fn cargo_folder(name: &str) -> PathBuf {
    env::var_os(name).expect("cargo sets it").into()
}

/// Not `fs::copy`, which would carry a read-only mode over and fail at the next build.
fn whole(from: &Path, to: &Path) -> io::Result<()> {
    put(to, &fs::read(from)?)
}

/// The macro that the server calls the system with. It ends the seller's lib.rs, whose start
/// can only be the start of a crate.
fn syscall(from: &Path, to: &Path) -> io::Result<()> {
    let text = fs::read_to_string(from)?;
    match text.find("macro_rules! syscall") {
        Some(start) => put(to, text[start..].as_bytes()),
        None => Err(io::Error::other("it has no macro named syscall")),
    }
}

/// All but the one function of that name, up to the brace that closes it. If a brace in a string or a
/// comment were counted, what is left would be no Rust.
fn without_readdir(from: &Path, to: &Path) -> io::Result<()> {
    let text = fs::read_to_string(from)?;
    let parts: Vec<&str> = text.split("fn readdir(").collect();
    let [before, after] = parts[..] else {
        let times = parts.len() - 1;
        let told = format!("it has {times} functions named readdir, and not one");
        return Err(io::Error::other(told));
    };
    match closed(after) {
        Some(end) => put(to, [before, &after[end..]].concat().as_bytes()),
        None => Err(io::Error::other("no brace closes its readdir")),
    }
}

/// Where the first block of a text ends.
fn closed(text: &str) -> Option<usize> {
    let mut open = 0_usize;
    for (place, byte) in text.bytes().enumerate() {
        match byte {
            b'{' => open += 1,
            b'}' => open = open.checked_sub(1)?,
            _ => continue,
        }
        if open == 0 {
            return Some(place + 1);
        }
    }
    None
}

fn put(to: &Path, text: &[u8]) -> io::Result<()> {
    if let Some(folder) = to.parent() {
        fs::create_dir_all(folder)?;
    }
    fs::write(to, text)
}
