//! Holds a library to the text beside it, SOURCES: a line for the archive and for each source that
//! it is made from, in the form of sha256sum.

use std::fs;
use std::path::Path;

use crate::sha256;
use crate::ARCHIVE;

const REMEDY: &str = "run tools/dist, or build with SHEAFSLEDGE_PROVE=1";

/// Whether the archive in a folder is the one that its text speaks of, and each source too, where
/// they are at hand.
pub fn hold(folder: &Path, root: Option<&Path>) -> Result<(), String> {
    let text = folder.join("SOURCES");
    println!("cargo::rerun-if-changed={}", text.display());
    let Ok(said) = fs::read_to_string(&text) else {
        return Err(format!(
            "there is no {}, which says what the library is made from: {REMEDY}, or set \
             SHEAFSLEDGE_LIB to a folder that holds {ARCHIVE}",
            text.display()
        ));
    };
    let mut is_named = false;
    for line in said.lines().filter(|line| !line.starts_with('#')) {
        let (hash, name) = line
            .split_once("  ")
            .ok_or_else(|| format!("{} has a line that is none of its: {line}", text.display()))?;
        if name.ends_with(ARCHIVE) {
            is_named = true;
            hold_archive(&folder.join(ARCHIVE), hash)?;
        } else if let Some(root) = root {
            hold_source(root, name, hash, folder)?;
        }
    }
    match is_named {
        true => Ok(()),
        false => Err(format!("{} has no line for {ARCHIVE}", text.display())),
    }
}

fn hold_archive(path: &Path, hash: &str) -> Result<(), String> {
    match hash_of(path) {
        Some(held) if held == hash => Ok(()),
        Some(_) => Err(format!(
            "{} is not the archive that SOURCES beside it speaks of: {REMEDY}",
            path.display()
        )),
        None => Err(format!("there is no {}: {REMEDY}", path.display())),
    }
}

fn hold_source(root: &Path, name: &str, hash: &str, folder: &Path) -> Result<(), String> {
    let path = root.join(name);
    println!("cargo::rerun-if-changed={}", path.display());
    match hash_of(&path) {
        Some(held) if held == hash => Ok(()),
        found => Err(format!(
            "{} is stale: {name} {} since it was made: {REMEDY}",
            folder.join(ARCHIVE).display(),
            found.map_or("has gone", |_| "has changed")
        )),
    }
}

fn hash_of(path: &Path) -> Option<String> {
    fs::read(path).ok().map(|bytes| sha256::hex(&bytes))
}
