//! Links the proved library, `libsheafsledge.a`. It is
//!
//! - the one in the folder that SHEAFSLEDGE_LIB names, as it is; or
//! - where SHEAFSLEDGE_PROVE is set, the one that the toolchain proves here, in target/dist; or
//! - the one in dist, if it is made from the sources that stand beside it.
//!
//! One that cannot be taken is refused in a line, and nothing else is taken in its place.

mod archive;
#[path = "../src/boundary.rs"]
mod boundary;
mod proving;
mod sha256;
mod sources;

use std::os::unix::process::parent_id;
use std::path::{Path, PathBuf};
use std::{env, fs};

use boundary::BOUNDARY;

const ARCHIVE: &str = "libsheafsledge.a";

fn main() {
    // For another machine there is nothing to link, and the crate says so when it is compiled.
    let is = |name: &str, value: &str| env::var(name).is_ok_and(|held| held == value);
    if !is("CARGO_CFG_TARGET_ARCH", "x86_64") || !is("CARGO_CFG_TARGET_OS", "linux") {
        return;
    }
    if let Err(why) = folder().and_then(|folder| link(&folder)) {
        // Cargo fails the build for these lines; a panic would add a dozen more.
        for line in why.lines() {
            println!("cargo::error={line}");
        }
    }
}

/// The folder that holds the library.
fn folder() -> Result<PathBuf, String> {
    if let Some(named) = set("SHEAFSLEDGE_LIB") {
        return held(from_the_caller(named)?);
    }
    let here = PathBuf::from(env::var_os("CARGO_MANIFEST_DIR").expect("cargo sets it"));
    let root = repository(&here);
    let asked = set("SHEAFSLEDGE_PROVE").filter(|value| value != Path::new("0"));
    let folder = match (asked, root) {
        (None, _) => root.unwrap_or(&here).join("dist"),
        (Some(_), Some(root)) => proving::proved(root)?,
        (Some(_), None) => return Err("SHEAFSLEDGE_PROVE: no sources to prove are here".into()),
    };
    sources::hold(&folder, root).map(|()| folder)
}

fn held(folder: PathBuf) -> Result<PathBuf, String> {
    match folder.join(ARCHIVE).is_file() {
        true => Ok(folder),
        false => Err(format!(
            "SHEAFSLEDGE_LIB: there is no {ARCHIVE} in {}",
            folder.display()
        )),
    }
}

/// What a variable holds, if that is anything.
fn set(variable: &str) -> Option<PathBuf> {
    println!("cargo::rerun-if-env-changed={variable}");
    let value = env::var_os(variable).filter(|value| !value.is_empty());
    value.map(PathBuf::from)
}

/// The repository that the crate stands in. A packaged or vendored copy stands in none, whatever
/// may lie beside it.
fn repository(here: &Path) -> Option<&Path> {
    let root = here.parent()?.parent()?;
    (here.ends_with("rust/sys") && root.join("crates.txt").is_file()).then_some(root)
}

/// A relative name counts from the folder in which cargo was called. This runs in another one, but
/// cargo itself is still there.
fn from_the_caller(named: PathBuf) -> Result<PathBuf, String> {
    if named.is_absolute() {
        return Ok(named);
    }
    println!("cargo::rerun-if-env-changed=PWD");
    match fs::read_link(format!("/proc/{}/cwd", parent_id())) {
        Ok(caller) => Ok(caller.join(named)),
        Err(_) => Err(format!(
            "SHEAFSLEDGE_LIB is {}, and it cannot be told from where: name the folder in full",
            named.display()
        )),
    }
}

/// Has the library linked that a folder holds, if it is of this boundary.
fn link(folder: &Path) -> Result<(), String> {
    let path = folder.join(ARCHIVE);
    println!("cargo::rerun-if-changed={}", path.display());
    let bytes = fs::read(&path).map_err(|error| format!("{}: {error}", path.display()))?;
    let symbol = format!("sheafsledge_boundary_{BOUNDARY}");
    if !archive::defines(&bytes, &symbol) {
        return Err(format!(
            "{} is a library of another boundary than this crate's, {BOUNDARY} (it has no {symbol}): \
             take one that is made from this crate's own sources",
            path.display()
        ));
    }
    if archive::is_unproved(&bytes) {
        println!("cargo::warning={} is not proved", path.display());
    }
    println!("cargo::rustc-link-search=native={}", folder.display());
    println!("cargo::rustc-link-lib=static=sheafsledge");
    Ok(())
}
