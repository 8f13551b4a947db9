//! Proves the library in the repository.

use std::collections::VecDeque;
use std::io::{self, BufRead, BufReader};
use std::path::{Path, PathBuf};
use std::process::{Command, Stdio};

/// How many lines of what was said are passed on.
const LAST: usize = 16;

/// The folder of the library that is proved from the sources, definitions and proofs at hand.
pub fn proved(root: &Path) -> Result<PathBuf, String> {
    println!("cargo::rerun-if-changed={}", root.join("crates").display());
    // Cargo shows this in the end, and what tools/dist says meanwhile only if it is asked for it.
    println!(
        "cargo::warning=SHEAFSLEDGE_PROVE: the library is proved from {} by tools/dist --prove, \
         in minutes where nothing is proved yet; `cargo build -vv` shows how far it is",
        root.join("crates").display()
    );
    match run(root) {
        Ok((true, _)) => Ok(root.join("target/dist")),
        Ok((false, said)) => Err(said.join("\n")),
        Err(error) => Err(format!("cannot run tools/dist: {error}")),
    }
}

/// Whether it succeeded, and the last lines of what it said.
fn run(root: &Path) -> io::Result<(bool, Vec<String>)> {
    let mut child = Command::new(root.join("tools/dist"))
        .arg("--prove")
        .current_dir(root)
        .stdin(Stdio::null())
        .stdout(Stdio::null())
        .stderr(Stdio::piped())
        .spawn()?;
    let mut said = VecDeque::new();
    for line in child.stderr.take().into_iter().flat_map(lines) {
        eprintln!("{line}");
        said.push_back(line);
        if said.len() > LAST {
            said.pop_front();
        }
    }
    Ok((child.wait()?.success(), said.into()))
}

/// The prover's terms are no more than text to be shown, so that what is no UTF-8 is shown as such.
fn lines(from: impl io::Read) -> impl Iterator<Item = String> {
    let lines = BufReader::new(from).split(b'\n').map_while(Result::ok);
    lines.map(|line| String::from_utf8_lossy(&line).into_owned())
}
