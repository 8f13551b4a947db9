//! The two programs, and what they say of the same bytes.

use std::io::Write;
use std::ops::AddAssign;
use std::process::{Command, Stdio};
use std::thread;

#[derive(Clone, Copy)]
pub struct Programs<'a> {
    pub lister: &'a str,
    pub command: &'a str,
}

/// What a listing came to.
#[derive(Default)]
pub struct Said {
    pub frames: usize,
    pub tails: usize,
    pub refused: usize,
    pub stops: usize,
}

impl AddAssign for Said {
    fn add_assign(&mut self, other: Self) {
        self.frames += other.frames;
        self.tails += other.tails;
        self.refused += other.refused;
        self.stops += other.stops;
    }
}

impl Programs<'_> {
    /// What both say, or in which line they differ; the command's status has to fit.
    pub fn list(self, bytes: &[u8]) -> Result<Said, String> {
        let (_, theirs) = run(self.lister, &[], bytes)?;
        let (status, ours) = run(self.command, &["list", "-"], bytes)?;
        if ours != theirs {
            return Err(difference(&theirs, &ours));
        }
        let said = said(&theirs);
        let sound = said.tails + said.refused + said.stops == 0;
        match status == Some(if sound { 0 } else { 1 }) {
            true => Ok(said),
            false => Err(format!("the command's status is {status:?}")),
        }
    }
}

/// The status, and what went to standard output.
fn run(program: &str, words: &[&str], bytes: &[u8]) -> Result<(Option<i32>, String), String> {
    let failed = |error| format!("{program}: {error}");
    let mut command = Command::new(program);
    command
        .args(words)
        .stdin(Stdio::piped())
        .stdout(Stdio::piped());
    let mut child = command.stderr(Stdio::null()).spawn().map_err(failed)?;
    let stdin = child.stdin.take();
    let output = thread::scope(|scope| {
        // What it does not read can't be written.
        scope.spawn(move || stdin.map(|mut stdin| stdin.write_all(bytes)));
        child.wait_with_output()
    });
    let output = output.map_err(failed)?;
    let text = String::from_utf8_lossy(&output.stdout).into_owned();
    Ok((output.status.code(), text))
}

fn said(listing: &str) -> Said {
    let mut said = Said::default();
    for line in listing.lines().skip(1) {
        let columns: Vec<&str> = line.split(' ').collect();
        match columns.as_slice() {
            [_, _, _, _, answer, tail] => {
                said.frames += 1;
                said.refused += usize::from(*answer != "0");
                said.tails += usize::from(!["0", "-"].contains(tail));
            }
            ["stop", ..] => said.stops += 1,
            _ => {}
        }
    }
    said
}

fn difference(theirs: &str, ours: &str) -> String {
    let lines = theirs.lines().zip(ours.lines());
    match lines.enumerate().find(|(_, (theirs, ours))| theirs != ours) {
        Some((number, (theirs, ours))) => {
            format!(
                "line {}: the lister says '{theirs}', the command '{ours}'",
                number + 1
            )
        }
        None => format!(
            "the lister says {} bytes, the command {}",
            theirs.len(),
            ours.len()
        ),
    }
}
