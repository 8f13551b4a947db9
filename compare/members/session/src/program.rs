//! The proved program, and what it says of a file.

use std::io::Write;
use std::process::{Command, Stdio};
use std::thread;

/// What goes to standard output. A word on standard error is a failure.
pub fn replay(program: &str, file: &[u8]) -> Result<Vec<u8>, String> {
    let failed = |error| format!("{program}: {error}");
    let mut command = Command::new(program);
    command.stdin(Stdio::piped()).stdout(Stdio::piped());
    let mut child = command.stderr(Stdio::piped()).spawn().map_err(failed)?;
    let stdin = child.stdin.take();
    let output = thread::scope(|scope| {
        // What it does not read can't be written.
        scope.spawn(move || stdin.map(|mut stdin| stdin.write_all(file)));
        child.wait_with_output()
    });
    let output = output.map_err(failed)?;
    match output.stderr.is_empty() {
        true => Ok(output.stdout),
        false => Err(String::from_utf8_lossy(&output.stderr).into_owned()),
    }
}

/// The first line that differs, with both texts.
pub fn difference(program: &[u8], session: &str) -> Option<String> {
    if program == session.as_bytes() {
        return None;
    }
    let program = String::from_utf8_lossy(program);
    let mut lines = program.lines().zip(session.lines()).enumerate();
    Some(match lines.find(|(_, (one, other))| one != other) {
        Some((number, (one, other))) => format!(
            "line {}: the program says '{one}', the second session '{other}'",
            number + 1
        ),
        None => format!(
            "the program says {} bytes, the second session {}",
            program.len(),
            session.len()
        ),
    })
}
