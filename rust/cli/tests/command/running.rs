//! Runs the command, and says how it ended.

use std::fs;
use std::io::Write;
use std::path::{Path, PathBuf};
use std::process::{Command, Output, Stdio};
use std::sync::atomic::{AtomicUsize, Ordering};
use std::thread;

pub const SESSION: &[u8] = include_bytes!("../../../../examples/diod-session.bin");

/// What the lister has to print of the session ends this file, in one line, a bar for each line
/// end. The seller's crate made it (`compare/oracle listing`).
const ANSWERS: &str = include_str!("../../../../crates/reply_cases/stdout");

/// A Tflush with a tail of two bytes, and a frame of no known type.
pub const TAIL: &[u8] = b"\x0b\0\0\0\x6c\x01\0\x02\0\xaa\xbb";
pub const UNKNOWN: &[u8] = b"\x07\0\0\0\x6a\x05\0";

pub fn sellers_listing() -> String {
    let line = ANSWERS.lines().last().expect("the session's listing");
    let start = line.find("at size").expect("the header");
    line[start..].replace('|', "\n")
}

pub fn command() -> Command {
    let mut command = Command::new(env!("CARGO_BIN_EXE_sheafsledge"));
    command.env_remove("NO_COLOR");
    command
}

/// The status, and what went to standard output and to standard error.
#[derive(Debug, PartialEq, Eq)]
pub struct Ran {
    pub status: Option<i32>,
    pub out: String,
    pub err: String,
}

impl Ran {
    pub fn of(output: Output) -> Self {
        Self {
            status: output.status.code(),
            out: String::from_utf8(output.stdout).expect("text"),
            err: String::from_utf8(output.stderr).expect("text"),
        }
    }
}

pub fn run(words: &[&str]) -> Ran {
    run_on(words, b"")
}

/// With these bytes on standard input.
pub fn run_on(words: &[&str], input: &[u8]) -> Ran {
    let mut command = command();
    command.args(words).stdin(Stdio::piped());
    command.stdout(Stdio::piped()).stderr(Stdio::piped());
    let mut child = command.spawn().expect("it starts");
    let mut stdin = child.stdin.take().expect("a pipe");
    thread::scope(|scope| {
        // It may end before it has read all.
        scope.spawn(move || stdin.write_all(input));
        Ran::of(child.wait_with_output().expect("it ends"))
    })
}

/// A folder of a test's own, removed in the end.
pub struct Folder(PathBuf);

impl Folder {
    pub fn new() -> Self {
        static COUNT: AtomicUsize = AtomicUsize::new(0);
        let count = COUNT.fetch_add(1, Ordering::Relaxed);
        let name = format!("sheafsledge-{}-{count}", std::process::id());
        let folder = std::env::temp_dir().join(name);
        fs::create_dir_all(&folder).expect("a folder");
        Self(folder)
    }

    pub fn path(&self) -> &Path {
        &self.0
    }

    /// The path of a file with these bytes.
    pub fn file(&self, name: &str, bytes: &[u8]) -> String {
        let path = self.0.join(name);
        fs::write(&path, bytes).expect("a file");
        path.to_str().expect("text").into()
    }

    /// The path of what is not there.
    pub fn no_file(&self, name: &str) -> String {
        self.0.join(name).to_str().expect("text").into()
    }

    /// The names of all that is there.
    pub fn names(&self) -> Vec<String> {
        let entries = fs::read_dir(&self.0).expect("a folder");
        let name = |entry: fs::DirEntry| entry.file_name().to_string_lossy().into_owned();
        let mut names: Vec<_> = entries
            .map(|entry| name(entry.expect("an entry")))
            .collect();
        names.sort();
        names
    }
}

impl Drop for Folder {
    fn drop(&mut self) {
        let _ = fs::remove_dir_all(&self.0);
    }
}
