//! The seller's server on a stream of requests, in a folder of its own.

use std::path::PathBuf;
use std::{env, fs, io, process};

use judge::stretch::whole;
use p9::server::Server;

use crate::requests::FILE;

/// What came of a stream.
#[derive(Debug, PartialEq, Eq)]
pub struct Served {
    pub file: Vec<u8>,
    /// The type and the tag of each answer.
    pub answers: Vec<(u8, u16)>,
}

/// The seller's server reads from the stream itself, for as long as there are bytes. The crate
/// has no loop of its own: this one stands for its user's.
pub fn served(mut stream: &[u8]) -> io::Result<Served> {
    let folder = Folder::new()?;
    let mut server = Server::new(folder.0.clone(), Default::default(), Default::default())?;
    let mut answers = Vec::new();
    while !stream.is_empty() {
        server.handle_message(&mut stream, &mut answers)?;
    }
    Ok(Served {
        file: fs::read(folder.0.join(FILE))?,
        answers: marks(&answers)?,
    })
}

/// The type and the tag of each frame, by plain Rust: neither codec judges the seller's answers.
fn marks(mut answers: &[u8]) -> io::Result<Vec<(u8, u16)>> {
    let mut marks = Vec::new();
    while !answers.is_empty() {
        let refused = |refusal| io::Error::other(format!("an answer is refused with {refusal}"));
        let answer = whole(answers).map_err(refused)?;
        marks.push((answer[4], u16::from_le_bytes([answer[5], answer[6]])));
        answers = &answers[answer.len()..];
    }
    Ok(marks)
}

/// A new folder with an empty file, there until it is dropped.
struct Folder(PathBuf);

impl Folder {
    fn new() -> io::Result<Self> {
        let folder = env::temp_dir().join(format!("sheafsledge-accident-{}", process::id()));
        fs::create_dir(&folder)?;
        let folder = Self(folder);
        fs::write(folder.0.join(FILE), [])?;
        Ok(folder)
    }
}

impl Drop for Folder {
    fn drop(&mut self) {
        if let Err(error) = fs::remove_dir_all(&self.0) {
            eprintln!("accident: {} stays: {error}", self.0.display());
        }
    }
}
