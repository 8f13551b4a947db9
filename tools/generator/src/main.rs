//! Writes what is the same for every message from the tables, and what is the same for every dialect: messages ROOT OUT
//!
//! tools/messages calls it, lays what it writes out by `rt fmt` and compares it with the tree. Nothing here has to be trusted: the prover
//! checks what is written, against tables that are written by hand.

mod bodies;
mod derived;
mod flats;
mod names;
mod records;
mod rust;
mod table;

use crate::table::{Dialect, Table};
use std::path::{Path, PathBuf};
use std::process::ExitCode;
use std::{env, fs};

/// The files that are to be written, by their paths from the root of the repository.
#[derive(Default)]
pub struct Files(Vec<(String, String)>);

impl Files {
    /// Each file says in its first line where it comes from.
    pub fn put(&mut self, path: String, text: String) {
        let comment = if path.ends_with(".antt") { "--" } else { "//" };
        let head = format!("{comment} Written by tools/messages from its table of messages.\n");
        self.0.push((path, head + &text));
    }

    /// What answers the goals of a function, by its crate and its path there, as `sessions.read_tversion`.
    pub fn answers(&mut self, krate: &str, path: &str, text: String) {
        let folder = path.replace('.', "/");
        self.put(format!("crates/{krate}/proofs/{folder}/Answers.antt"), text);
    }

    /// One that is another file's text in the words of a dialect.
    pub fn derive(&mut self, path: String, from: &str, text: String) {
        let comment = if path.ends_with(".antt") { "--" } else { "//" };
        let head = format!("{comment} Written by tools/messages from {from}.\n");
        self.0.push((path, head + &text));
    }
}

fn read(path: &Path) -> Result<String, String> {
    fs::read_to_string(path).map_err(|why| format!("{}: {why}", path.display()))
}

fn table(root: &Path, dialect: Dialect, name: &str, others: &[&Table]) -> Result<Table, String> {
    let text = read(&root.join("tools/generator").join(name))?;
    Table::parsed(dialect, &text, others).map_err(|why| format!("{name}, {why}"))
}

fn written(root: &Path, out: &Path) -> Result<(), String> {
    let l = table(root, table::L, "messages.txt", &[])?;
    let plain = table(root, table::PLAIN, "plain.txt", &[&l])?;
    let unix = table(root, table::UNIX, "unix.txt", &[&l, &plain])?;
    let mut files = Files::default();
    for table in [&l, &plain, &unix] {
        records::write(table, &mut files);
        bodies::write(table, &mut files);
        flats::write(table, &mut files);
    }
    rust::write(&l, &[&plain, &unix], &mut files);
    for table in [&plain, &unix] {
        derived::write(root, table, &mut files)?;
    }
    for (path, text) in files.0 {
        let path = out.join(path);
        let folder = path.parent().unwrap_or(out);
        let done = fs::create_dir_all(folder).and_then(|()| fs::write(&path, text));
        done.map_err(|why| format!("{}: {why}", path.display()))?;
    }
    Ok(())
}

fn main() -> ExitCode {
    let words: Vec<PathBuf> = env::args_os().skip(1).map(PathBuf::from).collect();
    let done = match &words[..] {
        [root, out] => written(root, out),
        _ => Err("usage: messages ROOT OUT".to_string()),
    };
    match done {
        Ok(()) => ExitCode::SUCCESS,
        Err(why) => {
            eprintln!("messages: {why}");
            ExitCode::FAILURE
        }
    }
}
