//! Where the answers go: standard output, or with `-o` a file that appears whole or not at all.

use std::ffi::{OsStr, OsString};
use std::fs::{self, File, Metadata, OpenOptions};
use std::io::{self, ErrorKind, IsTerminal, Write};
use std::os::fd::AsFd;
use std::path::{Path, PathBuf};
use std::process;

use crate::input::{is_standard, shown};
use crate::status::Failure;

/// How much is written at once.
const ROOM: usize = 1 << 18;

/// How many names are tried for the temporary file.
const NAMES: usize = 100;

/// Linux's numbers for `No such file or directory` and `Is a directory`.
const ENOENT: i32 = 2;
const EISDIR: i32 = 21;

pub struct Output {
    name: String,
    file: File,
    pending: Option<Pending>,
    text: Vec<u8>,
    /// How much may come together before it is written: on a terminal, not a line.
    most: usize,
    terminal: bool,
}

impl Output {
    /// Standard output if there is no word, or `-`.
    pub fn open(word: Option<&OsStr>) -> Result<Self, Failure> {
        match word.filter(|word| !is_standard(word)) {
            None => {
                let name = "standard output";
                standard().map_err(|error| Failure::written(name, error))
            }
            Some(word) => file(word).map_err(|error| Failure::file(&shown(word), error)),
        }
    }

    /// A file that appears whole or not at all: standard output and devices can't.
    pub fn whole(word: &OsStr) -> Result<Self, Failure> {
        let opened = match about(word) {
            Ok(Some(about)) if !about.is_file() && !about.is_dir() => Err(no_file()),
            Ok(_) if is_standard(word) => Err(no_file()),
            Ok(_) => file(word),
            Err(error) => Err(error),
        };
        opened.map_err(|error| Failure::file(&shown(word), error))
    }

    fn new(name: String, file: File, pending: Option<Pending>) -> Self {
        let terminal = file.is_terminal();
        let (most, text) = match terminal {
            true => (1, Vec::new()),
            false => (ROOM, Vec::with_capacity(ROOM + ROOM / 2)),
        };
        Self {
            name,
            file,
            pending,
            text,
            most,
            terminal,
        }
    }

    /// What is to be written; `settle` has to be called now and then.
    #[inline]
    pub fn text(&mut self) -> &mut Vec<u8> {
        &mut self.text
    }

    /// Writes if enough has come together.
    #[inline]
    pub fn settle(&mut self) -> io::Result<()> {
        match self.text.len() < self.most {
            true => Ok(()),
            false => self.flush(),
        }
    }

    pub fn flush(&mut self) -> io::Result<()> {
        self.file.write_all(&self.text)?;
        self.text.clear();
        Ok(())
    }

    pub fn is_terminal(&self) -> bool {
        self.terminal
    }

    /// What is said where it can't be written.
    pub fn failure(&self, error: io::Error) -> Failure {
        Failure::written(&self.name, error)
    }

    /// What `-o` was told, as it is shown; none for what can't appear at once, as a terminal.
    pub fn pending(&self) -> Option<&str> {
        self.pending.as_ref().map(|_| self.name.as_str())
    }

    /// Writes the rest, and has a file appear.
    pub fn finish(mut self) -> Result<(), Failure> {
        let mut finished = self.flush();
        if let Some(pending) = self.pending.take() {
            finished = finished.and_then(|()| pending.appear(&self.file));
        }
        finished.map_err(|error| self.failure(error))
    }
}

/// Finishes several: none of them appears before all are written.
pub fn finish_all(mut outputs: Vec<Output>) -> Result<(), Failure> {
    for output in &mut outputs {
        let mut written = output.flush();
        if output.pending.is_some() {
            written = written.and_then(|()| output.file.sync_all());
        }
        written.map_err(|error| output.failure(error))?;
    }
    outputs.into_iter().try_for_each(Output::finish)
}

fn standard() -> io::Result<Output> {
    // As a file: the standard library's own writer looks for line ends.
    let file = File::from(io::stdout().as_fd().try_clone_to_owned()?);
    Ok(Output::new("standard output".into(), file, None))
}

/// What is there under that name, if anything is.
fn about(word: &OsStr) -> io::Result<Option<Metadata>> {
    match fs::metadata(word) {
        Ok(about) => Ok(Some(about)),
        Err(error) if error.kind() == ErrorKind::NotFound => Ok(None),
        Err(error) => Err(error),
    }
}

fn no_file() -> io::Error {
    io::Error::other("not a file, so it cannot appear whole or not at all")
}

/// A device or a pipe is written as it is: a rename would replace it.
fn file(word: &OsStr) -> io::Result<Output> {
    let wanted = Path::new(word);
    let about = about(word)?;
    let (file, pending) = match about {
        Some(about) if !about.is_file() => (OpenOptions::new().write(true).open(wanted)?, None),
        about => {
            let (file, pending) = Pending::new(wanted, about.as_ref())?;
            (file, Some(pending))
        }
    };
    Ok(Output::new(shown(word), file, pending))
}

/// A file under another name in the folder of the one that is wanted. Dropped before it appears, it
/// is removed.
struct Pending {
    at: PathBuf,
    wanted: PathBuf,
    appeared: bool,
}

impl Pending {
    /// A file that is there already stays as it is until then, and lends its permissions.
    fn new(wanted: &Path, old: Option<&Metadata>) -> io::Result<(File, Self)> {
        // A link stays, and what it leads to is replaced.
        let wanted = match old {
            Some(_) => fs::canonicalize(wanted)?,
            None => wanted.into(),
        };
        if ends_in_a_slash(&wanted) {
            return Err(io::Error::from_raw_os_error(EISDIR));
        }
        if wanted.file_name().is_none() {
            return Err(io::Error::from_raw_os_error(ENOENT));
        }
        let (file, at) = beside(&wanted)?;
        let appeared = false;
        let pending = Self {
            at,
            wanted,
            appeared,
        };
        if let Some(old) = old {
            file.set_permissions(old.permissions())?;
        }
        Ok((file, pending))
    }

    /// The bytes are kept before the name is, so that the name never stands for a part of them.
    fn appear(mut self, file: &File) -> io::Result<()> {
        file.sync_all()?;
        fs::rename(&self.at, &self.wanted)?;
        self.appeared = true;
        Ok(())
    }
}

impl Drop for Pending {
    fn drop(&mut self) {
        if !self.appeared {
            let _ = fs::remove_file(&self.at);
        }
    }
}

/// A new file in the same folder, under a name that nobody has.
fn beside(wanted: &Path) -> io::Result<(File, PathBuf)> {
    let mut tried = 0;
    loop {
        let mut name = OsString::from(".sheafsledge-");
        name.push(format!("{}-{tried}.part", process::id()));
        let at = wanted.with_file_name(name);
        match OpenOptions::new().write(true).create_new(true).open(&at) {
            Ok(file) => return Ok((file, at)),
            Err(error) if error.kind() == ErrorKind::AlreadyExists && tried < NAMES => tried += 1,
            Err(error) => return Err(error),
        }
    }
}

fn ends_in_a_slash(path: &Path) -> bool {
    path.as_os_str().as_encoded_bytes().ends_with(b"/")
}
