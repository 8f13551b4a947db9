//! What is read: files, and `-`, which is standard input.

use std::ffi::OsStr;
use std::fs::File;
use std::io::{self, ErrorKind, Read, Seek, SeekFrom};
use std::os::fd::AsFd;

use crate::recording::Source;
use crate::terminal::Progress;

/// An open file, with a line on how far it is read where somebody waits for it.
pub struct Input {
    file: File,
    /// Whether bytes can be passed over unread.
    regular: bool,
    /// Where it was opened: standard input may have been read from before.
    start: u64,
    read: u64,
    progress: Progress,
}

impl Input {
    /// `watched` if somebody may look how far it is.
    pub fn open(word: &OsStr, watched: bool) -> io::Result<Self> {
        let mut file = match is_standard(word) {
            // As a file: the standard library's own reader would copy each byte once more.
            true => File::from(io::stdin().as_fd().try_clone_to_owned()?),
            false => File::open(word)?,
        };
        let about = file.metadata()?;
        if about.is_dir() {
            // The system has the words for it.
            let error = file.read(&mut [0]).err();
            return Err(error.unwrap_or(ErrorKind::IsADirectory.into()));
        }
        let regular = about.is_file();
        let start = match regular {
            true => file.stream_position()?,
            false => 0,
        };
        let progress = Progress::of(&named(word), regular.then_some(about.len()), watched);
        Ok(Self {
            file,
            regular,
            start,
            read: 0,
            progress,
        })
    }

    fn goes_on(&mut self, count: u64) {
        self.read += count;
        self.progress.at(self.read);
    }

    /// Over bytes that may be looked at but are not kept.
    fn read_over(&mut self, mut count: u64) -> io::Result<bool> {
        let mut dropped = [0; 1 << 16];
        while count > 0 {
            let most = count.min(dropped.len() as u64) as usize;
            match self.read(&mut dropped[..most]) {
                Ok(0) => return Ok(false),
                Ok(read) => count -= read as u64,
                Err(error) if error.kind() == ErrorKind::Interrupted => {}
                Err(error) => return Err(error),
            }
        }
        Ok(true)
    }
}

impl Read for Input {
    fn read(&mut self, room: &mut [u8]) -> io::Result<usize> {
        let read = self.file.read(room)?;
        self.goes_on(read as u64);
        Ok(read)
    }
}

impl Source for Input {
    fn pass(&mut self, count: u64) -> io::Result<bool> {
        let last = count.saturating_sub(1);
        if self.regular && last > 0 {
            // Past the end a file can be sought too, so the last byte is read.
            self.file.seek(SeekFrom::Current(last as i64))?;
            self.goes_on(last);
            return self.read_over(1);
        }
        self.read_over(count)
    }

    fn end(&mut self) -> io::Result<u64> {
        if self.regular {
            let end = self.file.seek(SeekFrom::End(0))?;
            return Ok(end.saturating_sub(self.start));
        }
        self.read_over(u64::MAX)?;
        Ok(self.read)
    }
}

/// All of a file, for who cannot go through it piece by piece.
pub fn all_of(word: &OsStr, watched: bool) -> io::Result<Vec<u8>> {
    let mut bytes = Vec::new();
    Input::open(word, watched)?.read_to_end(&mut bytes)?;
    Ok(bytes)
}

pub fn is_standard(word: &OsStr) -> bool {
    word == "-"
}

/// What a file is called in a line for people.
pub fn named(word: &OsStr) -> String {
    match is_standard(word) {
        true => "standard input".into(),
        false => shown(word),
    }
}

/// A word in one line, and without anything that a terminal would obey.
pub fn shown(word: &OsStr) -> String {
    let text = word.to_string_lossy();
    if text.is_empty() {
        return "''".into();
    }
    let mut shown = String::with_capacity(text.len());
    for letter in text.chars() {
        match letter.is_control() {
            true => shown.extend(letter.escape_default()),
            false => shown.push(letter),
        }
    }
    shown
}
