//! How the command ends, and what it says where it can't go on.

use std::io::{self, ErrorKind, Write};
use std::process::ExitCode;

use sheafsledge::Stop;

#[derive(Clone, Copy, Debug, PartialEq, Eq)]
pub enum Status {
    Sound = 0,
    /// A refusal, a tail or a stop.
    Unsound = 1,
    /// Bad usage, or a file that can't be read or written.
    Failed = 2,
    /// What a shell says of a program that a closed pipe has ended. Not all was looked at, so it is
    /// neither sound nor unsound.
    Closed = 141,
}

impl From<Status> for ExitCode {
    fn from(status: Status) -> Self {
        ExitCode::from(status as u8)
    }
}

/// Why nothing more is done.
#[derive(Debug)]
pub enum Failure {
    /// What is wrong with the words, and the command whose help says more.
    Usage { command: String, what: String },
    /// A file by its name.
    File { name: String, error: io::Error },
    /// Nobody reads the output any more.
    Closed,
}

impl Failure {
    /// Of a subcommand, or with "" of the command itself.
    pub fn usage(command: &str, what: String) -> Self {
        let command = command.into();
        Self::Usage { command, what }
    }

    pub fn file(name: &str, error: io::Error) -> Self {
        let name = name.into();
        Self::File { name, error }
    }

    /// As `file`, of one that is written: if it is a pipe, it may be closed.
    pub fn written(name: &str, error: io::Error) -> Self {
        match error.kind() {
            ErrorKind::BrokenPipe => Self::Closed,
            _ => Self::file(name, error),
        }
    }

    /// Says it, in one line, and what the status is by it.
    pub fn said(self) -> Status {
        match self {
            Self::Usage { command, what } => {
                let gap = if command.is_empty() { "" } else { " " };
                say(&format!("{what}; try 'sheafsledge{gap}{command} --help'"));
                Status::Failed
            }
            Self::File { name, error } => {
                say(&format!("{name}: {}", reason(&error)));
                Status::Failed
            }
            Self::Closed => Status::Closed,
        }
    }
}

/// Says why a file of that name is refused and where, and what else there is to say.
pub fn refused(name: &str, stop: Stop, more: &str) -> Status {
    let Stop { at, refusal } = stop;
    let (number, sentence) = (refusal.number(), refusal.sentence());
    say(&format!(
        "{name}: refused with {number} at byte {at}: {sentence}{more}"
    ));
    Status::Unsound
}

/// A line on standard error. If that can't be written either, nobody is left to be told.
pub fn say(line: &str) {
    let _ = writeln!(io::stderr(), "sheafsledge: {line}");
}

/// What the system says, without its number: `No such file or directory`.
fn reason(error: &io::Error) -> String {
    let text = error.to_string();
    match text.rfind(" (os error ") {
        Some(end) if error.raw_os_error().is_some() => text[..end].into(),
        _ => text,
    }
}
