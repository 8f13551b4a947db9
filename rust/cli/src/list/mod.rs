//! `sheafsledge list`: the proved lister's columns, for recordings of any length.

mod form;
pub mod json;
mod lines;
mod summary;

use std::ffi::{OsStr, OsString};
use std::io::{self, Write};
use std::mem::replace;

use crate::command::Command;
use crate::dialect::{self, Dialect, Plain, Unix, DIALECT, L};
use crate::help;
use crate::input::{is_standard, named, Input};
use crate::output::Output;
use crate::recording::{Recording, Source, PIECE};
use crate::status::{say, Failure, Status};
use crate::terminal::{error_is_terminal, is_watched, Paint};
use crate::words::{Opt, Words};

pub use form::{BodyOf, Form};
pub use json::Json;
pub use lines::{name_it, shade, Lines};
pub use summary::{entries, numbered, Summary};

pub const NAMES: Opt = Opt {
    long: "names",
    short: None,
    value: None,
    says: "adds the message's name ('?' if it is unknown) and, if the\n\
           frame is refused, why",
};

pub const JSON: Opt = Opt {
    long: "json",
    short: None,
    value: None,
    says: "prints an object a line instead, with the file, the name\n\
           and why a frame is refused",
};

pub const OUTPUT: Opt = Opt {
    long: "output",
    short: Some('o'),
    value: Some("FILE"),
    says: "writes to FILE, which appears whole or not at all",
};

pub const COMMAND: Command = Command {
    name: "list",
    says: "lists the frames of recordings, a line each",
    usage: "[OPTION].. FILE..",
    about: "\
Lists the frames of each recording, a line a frame; FILE '-' is standard input.
A recording is frames back to back and may have any length.

A line has the frame's position, its size, its type (even: a request; odd: a
reply), its tag, the answer and the tail. The answer is 0 if the frame is sound,
else the number of the refusal, and the tail is '-' then. The tail is how many
bytes follow the last field inside the frame. The last line is 'end BYTES
FRAMES', or 'stop POSITION NUMBER' where the recording is cut (12) or has a size
that no frame has (13). A summary goes to standard error.
",
    options: &[NAMES, JSON, DIALECT, OUTPUT, help::HELP],
    examples: &["list examples/diod-session.bin"],
    status: "0 if all is sound; 1 if there is a refusal, a tail or a stop",
    run,
};

fn run(words: &Words) -> Result<Status, Failure> {
    dialect::of(words, [run_in::<L>, run_in::<Plain>, run_in::<Unix>])?(words)
}

fn run_in<D: Dialect>(words: &Words) -> Result<Status, Failure> {
    let forms = (words.has(JSON.long), words.has(NAMES.long));
    listed(words, |paint, listing, files| match forms {
        (true, _) => listing.of(files, Json::<D>::of),
        (false, true) => listing.of(files, |_| Lines::<D, true>::new(paint)),
        (false, false) => listing.of(files, |_| Lines::<D, false>::new(paint)),
    })
}

/// At least one file, and standard input at most once.
pub fn named_files(words: &Words) -> Result<&[OsString], Failure> {
    let files = words.files();
    if files.is_empty() {
        return Err(words.wrong("name a file, or '-' for standard input".into()));
    }
    if files.iter().filter(|file| is_standard(file)).count() > 1 {
        return Err(words.wrong("standard input, '-', is named twice".into()));
    }
    Ok(files)
}

/// Where a file has to be written.
pub fn named_output(words: &Words) -> Result<&OsStr, Failure> {
    let output = words.value(OUTPUT.long);
    output.ok_or_else(|| words.wrong("name the FILE to write, with '-o'".into()))
}

/// The files that are named, by a command whose lines are a frame's each.
pub fn listed(
    words: &Words,
    form: impl FnOnce(Paint, Listing, &[OsString]) -> Result<Status, Failure>,
) -> Result<Status, Failure> {
    let files = named_files(words)?;
    let output = Output::open(words.value(OUTPUT.long))?;
    let watched = is_watched(output.is_terminal());
    let paint = Paint::on(output.is_terminal());
    let listing = Listing {
        output,
        watched,
        several: files.len() > 1,
        begun: false,
        summary: Summary::new(),
        failed: false,
    };
    form(paint, listing, files)
}

pub struct Listing {
    pub output: Output,
    pub watched: bool,
    several: bool,
    /// Whether anything is listed.
    begun: bool,
    pub summary: Summary,
    /// Whether a file could not be read.
    failed: bool,
}

impl Listing {
    /// Each file in its form, and the summary.
    pub fn of<F: Form>(
        self,
        files: &[impl AsRef<OsStr>],
        form: impl Fn(&OsStr) -> F,
    ) -> Result<Status, Failure> {
        self.each(files, |listing, file| listing.file(file, form(file)))
    }

    /// Each file as `one` lists it, and the summary. An inner error is of the file that is read: the
    /// others can still be.
    pub fn each(
        mut self,
        files: &[impl AsRef<OsStr>],
        one: impl Fn(&mut Self, &OsStr) -> Result<io::Result<()>, Failure>,
    ) -> Result<Status, Failure> {
        for file in files {
            let file = file.as_ref();
            if let Err(error) = one(&mut self, file)? {
                self.output
                    .flush()
                    .map_err(|error| self.output.failure(error))?;
                Failure::file(&named(file), error).said();
                self.failed = true;
            }
        }
        self.end()
    }

    fn file<F: Form>(&mut self, file: &OsStr, mut form: F) -> Result<io::Result<()>, Failure> {
        let input = match Input::open(file, self.watched) {
            Ok(input) => input,
            Err(error) => return Ok(Err(error)),
        };
        let mut recording = Recording::<_, F::Dialect>::new(input, PIECE);
        let (mut frames, mut begun) = (0, false);
        let ended = loop {
            let ended = match recording.go_on() {
                Ok(ended) => ended,
                Err(error) => return Ok(Err(error)),
            };
            // Not before something of it could be read.
            if !begun {
                form.begin(self.begin(file).as_deref(), self.output.text());
                begun = true;
            }
            self.frames(&recording, &mut form)
                .map_err(|error| self.output.failure(error))?;
            frames += recording.rows().len() as u64;
            if let Some(ended) = ended {
                break ended;
            }
        };
        if let Err(error) = form.rest(&ended, || recording.end(), self.output.text()) {
            return Ok(Err(error));
        }
        self.summary.ended(&ended);
        form.end(&ended, frames, self.output.text());
        form.summed(&mut self.summary);
        Ok(Ok(()))
    }

    /// Those that a recording has just come to.
    fn frames<F: Form>(
        &mut self,
        recording: &Recording<impl Source, F::Dialect>,
        form: &mut F,
    ) -> io::Result<()> {
        for row in recording.rows() {
            self.summary.row(row);
            form.row(row, self.output.text());
            form.body(row, || recording.frame(row), self.output.text());
            self.output.settle()?;
        }
        for broken in recording.broken() {
            form.broken(broken, self.output.text());
            self.output.settle()?;
        }
        Ok(())
    }

    /// A listing more. What stands above it where there are several, as `head` has it.
    pub fn begin(&mut self, file: &OsStr) -> Option<String> {
        let gap = if replace(&mut self.begun, true) {
            "\n"
        } else {
            ""
        };
        let heading = || format!("{gap}==> {} <==\n", named(file));
        self.several.then(heading)
    }

    fn end(self) -> Result<Status, Failure> {
        // Each file has its line already, and there is nothing to sum up.
        if !self.begun {
            return Ok(Status::Failed);
        }
        let pending = self.output.pending().map(String::from);
        match pending.filter(|_| self.failed) {
            // A listing without one of its files is not whole.
            Some(name) => {
                drop(self.output);
                say(&format!("{name}: not written, since a file cannot be read"));
            }
            None => self.output.finish()?,
        }
        let text = self.summary.text(Paint::on(error_is_terminal()));
        let _ = io::stderr().write_all(text.as_bytes());
        Ok(match (self.failed, self.summary.is_sound()) {
            (true, _) => Status::Failed,
            (false, true) => Status::Sound,
            (false, false) => Status::Unsound,
        })
    }
}
