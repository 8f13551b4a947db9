//! `sheafsledge join`: recordings one after the other, each of which has to read to its end.
//!
//! Then the listing of them all is that of the first, and after it that of the second, later by the
//! first's length, and so on: a law of the proved listing. After one that is cut, the next one's bytes
//! would be taken for what it lacks.
//!
//! The trailers of sealed recordings are dropped, and a new one is made: the sums of what they tell. A
//! trailer is known by the frames that were read before it, so that no recording has to be held.

mod copying;
mod mark;
mod reading;

use std::ffi::OsStr;
use std::io::{self, Write};

use crate::command::Command;
use crate::help;
use crate::input::{named, shown, Input};
use crate::list::{self, Summary, OUTPUT};
use crate::output::Output;
use crate::recording::Ended;
use crate::status::{say, Failure, Status};
use crate::terminal::{error_is_terminal, is_watched, Paint};
use crate::words::{Opt, Words};

use copying::Copying;
use mark::Mark;

const LAST_MAY_STOP: Opt = Opt {
    long: "last-may-stop",
    short: None,
    value: None,
    says: "takes the last recording as it is, also if it stops",
};

pub const COMMAND: Command = Command {
    name: "join",
    says: "joins recordings into one",
    usage: "[--last-may-stop] -o FILE RECORDING..",
    about: "\
Writes the recordings one after the other to FILE; RECORDING '-' is standard
input. FILE may be one of them. Then 'sheafsledge list' lists FILE as it lists
the first, and goes on as it lists the second, with positions that are greater
by the first's length; and so on.

That holds if each reads to its end. One that is cut, or has a size that no
frame has, is named with the position where it stops, and nothing is written.
Frames that are refused and tails are no hindrance, and are counted in the
summary on standard error.

Sealed recordings are joined without their trailers, and FILE is sealed then.
Either all are sealed or none is: else those without a trailer are named, and
nothing is written. Two frames of 12 bytes of which the second is a trailer of
the first are taken for one frame, sealed.
",
    options: &[LAST_MAY_STOP, OUTPUT, help::HELP],
    examples: &["join morning.bin afternoon.bin -o day.bin"],
    status: "\
0 if FILE is written; 1 if a recording stops or lacks a trailer, so
that it is not",
    run,
};

fn run(words: &Words) -> Result<Status, Failure> {
    let files = list::named_files(words)?;
    let wanted = list::named_output(words)?;
    let mut joining = Joining {
        output: Some(Output::whole(wanted)?),
        failed: false,
        sealed: None,
        bare: Vec::new(),
        summary: Summary::new(),
    };
    let last = files.len() - 1;
    for (k, file) in files.iter().enumerate() {
        let may_stop = k == last && words.has(LAST_MAY_STOP.long);
        if let Err(error) = joining.recording(file, may_stop)? {
            Failure::file(&named(file), error).said();
            (joining.failed, joining.output) = (true, None);
        }
    }
    joining.end(wanted)
}

struct Joining {
    /// None as soon as nothing will be written: then the other recordings are looked at alone.
    output: Option<Output>,
    /// Whether a recording could not be read.
    failed: bool,
    /// What the trailers of those that have one come to.
    sealed: Option<Mark>,
    /// Those that have none.
    bare: Vec<String>,
    summary: Summary,
}

impl Joining {
    /// The inner error is of the recording: the others can still be looked at.
    fn recording(&mut self, file: &OsStr, may_stop: bool) -> Result<io::Result<()>, Failure> {
        let input = match Input::open(file, is_watched(false)) {
            Ok(input) => input,
            Err(error) => return Ok(Err(error)),
        };
        let mut source = Copying::new(input, self.output.as_mut());
        let read = reading::read(&mut source, may_stop, &mut self.summary);
        let unwritten = source.unwritten;
        if let Some((output, error)) = self.output.as_ref().zip(unwritten) {
            return Err(output.failure(error));
        }
        match read {
            Ok((_, Some(mark))) => {
                self.sealed = Some(self.sealed.unwrap_or_default().then(mark));
            }
            Ok((Ended::Stopped { at, refusal }, None)) if !may_stop => {
                let (number, sentence) = (refusal.number(), refusal.meaning());
                let file = named(file);
                say(&format!("{file}: stops at {at} with {number}: {sentence}"));
                self.output = None;
            }
            Ok((_, None)) => self.bare.push(named(file)),
            Err(error) => return Ok(Err(error)),
        }
        Ok(Ok(()))
    }

    fn end(mut self, wanted: &OsStr) -> Result<Status, Failure> {
        let status = match self.sealed_too() {
            Ok(output) => {
                output.finish()?;
                Status::Sound
            }
            Err(why) => {
                say(&format!("{}: not written, since {why}", shown(wanted)));
                match self.failed {
                    true => Status::Failed,
                    false => Status::Unsound,
                }
            }
        };
        let text = self.summary.text(Paint::on(error_is_terminal()));
        let _ = io::stderr().write_all(text.as_bytes());
        Ok(status)
    }

    /// The output, with a trailer if all had one; or why there is none.
    fn sealed_too(&mut self) -> Result<Output, &'static str> {
        // With one that has a trailer, nobody should lose or be given one unseen.
        let bare = self.sealed.map_or(&[][..], |_| &self.bare);
        for name in bare {
            say(&format!(
                "{name}: has no trailer, and others have one; 'sheafsledge seal' makes one"
            ));
        }
        let mut output = match self.output.take() {
            Some(output) => output,
            None if self.failed => return Err("a recording cannot be read"),
            None => return Err("a recording does not read to its end"),
        };
        if !bare.is_empty() {
            return Err("not all recordings have a trailer");
        }
        if let Some(mark) = self.sealed {
            let trailer = mark.trailer();
            let trailer = trailer.ok_or("no trailer can tell more than 4,294,967,295 bytes")?;
            output.text().extend_from_slice(&trailer);
        }
        Ok(output)
    }
}
