//! `sheafsledge seal`: a recording with the trailer that tells whether it is whole.

use std::ffi::OsStr;

use sheafsledge::session::{seal, Recording};
use sheafsledge::{Refusal, Stop};

use crate::command::Command;
use crate::help;
use crate::input::{all_of, named};
use crate::list::{named_output, OUTPUT};
use crate::output::Output;
use crate::status::{refused, say, Failure, Status};
use crate::words::Words;

pub const COMMAND: Command = Command {
    name: "seal",
    says: "puts a trailer after the frames of a recording",
    usage: "STRETCH -o FILE",
    about: "\
Writes the frames of STRETCH to FILE, and after them a trailer of twelve bytes:
how many bytes they have, how many frames there are, and where the last one
starts, 0 if there is none; four bytes each, little endian. STRETCH '-' is
standard input, and FILE may be STRETCH.

By the trailer 'sheafsledge paths' knows that the recording is whole, and
'sheafsledge join' takes it off. Other commands stop at it, and so does 'seal'.

Refused, no file is made or altered, and one line on standard error says why:
12 or 13, and the byte where STRETCH breaks off; 19 if it has more than
4,294,967,295 bytes. Frames that are refused and tails are no hindrance.
",
    options: &[OUTPUT, help::HELP],
    examples: &["seal examples/diod-session.bin -o session.sealed"],
    status: "0 if FILE is written; 1 if STRETCH is refused",
    run,
};

fn run(words: &Words) -> Result<Status, Failure> {
    let [file] = words.files() else {
        return Err(words.wrong("name one recording, or '-' for standard input".into()));
    };
    let wanted = named_output(words)?;
    let bytes = all_of(file, false).map_err(|error| Failure::file(&named(file), error))?;
    match seal(&bytes) {
        Ok(trailer) => write(wanted, bytes, &trailer),
        Err(stop) => Ok(why(file, stop, &bytes)),
    }
}

/// Only now is there anything to be made or altered.
fn write(wanted: &OsStr, mut bytes: Vec<u8>, trailer: &[u8]) -> Result<Status, Failure> {
    let mut output = Output::open(Some(wanted))?;
    bytes.extend_from_slice(trailer);
    *output.text() = bytes;
    output.finish()?;
    Ok(Status::Sound)
}

fn why(file: &OsStr, stop: Stop, bytes: &[u8]) -> Status {
    let name = named(file);
    if stop.refusal == Refusal::Trailer {
        say(&format!(
            "{name}: refused with 19: no trailer can tell more than 4,294,967,295 bytes"
        ));
        return Status::Unsound;
    }
    let more = match Recording::open(bytes) {
        Ok(_) => "; it has a trailer already",
        Err(_) => "",
    };
    refused(&name, stop, more)
}
