//! `sheafsledge paths`: the lister's columns, and which file a frame is about.

mod lines;

use std::ffi::OsStr;
use std::io;

use sheafsledge::session::{seal, Recording};
use sheafsledge::Refusal;

use crate::command::Command;
use crate::help;
use crate::input::{all_of, named};
use crate::list::{self, Listing, OUTPUT};
use crate::recording::Ended;
use crate::status::{say, Failure, Status};
use crate::terminal::Paint;
use crate::words::Words;

use lines::Lines;

pub const COMMAND: Command = Command {
    name: "paths",
    says: "lists frames, and which file each is about",
    usage: "[OPTION].. FILE..",
    about: "\
Follows one guest's frames from the first on, and lists them as 'sheafsledge
list' does, with the answer of the session and two columns more: a fid, and the
path of the file that it names. FILE '-' is standard input. FILE has to be
sealed: 'sheafsledge seal' gives a recording its trailer.

For a request these are its first fid and where that is; for a reply that gives
or moves a fid, that fid and where it is then. '-' stands for what there is not.
A path is in quotes, that of a root is \"\". In it '\"' and '\\' stand after a
'\\', and bytes below 32 and 127 are written as '\\xNN'.

A frame is refused by the codec, or by the session: with 20 if a request's tag
is open, 21 if a reply answers no open request, 22 if a fid that has to be new
is in use, 23 if a fid is unknown, 24 if there is no room: for 64 open requests,
64 fids and 256 places. Refused, it changes nothing.

Of a FILE without a trailer, or with another than that of its frames, 'stop 0
19' is all that is printed. A summary goes to standard error.
",
    options: &[OUTPUT, help::HELP],
    examples: &["paths session.sealed"],
    status: "0 if all is sound; 1 if there is a refusal, a tail or a stop",
    run,
};

fn run(words: &Words) -> Result<Status, Failure> {
    list::listed(words, |paint, listing, files| {
        listing.each(files, |listing, file| followed(listing, paint, file))
    })
}

/// A recording is known to be whole by its end, so that it is held.
fn followed(listing: &mut Listing, paint: Paint, file: &OsStr) -> Result<io::Result<()>, Failure> {
    let bytes = match all_of(file, listing.watched) {
        Ok(bytes) => bytes,
        Err(error) => return Ok(Err(error)),
    };
    let heading = listing.begin(file).unwrap_or_default();
    listing.output.text().extend_from_slice(heading.as_bytes());
    let written = match Recording::open(&bytes) {
        Ok(recording) => Lines::of(recording, paint).write(listing),
        Err(refusal) => unsealed(listing, paint, file, &bytes, refusal),
    };
    written.map_err(|error| listing.output.failure(error))?;
    Ok(Ok(()))
}

fn unsealed(
    listing: &mut Listing,
    paint: Paint,
    file: &OsStr,
    bytes: &[u8],
    refusal: Refusal,
) -> io::Result<()> {
    let ended = Ended::Stopped { at: 0, refusal };
    listing.summary.ended(&ended);
    lines::last(&ended, 0, paint, listing.output.text());
    listing.output.flush()?;
    let (number, sentence) = (refusal.number(), refusal.sentence());
    // Frames to the last byte are a recording that nobody has sealed; others are cut or altered.
    let hint = match seal(bytes) {
        Ok(_) => "; 'sheafsledge seal' makes one",
        Err(_) => "",
    };
    let name = named(file);
    say(&format!("{name}: refused with {number}: {sentence}{hint}"));
    Ok(())
}
