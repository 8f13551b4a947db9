//! `sheafsledge fields`: where each field stands, for who shows a recording's bytes.

mod json;
mod lines;
mod parts;

use crate::command::Command;
use crate::dialect::{self, Dialect, Plain, Unix, DIALECT, L};
use crate::help;
use crate::list::{self, OUTPUT};
use crate::status::{Failure, Status};
use crate::words::{Opt, Words};

use json::Json;
use lines::Lines;
use parts::Parted;

const JSON: Opt = Opt {
    says: "prints an object a line instead, with the file and the\nmessage's name",
    ..list::JSON
};

pub const COMMAND: Command = Command {
    name: "fields",
    says: "says where each field of the frames stands",
    usage: "[OPTION].. FILE..",
    about: "\
Prints a line for each field of the frames of each recording; FILE '-' is
standard input. Each byte of a file belongs to one line.

A line has the frame's position, its type, the field's name, where the field
starts in the file and how long it is, and what it holds: a number; a text or a
walk's names in quotes, as JSON has them; a qid as TYPE.VERSION.PATH; of data
how many bytes it has; of a stat its eleven fields, in their order. A text,
names and qids begin with 2 bytes that count them, data and a stat with 4.
Other lines are named

  header   a frame's first 7 bytes: its size, its type and its tag
  tail     the bytes after its last field, if there are any
  refused  all after the header of a frame that is refused: the number, and why
  rest     from where the recording stops to its end: the number, and why

The last line, and the summary on standard error, are those of 'sheafsledge
list'.
",
    options: &[JSON, DIALECT, OUTPUT, help::HELP],
    examples: &["fields examples/diod-session.bin"],
    status: "0 if all is sound; 1 if there is a refusal, a tail or a stop",
    run,
};

fn run(words: &Words) -> Result<Status, Failure> {
    dialect::of(words, [run_in::<L>, run_in::<Plain>, run_in::<Unix>])?(words)
}

fn run_in<D: Dialect>(words: &Words) -> Result<Status, Failure> {
    let json = words.has(JSON.long);
    list::listed(words, |paint, listing, files| match json {
        true => listing.of(files, |file| Parted(Json::<D>::of(file))),
        false => listing.of(files, |_| Parted(Lines::<D>::new(paint))),
    })
}
