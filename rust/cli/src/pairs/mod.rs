//! `sheafsledge pairs`: the lister's columns, and which reply answers which request.

mod paired;

use crate::command::Command;
use crate::dialect::{self, Dialect, Plain, Unix, DIALECT, L};
use crate::help;
use crate::list;
use crate::status::{Failure, Status};
use crate::words::Words;

use paired::Paired;

pub const COMMAND: Command = Command {
    name: "pairs",
    says: "lists frames, and which reply answers which request",
    usage: "[OPTION].. FILE..",
    about: "\
Lists the frames of each recording as 'sheafsledge list' does, with one column
more. For a reply it is the position of the request that it answers: the latest
before it with the same tag that it can answer and that no reply has answered
yet; 'stray' if there is none. For a request it is the position of its answer,
or 'open' if there is none.

A reply can answer a known request of the same tag if its type is the next
number, or 7, an Rlerror; in 9P2000 and 9P2000.u 107, an Rerror. Bodies are not
looked at.
",
    options: &[DIALECT, list::OUTPUT, help::HELP],
    examples: &["pairs examples/diod-session.bin"],
    status: "\
0 if all is sound; 1 if there is a refusal, a tail, a stop, a stray or
an open request",
    run,
};

fn run(words: &Words) -> Result<Status, Failure> {
    dialect::of(words, [run_in::<L>, run_in::<Plain>, run_in::<Unix>])?(words)
}

fn run_in<D: Dialect>(words: &Words) -> Result<Status, Failure> {
    list::listed(words, |paint, listing, files| {
        listing.of(files, |_| Paired::<D>::new(paint))
    })
}
