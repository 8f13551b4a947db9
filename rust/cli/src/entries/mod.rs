//! `sheafsledge entries`: the entries of directories, as an Rreaddir's data holds them.

mod block;
mod lines;

use crate::command::Command;
use crate::help;
use crate::list::{self, OUTPUT};
use crate::status::{Failure, Status};
use crate::words::{Opt, Words};

use lines::Lines;

const BLOCK: Opt = Opt {
    long: "block",
    short: None,
    value: None,
    says: "takes each FILE for one block, the data of an Rreaddir\nalone",
};

pub const COMMAND: Command = Command {
    name: "entries",
    says: "lists the directory entries that Rreaddirs hold",
    usage: "[OPTION].. FILE..",
    about: "\
Lists the directory entries of each Rreaddir of each recording; FILE '-' is
standard input. Other frames are passed over.

Each block of entries, the data of one Rreaddir, starts with 'frame POSITION',
the position of its frame. Then it has a line an entry: the entry's position in
the block, its qid's type, version and path, its offset, its type, and its name
in quotes. In a name '\"' and '\\' stand after a '\\', and bytes below 32 and 127
are written as '\\xNN'. The block's last line is 'end POSITION ENTRIES', or
'stop POSITION NUMBER' at an entry that is cut (1), whose name is not UTF-8 (5)
or has a zero byte (6). With --block there is one block a file, and no line for
a frame.

The last line, and the summary on standard error, are those of 'sheafsledge
list'; with --block the summary counts entries.
",
    options: &[BLOCK, OUTPUT, help::HELP],
    examples: &["entries examples/diod-session.bin"],
    status: "\
0 if all is sound; 1 if there is a refusal, a tail or a stop, of a block
too",
    run,
};

fn run(words: &Words) -> Result<Status, Failure> {
    match words.has(BLOCK.long) {
        true => block::listed(words),
        false => list::listed(words, |paint, listing, files| {
            listing.of(files, |_| Lines::new(paint))
        }),
    }
}
