//! `sheafsledge where`: at which byte a string breaks.

mod json;
mod lines;

use crate::command::Command;
use crate::dialect::{self, Dialect, Plain, Unix, DIALECT, L};
use crate::help;
use crate::list::{self, JSON, OUTPUT};
use crate::status::{Failure, Status};
use crate::words::{Opt, Words};

use json::Json;
use lines::Lines;

const NAMES: Opt = Opt {
    says: "adds the message's name and why it is refused",
    ..list::NAMES
};

pub const COMMAND: Command = Command {
    name: "where",
    says: "says at which byte a string breaks",
    usage: "[OPTION].. FILE..",
    about: "\
Prints a line for each frame that is refused with 5, since a string is not
UTF-8, or with 6, since a string has a zero byte; FILE '-' is standard input.

A line has the frame's position, the number, the place, and the bytes around it
in hex: at most 8 before it and 8 after it, the one at the place in brackets.
The place counts from the file's first byte. It is where the longest start of
the string ends that is UTF-8, so the first byte of the character that is
broken; or the string's first zero byte. No byte of another frame is shown, and
'..' says that the frame has more.

The last line is that of 'sheafsledge list'. Nothing is printed of other frames,
but the summary on standard error counts all.
",
    options: &[NAMES, JSON, DIALECT, OUTPUT, help::HELP],
    examples: &["where examples/diod-session.bin"],
    status: "0 if no string breaks and there is no stop, else 1",
    run,
};

fn run(words: &Words) -> Result<Status, Failure> {
    dialect::of(words, [run_in::<L>, run_in::<Plain>, run_in::<Unix>])?(words)
}

fn run_in<D: Dialect>(words: &Words) -> Result<Status, Failure> {
    let forms = (words.has(JSON.long), words.has(NAMES.long));
    list::listed(words, |paint, listing, files| match forms {
        (true, _) => listing.of(files, Json::<D>::of),
        (false, true) => listing.of(files, |_| Lines::<D, true>::new(paint)),
        (false, false) => listing.of(files, |_| Lines::<D, false>::new(paint)),
    })
}

/// Bytes in hex, a gap between two: `02 00`.
fn hex(text: &mut Vec<u8>, bytes: &[u8]) {
    const DIGITS: &[u8; 16] = b"0123456789abcdef";
    for (i, byte) in bytes.iter().enumerate() {
        if i > 0 {
            text.push(b' ');
        }
        let digits = [byte >> 4, byte & 15].map(|digit| DIGITS[digit as usize]);
        text.extend_from_slice(&digits);
    }
}
