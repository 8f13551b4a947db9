//! `sheafsledge plan`: the Twrites by which a large write goes out.

use std::ffi::OsStr;

use sheafsledge::plan_writes;

use crate::command::Command;
use crate::digits::push;
use crate::help;
use crate::input::shown;
use crate::list::OUTPUT;
use crate::output::Output;
use crate::status::{say, Failure, Status};
use crate::words::Words;

pub const COMMAND: Command = Command {
    name: "plan",
    says: "cuts a large write into Twrites no longer than the msize",
    usage: "[OPTION].. FIRST LENGTH MSIZE",
    about: "\
Cuts a write of LENGTH bytes from offset FIRST on into Twrites, each frame no
longer than MSIZE: 23 bytes and its data, at most 33,554,432 of them. It prints
a header, a line for each piece with its offset and its length, and last
'pieces' and how many there are. No plan has fewer pieces.

Refused, nothing is printed, and one line on standard error says why: 26 if
MSIZE is below 24, 27 if the end is above 18,446,744,073,709,551,615, and 24 if
there are more than 16,777,216 pieces, which is as many as its table has rows.
",
    options: &[OUTPUT, help::HELP],
    examples: &["plan 0 1000000 65536"],
    status: "0 if there is a plan; 1 if it is refused",
    run,
};

/// As the help says. What of it no piece comes to takes no memory.
const ROWS: usize = 1 << 24;

fn run(words: &Words) -> Result<Status, Failure> {
    let [first, len, msize] = words.files() else {
        return Err(words.wrong("name FIRST, LENGTH and MSIZE".into()));
    };
    let first = number(words, "FIRST", first, u64::MAX)?;
    let len = number(words, "LENGTH", len, u64::MAX)?;
    let msize = number(words, "MSIZE", msize, u32::MAX.into())?;
    let mut table = vec![[0; 2]; ROWS];
    match plan_writes(&mut table, first, len, msize as u32) {
        Ok(plan) => print(words, plan),
        Err(refusal) => {
            let (number, sentence) = (refusal.number(), refusal.sentence());
            say(&format!("refused with {number}: {sentence}"));
            Ok(Status::Unsound)
        }
    }
}

/// Figures alone: no sign, no spaces, and not more than `most`.
fn number(words: &Words, what: &str, word: &OsStr, most: u64) -> Result<u64, Failure> {
    let figures = word.to_str().filter(|text| {
        let mut letters = text.bytes();
        letters.all(|letter| letter.is_ascii_digit())
    });
    let number = figures.and_then(|text| text.parse().ok());
    number.filter(|number| *number <= most).ok_or_else(|| {
        let word = shown(word);
        words.wrong(format!(
            "{what} is no decimal number up to {most}: '{word}'"
        ))
    })
}

fn print(words: &Words, plan: &[[u64; 2]]) -> Result<Status, Failure> {
    let mut output = Output::open(words.value(OUTPUT.long))?;
    output.text().extend_from_slice(b"offset length\n");
    for [offset, len] in plan {
        let text = output.text();
        push(text, *offset);
        text.push(b' ');
        push(text, *len);
        text.push(b'\n');
        output.settle().map_err(|error| output.failure(error))?;
    }
    let text = output.text();
    text.extend_from_slice(b"pieces ");
    push(text, plan.len() as u64);
    text.push(b'\n');
    output.finish()?;
    Ok(Status::Sound)
}
