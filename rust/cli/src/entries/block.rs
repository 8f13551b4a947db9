//! Files that are a block each.

use std::io::{self, Write};

use crate::input::{all_of, named};
use crate::list::{named_files, numbered, OUTPUT};
use crate::output::Output;
use crate::status::{say, Failure, Status};
use crate::terminal::{is_watched, Paint};
use crate::words::Words;

use super::lines::{begin, block, Counted};

/// A block is what a frame holds, so that each file is read as a whole.
pub fn listed(words: &Words) -> Result<Status, Failure> {
    let files = named_files(words)?;
    let mut output = Output::open(words.value(OUTPUT.long))?;
    let watched = is_watched(output.is_terminal());
    let paint = Paint::on(output.is_terminal());
    let (mut counted, mut bytes, mut begun, mut failed) = (Counted::default(), 0, false, false);
    for file in files {
        let read = match all_of(file, watched) {
            Ok(read) => read,
            Err(error) => {
                output.flush().map_err(|error| output.failure(error))?;
                Failure::file(&named(file), error).said();
                failed = true;
                continue;
            }
        };
        let gap = if begun { "\n" } else { "" };
        let heading = (files.len() > 1).then(|| format!("{gap}==> {} <==\n", named(file)));
        begin(heading.as_deref(), output.text());
        block(&read, paint, &mut counted, output.text());
        output.settle().map_err(|error| output.failure(error))?;
        bytes += read.len() as u64;
        begun = true;
    }
    if !begun {
        return Ok(Status::Failed);
    }
    match output.pending().map(String::from).filter(|_| failed) {
        // A listing without one of its files is not whole.
        Some(name) => {
            drop(output);
            say(&format!("{name}: not written, since a file cannot be read"));
        }
        None => output.finish()?,
    }
    let Counted { entries, stops } = counted;
    let entries = crate::list::entries(entries);
    let (bytes, summed) = (numbered(bytes, "byte"), numbered(stops, "stop"));
    let _ = writeln!(io::stderr(), "{entries}, {bytes}, {summed}");
    Ok(match (failed, stops) {
        (true, _) => Status::Failed,
        (false, 0) => Status::Sound,
        (false, _) => Status::Unsound,
    })
}
